#!/usr/bin/env python3
"""Holds the documents against what they tell of. Each example session of README, of docs/commands.md, of docs/other_tools.md and of
docs/table.md is run, a document's sessions in their order in one folder, and each command there answers what the document shows;
docs/commands.md has one for each command, and says of each answer that isn't a success what to do. README's piece of a program stands in
the example that it names, and examples/README.md lists each example. What docs/promises.md names is there, and it leaves out no public
function with a contract (promised.py). Each file and each crate that the pages on the repository name is there. tests/README.md has each
script as its own text has it, and the gate runs it or the page says that it doesn't. No line of a source is longer than the prover takes.

usage: tests/docs/docs.py PTAB [DOCUMENT...]
"""
import ast
import glob
import os
import re
import subprocess
import sys
import tempfile

TOP = os.path.join(os.path.dirname(os.path.abspath(__file__)), "..", "..")
sys.path.insert(0, os.path.join(TOP, "tests", "shared"))
from commands import COMMANDS
from promised import promises, read, rows

DOCUMENTS = ("README.md", "docs/commands.md", "docs/other_tools.md", "docs/table.md")
# the pages on the repository; how they name a file and a crate; the files that they name of any crate, and names that stand for others
NAMING = ("CONTRIBUTING.md", "tests/README.md", "docs/architecture.md", "docs/own_disk.md", "examples/README.md")
NAMED = re.compile(r"(?<![\w/$])((?:\.\./)*[\w/*-]+\.(?:rt|antt|txt|py|sh|md|[ch]|rs|zsh|bash|fish|8)"
                   r"|(?:docs|tests|man|include|examples|completion|packaging|bindings|bench|tools|crates)/[\w/.*-]*\w)(?![\w/])")
CRATE = re.compile(r"\b(?:pt|test|example)_[a-z]\w*")
GENERIC = ("wrong_bodies.txt", "laws.rt", "Lib.antt", "specs/inner.antt", "specs/inner/ForFields.antt")
STANDS_FOR = re.compile(r"crates/NAME\b|/out/|\bCRATE/|^proofs/Json\.antt$|^src/json\.rt$")
# how many characters a line of these has at most: the prover refuses a longer one
WIDTH, SOURCES = 140, (".rt", ".antt", ".py", ".sh", ".c", ".h", ".rs")
# the rows of docs/commands.md that need no advice
SUCCESSES = ("a number", "0")


def blocks(text):
    """The blocks of a document that hold commands."""
    return [found for found in re.findall(r"^```\n(.*?)^```$", text, re.DOTALL | re.MULTILINE) if found.startswith("$ ")]


def steps(block):
    """(command, the output that follows it) of each command; the text that it takes behind <<END, up to that word, is a part of it."""
    for part in re.split(r"^\$ ", block, flags=re.MULTILINE)[1:]:
        command, output = part.split("\n", 1)
        while command.endswith(("\\", "|")):
            more, output = output.split("\n", 1)
            command = f"{command}\n{more}"
        here = re.search(r"<<(\w+)$", command)
        if here:
            text, output = re.split(rf"^{here[1]}\n", output, maxsplit=1, flags=re.MULTILINE)
            command = f"{command}\n{text}{here[1]}"
        yield command, output


def run(ptab, name, text):
    """How many commands of a document's sessions were run."""
    session = [step for block in blocks(text) for step in steps(block)]
    if not session:
        sys.exit(f"{name} has no session")
    with tempfile.TemporaryDirectory() as folder:
        os.mkdir(f"{folder}/bin")
        os.symlink(ptab, f"{folder}/bin/ptab")
        os.symlink(os.path.abspath(f"{TOP}/tools/ptab-run"), f"{folder}/bin/ptab-run")
        where = {**os.environ, "PATH": f"{folder}/bin:{os.environ['PATH']}:/usr/sbin:/sbin", "LC_ALL": "C.UTF-8"}
        os.mkdir(f"{folder}/images")
        for command, wanted in session:
            done = subprocess.run(["sh", "-c", command], cwd=f"{folder}/images", env=where, capture_output=True, text=True)
            if done.stdout + done.stderr != wanted:
                sys.exit(f"{name}: $ {command}\n  found  {done.stdout + done.stderr!r}\n  wanted {wanted!r}")
    return len(session)


def each_command(text):
    """Each command's section has a session that calls it."""
    for name in COMMANDS:
        section = re.search(rf"^## {name}\n(.*?)(?=^## |\Z)", text, re.DOTALL | re.MULTILINE)
        if not section or not any(re.match(rf"ptab {name}\b", command) for block in blocks(section[1]) for command, _ in steps(block)):
            sys.exit(f"docs/commands.md has no example of ptab {name}")


def pieces(name, text):
    """How many lines of programs a document shows; each block stands as a whole in the file that the line before it names."""
    count = 0
    for path, piece in re.findall(r"`(crates/[^`]*\.rt)`[^\n]*\n\n```rust\n(.*?)^```$", text, re.DOTALL | re.MULTILINE):
        if piece not in read(path):
            sys.exit(f"{name}: this isn't in {path}:\n{piece}")
        count += piece.count("\n")
    if count == 0 and "```rust" in text:
        sys.exit(f"{name} shows a program and doesn't name its file")
    return count


def advice(text):
    """How many answers of docs/commands.md say what to do: all but the successes."""
    count = 0
    for head, cells in rows(text):
        if head[0] in ("Table", "Word", "E", "Where", "Left out"):
            continue
        if head[-1] != "What to do" or len(cells) != len(head) or not (cells[-1] or cells[0] in SUCCESSES):
            sys.exit(f"docs/commands.md doesn't say what to do: {cells}")
        count += 1
    return count


def examples():
    """How many examples there are: examples/README.md lists them all, with how to run them, and no other."""
    text = read("examples/README.md")
    there = {os.path.relpath(f"{folder}/{name}", f"{TOP}/examples") for folder, _, names in os.walk(f"{TOP}/examples") for name in names}
    there = {name for name in there if name != "README.md"} | {f"../crates/{name}/src/main.rt" for name in os.listdir(f"{TOP}/crates")
                                                              if name.startswith("example_")}
    told = set(re.findall(r"\]\(([^)]*)\)", text))
    for name in told:
        if not os.path.exists(f"{TOP}/examples/{name}"):
            sys.exit(f"examples/README.md names what isn't there: {name}")
    if there - told:
        sys.exit(f"examples/README.md doesn't list {sorted(there - told)}")
    if any("" in cells for _, cells in rows(text)):
        sys.exit("examples/README.md has an example without a line on it")
    return len(there)


def places(name):
    """How many files and crates a document names; each is there. A path begins in the repository, beside the document, or in tests/;
    or in the crate, or beside the file, that its line names before it, or at all where it names none before."""
    count = 0
    for line in read(name).splitlines():
        crates, beside = CRATE.findall(line), ""
        crate = f"crates/{crates[0]}" if crates else ""
        for found in crates:
            if not os.path.isdir(f"{TOP}/crates/{found}"):
                sys.exit(f"{name} names {found}, which is no crate: {line}")
            count += 1
        for path in (found[1] for found in NAMED.finditer(line)):
            first = path.partition("/")[0]
            if os.path.isdir(f"{TOP}/crates/{first}"):
                crate = f"crates/{first}"
            there = [it for it in (path, f"{os.path.dirname(name)}/{path}", f"tests/{path}", f"crates/{path}", f"{crate}/{path}",
                                   f"{crate}/specs/{path}", f"{beside}/{path}") if glob.glob(f"{TOP}/{it}")]
            if not there and path not in GENERIC and not STANDS_FOR.search(path):
                sys.exit(f"{name} names {path}, which isn't there: {line}")
            beside = os.path.dirname(there[0]) if there else beside
            count += 1
    return count


def headings():
    """How many files of definitions the headings of docs/model.md name, behind their crate: each is there."""
    count = 0
    for line in re.findall(r"^## .*$", read("docs/model.md"), re.MULTILINE):
        for crate, names in re.findall(r"`(pt_\w+)`: ([\w, ]+)", line):
            for name in names.split(", "):
                if not os.path.isfile(f"{TOP}/crates/{crate}/specs/{name}.antt"):
                    sys.exit(f"docs/model.md names {name} of {crate}, which isn't there: {line}")
                count += 1
    return count


def scripts():
    """How many scripts tests/README.md has: each that says how it is run, in those words, and no other; the gate runs each, but those of
    which the page says that it doesn't."""
    page = read("tests/README.md")
    listed = re.findall(r"^\| `((\w+/\w+\.py)[^`]*)` \|", page, re.MULTILINE)
    left_out = re.findall(r"^The gate doesn't run `(\w+/\w+\.py)`", page, re.MULTILINE)
    usages = {}
    for path in glob.glob(f"{TOP}/tests/*/*.py"):
        with open(path, encoding="utf-8") as it:
            found = re.search(r"^usage: tests/(.*?)(?:  .*)?$", ast.get_docstring(ast.parse(it.read())) or "", re.MULTILINE)
        if found:
            usages[os.path.relpath(path, f"{TOP}/tests")] = found[1]
    gate = read("test.sh")
    for text, path in listed:
        if usages.get(path) != text:
            sys.exit(f"tests/README.md has {text}, and the script says {usages.get(path)}")
        if (path in left_out) == bool(re.search(rf"^(?:then |even |odd |alone )?{path}\b", gate, re.MULTILINE)):
            sys.exit(f"test.sh runs tests/{path} against tests/README.md, or doesn't run it")
    if set(usages) - {path for _, path in listed}:
        sys.exit(f"tests/README.md doesn't list {sorted(set(usages) - {path for _, path in listed})}")
    return len(listed)


def lines():
    """How many sources have no line that is too long."""
    names = subprocess.run(["git", "-C", TOP, "ls-files", "-z"], capture_output=True, text=True, check=True).stdout.split("\0")
    names = [name for name in names if name.endswith(SOURCES) and os.path.isfile(f"{TOP}/{name}")]
    for name in names:
        for number, line in enumerate(read(name).splitlines(), 1):
            if len(line) > WIDTH:
                sys.exit(f"{name}:{number} has {len(line)} characters, and {WIDTH} are the most")
    return len(names)


def main():
    ptab = os.path.abspath(sys.argv[1])
    for name in sys.argv[2:] or DOCUMENTS:
        text = read(name)
        print(f"{name}'s sessions: {run(ptab, name, text)} passed, 0 failed; {pieces(name, text)} lines of a program are as in its file")
    each_command(read("docs/commands.md"))
    print(f"docs/commands.md: {advice(read('docs/commands.md'))} answers say what to do; examples/README.md lists {examples()} examples")
    print(f"docs/promises.md: {promises()} names are there, no call left out; docs/model.md: {headings()} files of definitions are there")
    for name in NAMING:
        print(f"{name}: {places(name)} files and crates are there")
    print(f"tests/README.md: {scripts()} scripts are run as it says; {lines()} sources have no line of more than {WIDTH} characters")


main()
