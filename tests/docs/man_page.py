#!/usr/bin/env python3
"""Compares man/ptab.8 with docs/commands.md and with the program's --help: every command, option, word and status that one of them has
stands in the other. The --help of each command has the texts that docs/texts.toml says it has, with their sentences, and no other; what
else is made of that file tests/docs/texts.py compares. The program, its definition, its --help and docs/format.md list the same type
codes, and the other pages say where they are listed. Then it runs the man page's examples. With groff the page is rendered, and must have
no warnings and no line past 80 columns.

usage: tests/docs/man_page.py PTAB
"""
import os
import re
import shutil
import subprocess
import sys
import tempfile

TOP = os.path.join(os.path.dirname(os.path.abspath(__file__)), "..", "..")
sys.path[:0] = [os.path.join(TOP, "tests", "shared"), os.path.join(TOP, "packaging")]
import compared
import put_texts
from commands import COMMANDS
from compared import same
from put_texts import flat, read

# the options of all commands, and of all that write, which docs/commands.md tells once
COMMON = ("[--sector-size BYTES]", "[--device]", "[--in-use]")


def holds(where, text, what):
    compared.count += 1
    if flat(what) not in text:
        sys.exit(f"{where} doesn't say: {what}")


def plain(line):
    """A line of the page's source without its escapes."""
    line = re.sub(r"\\f[BIRP]", "", line.replace(r"\e", "\\")) if r"\e" in line else re.sub(r"\\f[BIRP]", "", line)
    return line.replace(r"\-", "-").replace(r"\(bu", "-").replace(r"\&", "")


def sections(source):
    """{name: lines} of the page's source."""
    found = {}
    for line in source.splitlines():
        if line.startswith(".SH "):
            name = line[4:]
            found[name] = []
        elif not line.startswith('.\\"') and found:
            found[name].append(line)
    return found


def tagged(lines):
    """{tag: text} of each tagged paragraph; tags that share one (.TQ) each have it."""
    found, open_tags, is_tag = {}, [], False
    for line in lines:
        if line in (".TP", ".TQ"):
            open_tags = open_tags if line == ".TQ" else []
            is_tag = True
        elif is_tag:
            tag = plain(line.removeprefix(".B "))
            if tag in found:
                sys.exit(f"man/ptab.8 has {tag} twice")
            found[tag] = ""
            open_tags.append(tag)
            is_tag = False
        elif line.startswith(".SS"):
            open_tags = []
        elif not re.match(r"\.[A-Z]{2}|\.[a-z]{2}$", line):
            for tag in open_tags:
                found[tag] += plain(line.removeprefix(".B ")) + " "
    return found


def rendered():
    """Whether there is groff; the page as it shows it has no warnings, and no line that is too wide."""
    if shutil.which("groff") is None:
        return False
    for flags in (("-ww", "-rLL=300n", "-P-c"), ("-rLL=80n", "-P-cbou")):
        done = subprocess.run(["groff", "-man", "-Tutf8", *flags, f"{TOP}/man/ptab.8"], capture_output=True, text=True)
        same("groff's warnings", (done.returncode, done.stderr), (0, ""))
    same("the widest line at 80 columns", max(map(len, done.stdout.splitlines())) <= 80, True)
    return True


def tables(docs):
    """(heading of its first column, cells) of each row of the document's tables."""
    head = None
    for line in docs.splitlines():
        if not line.startswith("|"):
            head = None
        if not line.startswith("| "):
            continue
        cells = [cell.strip() for cell in line.strip("|").split(" | ")]
        if head is None:
            head = cells[0].strip()
        else:
            yield head, cells


def help_of(ptab, *words, how="--help"):
    done = subprocess.run([ptab, *words, how], capture_output=True, text=True)
    if done.returncode != 0:
        sys.exit(f"ptab {' '.join(words)} {how}: status {done.returncode}")
    return done.stdout


def told_rows(text):
    """{text: sentence} of a page of --help: a text stands behind two spaces, its sentence behind more of them or on the next lines."""
    found, last = {}, None
    for line in text[text.index("Exit status: " if "Exit status: " in text else "Exit status:"):].splitlines():
        row = re.fullmatch(r"  (\S.*?)(?:   *(\S.*))?", line)
        if row:
            last = row[1]
            same(f"{last} stands once", last in found, False)
            found[last] = row[2] or ""
        elif last and line.startswith("     "):
            found[last] = f"{found[last]} {line.strip()}".strip()
        else:
            last = None
    return {key: value.replace("`", "") for key, value in found.items()}


def arguments(usage, *but):
    """A usage's arguments and options, but for some; an option may stand before the image or behind it."""
    return sorted(it for it in re.findall(r"\[[^]]*\]|\S+", usage) if it not in but)


def digits(text):
    """The statuses that a --help tells."""
    told = text.split("Exit status: ")[1].replace("\n", " ").split(". ")[0]
    return "".join(re.findall(r"(?:^|, )(\d) ", told))


def commands(ptab, page, docs):
    """Commands, their arguments and options, and their statuses."""
    whole = help_of(ptab)
    told = re.findall(r"^  (\w+)  ", whole.split("Options:")[0], re.MULTILINE)
    same("the commands of --help", told, [*COMMANDS, "help"])
    same("the commands of docs/commands.md", re.findall(r"`ptab (\w+)", docs.split("\n\n")[1]), list(COMMANDS))
    synopsis = [plain(line.removeprefix(".B ")) for line in page["SYNOPSIS"] if line.startswith(".B ")]
    same("the commands of SYNOPSIS", [line.split()[1] for line in synopsis], [*COMMANDS, "help"])
    described = tagged(page["COMMANDS"])
    same("the commands of COMMANDS", list(described), [*COMMANDS, "help"])
    options = set()
    for line in synopsis[:-1]:
        name = line.split()[1]
        text = help_of(ptab, name, how="-h")
        usage = re.search(rf"Usage: ptab {name}(?: \[OPTIONS\])?(.*)", text).group(1).replace("<", "").replace(">", "")
        same(f"the arguments of {name}", re.sub(r" \[--[^]]*\]", "", line), f"ptab {name}{usage}")
        listed = text.split("Options:\n")[1].split("\n\n")[0]
        taken = [f"{option} {value}".strip() for option, value in re.findall(r"^ +(--[\w-]+)(?: <(\w+)>)?", listed, re.MULTILINE)]
        same(f"the options of {name}", re.findall(r"\[(--[^]]*)\]", line), taken)
        options |= set(taken)
        told = re.search(rf"`ptab ({name}(?: [^`]*)?)`", docs).group(1)
        same(f"docs/commands.md on {name}", arguments(told), arguments(line.removeprefix("ptab "), *COMMON))
        statuses = re.search(r"Exit status: ([\d, ]+)\.", described[name]).group(1).replace(", ", "")
        same(f"the statuses of {name}", statuses, digits(text))
    same("the options of OPTIONS", set(tagged(page["OPTIONS"])), options | {"-h, --help", "-V, --version"})
    for option in options:
        holds("docs/commands.md", docs, option.split()[0])
    holds("ptab --help", flat(whole), "-h, --help")
    holds("ptab --help", flat(whole), "-V, --version")
    for size in ("512", "4096"):
        holds("OPTIONS", tagged(page["OPTIONS"])["--sector-size BYTES"], size)


def words(ptab, page, docs):
    """Every form of a word, with its example."""
    forms = {cells[0].strip("`"): cells[2] for head, cells in tables(docs) if head == "Word"}
    described = tagged(page["WORDS"])
    same("the words of docs/commands.md", set(described), set(forms))
    told = help_of(ptab, "edit").split("Words:")[1].split("PATH is")[0]
    told = re.sub(r"\([^)]*\)", "", flat(told))
    same("the words of ptab edit --help", {part.split()[0] for part in told.strip(" .").split(", ")}, set(forms))
    for form, example in forms.items():
        holds(f"the example of {form}", flat(described[form]), f"Example: {example.strip('`')}.")
    for bit in re.findall(r"(\d+) (required|no block IO protocol|legacy BIOS bootable)", docs):
        holds("A:NUM:BIT:V", described["A:NUM:BIT:V"].replace('"', "").replace("0 is", "0"), " ".join(bit))


def stored(guid):
    """A GUID's bytes as a disk has them, by its text."""
    text = guid.replace("-", "")
    return "".join(text[at:at + 2] for at in (6, 4, 2, 0, 10, 8, 14, 12, *range(16, 32, 2)))


def codes(ptab, page, docs):
    """The type codes, and where the pages say that they are listed."""
    table = re.findall(r"^\| ([0-9A-F]{4}) \| ([0-9A-F-]{36}) \|", read("docs/format.md"), re.MULTILINE)
    rows = re.findall(r"0x([0-9A-F]{4}),\s*Guid\(\[([^]]*)\]\)", read("crates/pt_guid/src/codes.rt"))
    same("the codes of the program", [(code, re.sub(r"0x|[\s,]", "", bytes)) for code, bytes in rows],
         [(code, stored(guid)) for code, guid in table])
    defined = re.findall(r"\(0x([0-9A-F]{4}), ", read("crates/pt_guid/specs/Codes.antt"))
    same("the codes of the definition", defined, [code for code, _ in table])
    told = re.search(r"\bCODE ((?:[0-9A-F]{4}\b ?)+)", flat(help_of(ptab, "edit"))).group(1)
    same("the codes of ptab edit --help", told.split(), [code for code, _ in table])
    holds("WORDS", flat(" ".join(map(plain, page["WORDS"]))), "ptab edit --help lists")
    holds("docs/commands.md", docs, "docs/format.md lists the type codes")


def pages(ptab):
    """Each page of --help has the texts that docs/texts.toml says it has, and no other, each with its sentence; and so have the statuses
    of the page of all."""
    said, texts = put_texts.loaded()
    texts = [it for it in texts if it.text]
    for name in COMMANDS:
        page = help_of(ptab, name)
        told = {**told_rows(page), **{text: flat(it) for text, it in re.findall(r"^`([^`]*)`: (.*?)\.$", page, re.DOTALL | re.MULTILINE)}}
        same(f"the texts of ptab {name} --help", {it.text: told[it.text] for it in texts if it.pages and it.text in told},
             {it.text: it.on_page().replace("`", "") for it in texts if name in it.pages})
    rows = {str(it.status): (f"{it.text}: " if it.text else "") + it.on_page() for it in said["statuses"]}
    same("the statuses of --help", told_rows(help_of(ptab)), rows)
    same("the statuses of -h", digits(help_of(ptab, how="-h")), "".join(rows))


def examples(ptab, page):
    """Runs the commands of EXAMPLES in a folder, each with the output that follows it."""
    block = "\n".join("$EX" if line == ".EX" else plain(line) for line in page["EXAMPLES"] if line != ".EE")
    session = "".join(part.split("\n.PP")[0].split(".PP")[0] + "\n" for part in block.split("$EX\n")[1:])
    session = re.sub(r"\n(?!\$|    )([A-Z][^\n]*:)?\n", "\n", session)
    with tempfile.TemporaryDirectory() as folder:
        os.mkdir(f"{folder}/bin")
        os.symlink(ptab, f"{folder}/bin/ptab")
        where = {**os.environ, "PATH": f"{folder}/bin:{os.environ['PATH']}"}
        for part in re.split(r"^\$ ", session, flags=re.MULTILINE)[1:]:
            command, output = part.split("\n", 1)
            while command.endswith("\\"):
                more, output = output.split("\n", 1)
                command = f"{command}\n{more}"
            done = subprocess.run(["sh", "-c", command], cwd=folder, env=where, capture_output=True, text=True)
            same(f"$ {command}", (done.stdout + done.stderr).split(), output.split())


def main():
    ptab = os.path.abspath(sys.argv[1])
    docs, page = read("docs/commands.md"), sections(read("man/ptab.8"))
    same("the page's sections", list(page), ["NAME", "SYNOPSIS", "DESCRIPTION", "OPTIONS", "COMMANDS", "WORDS", "PLANS", "EXIT STATUS",
                                            "DIAGNOSTICS", "EXAMPLES", "CAVEATS", "SEE ALSO"])
    by_groff = rendered()
    commands(ptab, page, docs)
    words(ptab, page, docs)
    codes(ptab, page, docs)
    pages(ptab)
    examples(ptab, page)
    print(f"the man page, {'also as groff shows it' if by_groff else 'its source'}: {compared.count} compared, 0 differ")


main()
