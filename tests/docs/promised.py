"""docs/promises.md beside the sources. Each name in its tables is there: a function or a type in the file that its row names, a clause in
the contract of a function of that row, a definition in its file. A row has all named clauses of its functions, and each public function
that has a contract stands in a row of its crate. What the page has in backticks elsewhere is a word of some source or a path, and
README's links lead to its headings.
"""
import glob
import os
import re
import subprocess
import sys

TOP = os.path.dirname(os.path.dirname(os.path.dirname(os.path.abspath(__file__))))
sys.path.insert(0, os.path.join(TOP, "tests"))
from functions import end_of, functions_in, plain

PAGE = "docs/promises.md"
# words of the tables that stand for clauses. Of a method that has its trait's clauses only further ones are named
STAND_FOR = {"reading": {"same", "blames"}, "writing": {"count", "name", "blames"}}
THE_TRAITS = {"same", "blames", "fault", "bytes", "count", "name", "done", "failed"}
CLAUSE = re.compile(r"\bensures(?: \*)?(?: (\w+))?\s*\{")
PUBLIC = re.compile(r"^\s*pub (?:const |unsafe |extern \"C\" )*fn\b", re.MULTILINE)
ITEM = r"\b(?:struct|enum|type|trait|ghost) {}\b"
FILE = re.compile(r"((?:crates/\w+/)?(?:src|specs|proofs)/[\w/]+\.(?:rt|antt))|`([^`]*)`")


def read(name):
    with open(os.path.join(TOP, name), encoding="utf-8") as it:
        return it.read()


def wrong(text):
    sys.exit(f"{PAGE}: {text}")


class Call:
    """A function of a file, with the type or the trait that it belongs to. Of its clauses it has the names, '' for those without one."""

    def __init__(self, text, function, traits):
        place = text.index(function.signature)
        trait = next((name for name, start, end in traits if start < place < end), "")
        self.name, self.owner = function.name, plain(function.impl.type) if function.impl else trait
        self.clauses = {it[1] or "" for it in CLAUSE.finditer(function.clauses)}
        self.is_public = bool(trait or PUBLIC.search(function.signature) or function.impl and function.impl.trait)


def calls_of(file):
    text = read(file)
    traits = [(it[1], it.start(), end_of(text, text.index("{", it.end()))) for it in re.finditer(r"^pub trait (\w+)", text, re.MULTILINE)]
    return [Call(text, it, traits) for it in functions_in(text)]


def shown(file):
    """The files of a module and of the public modules in it, and the names that they show of others."""
    text, whole = read(file), {file}
    folder = os.path.dirname(file) if file.endswith(("/lib.rt", "/main.rt")) else file.removesuffix(".rt")
    names = {it.split(" as ")[0].strip().split("::")[-1] for body in re.findall(r"^pub use ([^;]*);", text, re.MULTILINE)
             for it in re.sub(r"^.*\{|\}", "", body, flags=re.DOTALL).split(",")}
    for module in re.findall(r"^pub mod (\w+);", text, re.MULTILINE):
        more, those = shown(f"{folder}/{module}.rt")
        whole, names = whole | more, names | those
    return whole, names


def public(crate):
    """(type, name) of each public function of a crate that has a contract."""
    root = next(it for it in (f"crates/{crate}/src/lib.rt", f"crates/{crate}/src/main.rt") if os.path.isfile(f"{TOP}/{it}"))
    whole, names = shown(root)
    files = (os.path.relpath(it, TOP) for it in glob.glob(f"{TOP}/crates/{crate}/src/**/*.rt", recursive=True))
    return {(call.owner, call.name) for file in files for call in calls_of(file)
            if call.is_public and call.clauses and (file in whole or (call.owner or call.name) in names)}


def names_in(text):
    """(type, name) of each name in backticks: `f`, `T::f`, and `T::{f, g}` for several."""
    for found in re.findall(r"`([^`]*)`", text):
        owner, _, names = found.rpartition("::{") if found.endswith("}") else found.rpartition("::")
        for name in names.removesuffix("}").split(","):
            yield owner, name.strip()


def groups_in(cell):
    """(names, clauses) of each group of calls in a cell; the clauses are None where none are named."""
    for part in re.findall(r"[^;()]*`[^;()]*(?:\([^()]*\))?", cell):
        calls, _, clauses = part.partition("(")
        yield list(names_in(calls)), clauses.removesuffix(")") or None


def group(crate, names, clauses, calls, source, is_whole):
    """The functions of a group of calls: each name is there, and so is each clause. Of a whole row no other clause is there."""
    had = set()
    for owner, name in names:
        found = [call for call in calls if (call.owner, call.name) == (owner, name)]
        if not found and not re.search(ITEM.format(re.escape(name)), source):
            wrong(f"{crate}: {owner}::{name} isn't in the files of its row")
        had |= {clause for call in found for clause in call.clauses}
    told = {it for word in re.split(r",\s*", clauses or "") for it in STAND_FOR.get(word, {word.strip("`")})} - {"", "the trait's"}
    left_out = had - told - {""} - (THE_TRAITS if clauses and "the trait's" in clauses else set())
    if told - had or left_out and is_whole:
        wrong(f"{crate}: {names} have the clauses {sorted(had)}, and not {sorted(told - had)}; {sorted(left_out)} are left out")
    return len(names) + len(told)


def files_in(crate, cell):
    """The sources of a row, and how many files and definitions it names: each definition stands in the file before it."""
    sources, text, count = [], "", 0
    for path, name in FILE.findall(cell):
        count += 1
        if path:
            path = path if path.startswith("crates/") else f"crates/{crate}/{path}"
            if not os.path.isfile(f"{TOP}/{path}"):
                wrong(f"{crate}: there is no {path}")
            sources += [path] if path.endswith(".rt") else []
            text = read(path)
        elif not re.search(rf"(?<![\w-]){re.escape(name)}(?![\w-])", text):
            wrong(f"{crate}: {name} isn't in the file that it stands behind: {cell}")
    return sources, count


def rows(text):
    """(heading of the table, cells) of each row of a document's tables."""
    head = None
    for line in text.splitlines():
        if not line.startswith("|"):
            head = None
        elif head is None:
            head = [cell.strip() for cell in line.strip()[1:-1].split("|")]
        elif line.strip("|-: "):
            yield head, [cell.strip() for cell in line.strip()[1:-1].split("|")]


def links():
    """How many of README's links lead to a heading of the page."""
    headings = {re.sub(r"[^\w -]", "", it.lower()).replace(" ", "-") for it in re.findall(r"^#+ (.*)$", read(PAGE), re.MULTILINE)}
    found = re.findall(rf"\({re.escape(PAGE)}#([^)]*)\)", read("README.md"))
    if not found or set(found) - headings:
        wrong(f"README's links lead to no heading: {sorted(set(found) - headings)}")
    return len(found)


def words(text):
    """How many names stand in backticks outside of the tables with files: each is a word of a source, or what a path matches."""
    sources = subprocess.run(["git", "-C", TOP, "grep", "-ohwE", r"[A-Za-z_]\w*", "--", "crates/*.rt", "crates/*.antt", "crates.txt"],
                             capture_output=True, text=True, check=True).stdout.split("\n")
    sources = {*sources, "clap", "ptab"}
    found = [it for it in re.findall(r"`([^`\n]*)`", text) if it not in sources]
    for it in found:
        parts = re.findall(r"[A-Za-z_]\w*", it)
        if parts and not set(parts) <= sources and not glob.glob(f"{TOP}/{it.split()[0]}"):
            wrong(f"{it} is no word of a source")
    return len(found)


def promises():
    """How many names of functions, clauses, files and definitions the page has; each is there, and no public function is left out."""
    text, count, told = read(PAGE), links(), {}
    for part in re.split(r"^(?=##)", text, flags=re.MULTILINE):
        crate = (re.match(r"### (\w+)", part) or [None, ""])[1]
        for cells in (cells for head, cells in rows(part) if head[-1] == "Files"):
            sources, more = files_in(crate, cells[-1])
            calls, source = [call for it in sources for call in calls_of(it)], "".join(map(read, sources))
            for names, clauses in groups_in(cells[0]):
                more += group(crate or cells[0], names, clauses, calls, source, bool(crate))
                told.setdefault(crate, set()).update(names)
            count += more
    library = {os.path.basename(it) for it in glob.glob(f"{TOP}/crates/pt_*")}
    for crate in sorted(library | set(told) - {""}):
        left_out = public(crate) - told.get(crate, set())
        if left_out:
            wrong(f"{crate}: {sorted(left_out)} have a contract and no row")
    return count + words(text)
