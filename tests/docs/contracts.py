#!/usr/bin/env python3
"""What changed in the contracts of public functions and in the definitions of specs/ since a commit: each clause and each line that went
or came, by the crate and the name. Prints only. What moved from file to file and says the same isn't listed.

usage: tests/docs/contracts.py COMMIT [CRATE..]
"""
import difflib
import os
import re
import subprocess
import sys

TOP = os.path.dirname(os.path.dirname(os.path.dirname(os.path.abspath(__file__))))
sys.path.insert(0, os.path.join(TOP, "tests"))
from functions import end_of, functions_in, plain

PUBLIC = re.compile(r"^\s*pub (?:const |unsafe |extern \"C\" )*fn\b", re.MULTILINE)
TRAIT = re.compile(r"^pub trait (\w+)", re.MULTILINE)
CLAUSE = re.compile(r"\b(?:requires|ensures)\b[^{]*\{")
HEAD = re.compile(r"(?:(?:abbrev|unfoldable|pub|data|record) )*([^\s(){}:.,;]+)(?: :|\s+[({])")


def git(*words):
    return subprocess.run(["git", "-C", TOP, *words], capture_output=True, text=True, check=True).stdout


def texts_at(commit, kind):
    """{path: text} of the files of a kind in crates/, of a commit or, for None, as they stand."""
    if commit is None:
        paths = [it for it in git("ls-files", "-co", "--exclude-standard", "crates").split("\n") if os.path.isfile(f"{TOP}/{it}")]
    else:
        paths = git("ls-tree", "-r", "--name-only", commit, "crates").split("\n")
    found = {}
    for path in (it for it in paths if re.fullmatch(kind, it)):
        if commit is None:
            with open(f"{TOP}/{path}", encoding="utf-8") as it:
                found[path] = it.read()
        else:
            found[path] = git("show", f"{commit}:{path}")
    return found


def spaced(text):
    return re.sub(r"\s+", " ", text).strip()


def clauses_of(function):
    """The head of a function and its clauses, each in a line."""
    text, found = function.clauses, [spaced(re.sub(r"(?m)^\s*#\[.*\]$", "", function.signature))]
    for it in CLAUSE.finditer(text):
        found.append(spaced(text[it.start():end_of(text, it.end() - 1) + 1]))
    return found


def contracts(texts):
    """{(crate, name): lines} of the public functions, and of those that a trait declares or an impl has of one."""
    found = {}
    for path, text in texts.items():
        traits = [(it[1], it.start(), end_of(text, text.index("{", it.end()))) for it in TRAIT.finditer(text)]
        for function in functions_in(text):
            place = text.index(function.signature)
            trait = next((name for name, start, end in traits if start < place < end), "")
            if trait or PUBLIC.search(function.signature):
                owner = plain(function.impl.type) if function.impl else trait
                name = f"{owner}::{function.name}" if owner else function.name
                found.setdefault((path.split("/")[1], name), []).extend(clauses_of(function))
    return found


def definitions(texts):
    """{(crate, name): lines} of the items of specs/. Comments and imports aren't looked at."""
    found = {}
    for path, text in texts.items():
        item, uses = None, False
        for line in text.split("\n"):
            uses = line.startswith(("use ", "pub use ")) or uses and line.startswith(" ")
            if uses or not line.strip() or line.strip().startswith("--"):
                continue
            head = None if line[0].isspace() else HEAD.match(line)
            item = head[1] if head else item
            found.setdefault((path.split("/")[1], item or path), []).append(spaced(re.sub(r"\s--.*", "", line)))
    return found


def told(what, before, now, crates):
    """Prints what differs. Returns how many differ."""
    count = 0
    for key in sorted(before.keys() | now.keys()):
        was, is_now = before.get(key, []), now.get(key, [])
        if was != is_now and (not crates or key[0] in crates):
            count += 1
            print(f"{key[0]}: {what} {key[1]}{'' if was and is_now else ' went' if was else ' is new'}")
            for line in difflib.ndiff(was, is_now) if was and is_now else ():
                if line[0] in "+-":
                    print(f"  {line}")
    return count


def main(commit, *crates):
    for what, kind, read in (("the contract of", "src/.*rt", contracts), ("the definition", "specs/.*antt", definitions)):
        kind = rf"crates/\w+/{kind}"
        count = told(what, read(texts_at(commit, kind)), read(texts_at(None, kind)), crates)
        print(f"{count} {what.split()[1]}s changed")


if len(sys.argv) < 2:
    sys.exit(__doc__.strip().split("\n\n")[1])
main(*sys.argv[1:])
