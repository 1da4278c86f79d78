"""Sums of what a crate is made from: its own sources, and what it reads of the crates below it.

What stands above a library is proved over what that shows: its types and contracts, its definitions, and the proofs that are named
above it. Its code isn't read before a program is built. So after a change that leaves all this as it is, nothing above is proved anew.
"""
import functools
import hashlib
import os
import re

# lines of a library's `format` that tell sums of all that is in it, and which of its files of proofs depend on nothing
INSIDE = re.compile(r"(?:checked|sum|lists-free|free(?:-alone)?)\b")
# the name of a module of proofs: in a file of proofs, or as a function in Rust names a lemma
NAMED = re.compile(r"\b(\w+)(?:\.|::)proofs((?:(?:\.|::)\w+)+)")
COMMENT = {".rt": re.compile(r"\s*//"), ".antt": re.compile(r"\s*--")}


def text_of(path):
    """The file without lines that are comments alone, and without blank ones."""
    comment = COMMENT.get(os.path.splitext(path)[1])
    with open(path, encoding="utf-8") as it:
        return "".join(line for line in it if comment is None or line.strip() and not comment.match(line))


def files_in(place):
    """All files in a folder, in one order, or the file itself."""
    if os.path.isfile(place):
        return [place]
    return sorted(os.path.join(folder, name) for folder, _, names in os.walk(place) for name in names)


def proofs_at(folder, dotted):
    """The file of proofs that a dotted name begins with, or None."""
    place = f"{folder}/proofs"
    for part in re.findall(r"\w+", dotted):
        place = f"{place}/{part}"
        if os.path.isfile(f"{place}.antt"):
            return f"{place}.antt"
    return None


@functools.lru_cache(maxsize=None)
def named_in(path):
    """What a file names of proofs: pairs of a crate and the dotted name of a module in its proofs, with what may follow it."""
    return frozenset(NAMED.findall(text_of(path)))


def named_of(crate, readers):
    """The files of a library's proofs that these files name."""
    return {proofs_at(crate.folder, dotted) for path in readers for name, dotted in named_in(path) if name == crate.name} - {None}


def proofs_read(crate, readers):
    """The files of a library's proofs that those of these files name that aren't its own, and those that these name in turn."""
    found, left = set(), named_of(crate, [it for it in readers if not it.startswith(f"{crate.folder}/")])
    while left:
        found |= left
        left = named_of(crate, left) - found
    return sorted(found)


def shown(crate, readers):
    """A sum of what a library that is proved shows to the crates above it that have these files."""
    parts = [f"{crate.rlib}/{it}" for it in ("interface", "lang/src", "lang/antt/specs", "lang/antt/specs.antt")]
    files = [it for part in parts for it in files_in(part)]
    told = [(os.path.relpath(it, crate.rlib), text_of(it)) for it in files]
    with open(f"{crate.rlib}/format", encoding="utf-8") as it:
        told += [line for line in it if not INSIDE.match(line)]
    told += [(os.path.relpath(it, crate.folder), text_of(it)) for it in proofs_read(crate, readers)]
    return hashlib.sha256(repr(told).encode()).hexdigest()


def own(crate, kit):
    """What a crate has of its own: the kit, its line in crates.txt, and its sources without their comments."""
    return [kit, crate.line, *((it.removeprefix(crate.folder), text_of(it)) for it in crate.files())]
