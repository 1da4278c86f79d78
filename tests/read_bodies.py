#!/usr/bin/env python3
"""Reads the wrong bodies of all crates, and proves nothing: each must still be Rattle, beside a function that is still there
(docs/wrong_bodies.md). tests/wrong_bodies.py tries a third of them in a run of the gate, so what a change leaves behind would else be found
some commits later.

usage: tests/read_bodies.py

All are put into a copy of the repository, which is read as packaging/build.py --unproved reads it. It names each that can't be read, and
ends with status 1 where there is one.
"""
import contextlib
import os
import shutil
import sys
import tempfile

ROOT = os.path.dirname(os.path.dirname(os.path.abspath(__file__)))
sys.path.insert(0, f"{ROOT}/packaging")
sys.path.insert(0, f"{ROOT}/tests")
import crates  # noqa: E402
import unproved  # noqa: E402
from functions import function_of  # noqa: E402
from wrong_bodies import bodies_of, table_of, texts_with, unread, with_right_ones  # noqa: E402

# A program above all crates that have bodies.
NAME = "reading"
MAIN = "//! Nothing: what stands below is read.\n#![tactic(auto)]\n\nfn main() {}\n"


def put(room, path, text):
    os.makedirs(os.path.dirname(f"{room}/{path}"), exist_ok=True)
    with open(f"{room}/{path}", "w", encoding="utf-8") as it:
        it.write(text)


def copy_with(room, bodies):
    """Copies the repository's sources with these bodies, by their crates: each crate as a library, and a program above those. That program,
    and the texts that have bodies, by crate and file."""
    with open(f"{ROOT}/crates.txt", encoding="utf-8") as it:
        put(room, "crates.txt", f"{it.read().replace(' staticlib:', ':')}\n{NAME}: {' '.join(it.name for it in bodies)}\n")
    for crate in crates.crates_of(ROOT).values():
        shutil.copytree(f"{crate.folder}/src", f"{room}/crates/{crate.name}/src")
    put(room, f"crates/{NAME}/src/main.rt", MAIN)
    texts = {crate: texts_with(crate, with_right_ones(some)) for crate, some in bodies.items()}
    for crate, found in texts.items():
        for path, text in found.items():
            put(room, f"crates/{crate.name}/{path}", text)
        if crate.is_program:
            os.rename(f"{room}/crates/{crate.name}/src/main.rt", f"{room}/crates/{crate.name}/src/lib.rt")
    return crates.crates_of(room)[NAME], texts


def first_unread(bodies):
    """The first of these bodies that can't be read: its crate, itself, and why. None where all can be."""
    with tempfile.TemporaryDirectory(prefix="read-bodies-") as room:
        program, texts = copy_with(room, bodies)
        is_read, said = unproved.read(program)
    if is_read:
        return None
    for crate, some in bodies.items():
        found = unread(said.replace(f"{room}/crates/{crate.name}/", ""), texts[crate], with_right_ones(some))
        if found:
            return crate, *found
    sys.exit(f"read_bodies.py: no body is named:\n{said[-2000:]}")


def has_function(crate, body):
    """Whether the function is there whose second one a body is."""
    with contextlib.suppress(SystemExit, OSError), open(f"{crate.folder}/{body.file}", encoding="utf-8") as it:
        return bool(function_of(it.read(), body.of))
    return False


def main():
    bodies = {it: bodies_of(it) for it in crates.crates_of(ROOT).values() if os.path.isfile(table_of(it))}
    count = sum(map(len, bodies.values()))
    failures = [f"{crate.name}/{it.name}: no {it.of} in {it.file}"
                for crate, some in bodies.items() for it in some if not has_function(crate, it)]
    bodies = {crate: [it for it in some if has_function(crate, it)] for crate, some in bodies.items()}
    while found := first_unread(bodies):
        crate, body, why = found
        failures.append(f"{crate.name}/{body.name}: {why}")
        bodies[crate] = [it for it in bodies[crate] if it is not body and (body.clauses or it.of != body.of)]
    print(*failures, f"wrong bodies: {len(failures)} of {count} can't be read", sep="\n")
    sys.exit(1 if failures else 0)


if __name__ == "__main__":
    main()
