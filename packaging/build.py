#!/usr/bin/env python3
"""Proves crates and all that they stand on, each once those below it are done, and builds them. Prints where each of them stands.

usage: packaging/build.py [--from DIR | --over-ci | --unproved] CRATE...
                         CRATE is a program, a static library or a library, as ptab, pt_c or pt_gpt
  --from DIR  takes what another clone, at DIR, has proved of the same sources
  --over-ci   takes what `rt ci` has just proved and built. What it leaves out is proved and built: a static library, which it only proves,
              and a program's object, which it hasn't where it took what an earlier run kept
  --unproved  proves nothing: builds programs of the sources as they stand, to be run over tests/ before there are proofs. They stand apart,
              in out/unproved, and nothing is promised of them

What was proved before is taken where neither the kit, nor what is no comment in the crate's sources, nor what it reads of the crates below
has changed since (stamps.py): for a library that is types, contracts, definitions and the proofs that are named, for a program all.
"""
import argparse
import contextlib
import hashlib
import os
import shutil
import sys
import threading
from concurrent.futures import ThreadPoolExecutor

import crates
import kit
import stamps
import unproved

ROOT = os.path.dirname(os.path.dirname(os.path.abspath(__file__)))
MEMORY = 1_500_000_000  # bytes that a proof takes
HERE = "here"  # in a note: proved by this script
NOT_TAKEN = ("checked", "unproved", "rlib", "release")  # what of a folder of another clone isn't copied
ALL = crates.crates_of(ROOT)


def note_of(crate):
    """What is noted of the crate's last proof: what it was made from, by whom, and when. Nothing where something else stands there."""
    with contextlib.suppress(OSError), open(f"{crate.place()}.proved", encoding="utf-8") as it:
        note, made = it.read(), os.stat(crate.place()).st_mtime_ns
        return note if note.endswith(f" {made}") else ""
    return ""


def put_note(crate, made_from, by):
    with open(f"{crate.place()}.proved", "w", encoding="utf-8") as it:
        it.write(f"{made_from} {by} {os.stat(crate.place()).st_mtime_ns}")


def read_of(crate, readers):
    """What is read of a library. What `rt ci` proved fits only the very build of the library that it was proved over, so that is all."""
    note = note_of(crate)
    return stamps.shown(crate, readers) if f" {HERE} " in note else note


def sum_of(crate):
    """A sum of all that a crate is made from: its own, and what it reads of the crates below it as they were proved. A program is built of
    all of them."""
    files = [it for one in (*crate.below(), crate) for it in one.files() if it.endswith((".rt", ".antt"))]
    below = [read_of(it, tuple(files)) if crate.makes_rlib() else note_of(it) for it in crate.below()]
    return hashlib.sha256(repr((stamps.own(crate, kit.version()), below)).encode()).hexdigest()


def take_from(clone, crate, made_from):
    """Takes what another clone has proved of the same sources. Returns whether it has."""
    place = crate.place()
    there = os.path.join(clone, os.path.relpath(place, ROOT))
    with contextlib.suppress(OSError), open(f"{there}.proved", encoding="utf-8") as it:
        if it.read().startswith(f"{made_from} "):
            shutil.rmtree(os.path.dirname(crate.rlib), ignore_errors=True)
            made = os.path.dirname(there)
            # these stand beside what was made; a function's proofs may have such a name too
            shutil.copytree(made, os.path.dirname(place), dirs_exist_ok=True,
                            ignore=lambda folder, _: NOT_TAKEN if folder == made else ())
    return note_of(crate).startswith(f"{made_from} ")


def prove(crate, jobs=1):
    """Proves one crate over those below it, and builds it. Returns whether that went well; where not, shows what the prover said."""
    print(f"build.py: proving {crate.name}", file=sys.stderr, flush=True)
    made_from = sum_of(crate)
    is_well, said = kit.build(crate, jobs)
    if not is_well:
        print(f"build.py: {crate.name} isn't proved:", said, sep="\n", file=sys.stderr, flush=True)
    elif made_from == sum_of(crate):  # else a source was written meanwhile
        put_note(crate, made_from, HERE)
    return is_well


def prove_all(crates, clone):
    """Proves what isn't proved yet of these crates, here or in a clone, of which each stands behind those below it. Returns whether all
    went well."""
    lanes = max(1, min(kit.processors(), int(0.85 * kit.free_memory() / MEMORY)))
    lane, runs = threading.Semaphore(lanes), {}

    def work(crate):
        if not all(runs[it].result() for it in crate.deps):
            return False
        made_from = sum_of(crate)
        if note_of(crate).startswith(f"{made_from} ") or clone and take_from(clone, crate, made_from):
            return True
        with lane:
            # itself, and what isn't done yet and doesn't wait for it
            beside = [it for it in crates if crate not in it.below() and not (it in runs and runs[it].done())]
            return prove(crate, max(1, lanes // len(beside)))

    with ThreadPoolExecutor(len(crates)) as pool:
        for it in crates:
            runs[it] = pool.submit(work, it)
    return all(it.result() for it in runs.values())


def take(crate):
    """Takes a crate as `rt ci` left it. Returns whether it is proved."""
    made = [crate.place(), *([f"{crate.place()}.o"] if crate.is_program else [])]
    if crate.is_static or not all(map(os.path.exists, made)):
        return prove(crate)
    put_note(crate, sum_of(crate), "ci")
    return True


def build_unproved(crate):
    """Builds a program of what isn't proved, and returns where it stands."""
    if not crate.is_program:
        sys.exit(f"build.py: {crate.name} is no program")
    print(f"build.py: building {crate.name}, unproved", file=sys.stderr, flush=True)
    place, said = unproved.build(crate)
    return place or sys.exit(f"build.py: {crate.name} isn't built:\n{said}")


def main():
    reader = argparse.ArgumentParser(usage="packaging/build.py [--from DIR | --over-ci | --unproved] CRATE...")
    how = reader.add_mutually_exclusive_group()
    how.add_argument("--from", dest="clone", metavar="DIR")
    how.add_argument("--over-ci", action="store_true")
    how.add_argument("--unproved", action="store_true")
    reader.add_argument("crates", nargs="+")
    asked = reader.parse_args()
    unknown = [it for it in asked.crates if it not in ALL]
    if unknown:
        sys.exit(f"build.py: crates.txt has no {' and no '.join(unknown)}")
    wanted = [ALL[it] for it in asked.crates]
    if asked.unproved:
        print(*map(build_unproved, wanted), sep="\n")
        return
    those = list(dict.fromkeys(it for top in wanted for it in (*top.below(), top)))
    with contextlib.nullcontext() if asked.over_ci else kit.locked(those):
        if not (all(map(take, those)) if asked.over_ci else prove_all(those, asked.clone)):
            sys.exit("build.py: not proved, as the lines above say")
    print(*(it.place() for it in wanted), sep="\n")


main()
