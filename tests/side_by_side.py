#!/usr/bin/env python3
"""Runs the scripts of this folder side by side, one for each processor, and prints what each said, in their order. Ends with 1 where
one of them fails, and says which.

usage: tests/side_by_side.py [--beside FILE] [--turn N] <LIST
  LIST            one script a line, with its words. A line that begins with `then` waits for the last line above it that doesn't, and
                  isn't run where that one fails. One that begins with `even` or `odd` is for the turns whose number is so. One that
                  begins with `alone` is run at the end, when no other is: as one that what others do to the whole machine would disturb
  --beside FILE   while `rt ci` runs, which prints into this file: each script, once the crates are proved that its words name, as pt_c or
                  as the file of a built one
  --turn N        which turn it is; without it all scripts are run

Where that may be done, each script has a mount namespace of its own. Some scripts take copies of theirs. If it were that of all scripts, a
file system that another one has unmounted would live on in such a copy, with the errors that it met.
"""
import functools
import os
import re
import shlex
import subprocess
import sys
import tempfile
import time
from concurrent.futures import ThreadPoolExecutor

HERE = os.path.dirname(os.path.abspath(__file__))
sys.path.insert(0, f"{HERE}/shared")
from beside import SECONDS, proved_by  # noqa: E402
from doubles import KEEPS_MEMORY  # noqa: E402

ROOT = os.path.dirname(HERE)
OWN_MOUNTS = ("unshare", "--mount", "--propagation", "private", "--")


@functools.cache
def own_mounts():
    """The words that give a program its own mount namespace, or none where that may not be done."""
    try:
        may = subprocess.run([*OWN_MOUNTS, "true"], check=False, capture_output=True).returncode == 0
    except OSError:
        may = False
    return OWN_MOUNTS if may else ()


def run(words):
    """Its exit status, and what it said."""
    with tempfile.TemporaryFile("w+", errors="replace") as said:
        command = [*own_mounts(), sys.executable, f"{HERE}/{words[0]}", *words[1:]]
        # the scripts, and what they run, read whole images again and again
        how = {"stdin": subprocess.DEVNULL, "stdout": said, "stderr": subprocess.STDOUT, "env": {**os.environ, **KEEPS_MEMORY}}
        status = subprocess.run(command, check=False, **how).returncode
        said.seek(0)
        return status, said.read()


def in_turn(lines, turn):
    """The lines of this turn."""
    other = {None: (), "0": ("odd",), "1": ("even",)}[turn and str(int(turn) % 2)]
    return [words[1:] if words[0] in ("even", "odd") else words for words in lines if words[0] not in other]


def groups_of(lines):
    """Each script that waits for none, with those behind it that wait for it."""
    groups = []
    for words in lines:
        if words[0] == "then":
            groups[-1].append(words[1:])
        else:
            groups.append([words])
    return groups


def answers_of(group):
    """A group's answers, in order: the first script's, and then those of the others, which are run at once and take no lane."""
    later = group[1:]
    first = run(group[0])
    if first[0] != 0 or not later:
        return [first, *((1, "not run\n") for _ in later)]
    with ThreadPoolExecutor(len(later)) as more:
        return [first, *more.map(run, later)]


def crates_of(group):
    """The crates that a group's scripts need."""
    words = [it for words in group for it in words]
    built = {found[1] for it in words if (found := re.match(rf"{re.escape(ROOT)}/crates/(\w+)/out/", it))}
    return built | {it for it in words if os.path.isdir(f"{ROOT}/crates/{it}")}


def start_all(pool, groups, said):
    """Starts each group once its crates are proved, those first that come first, and gives their answers to come, in the list's order."""
    started, left = {}, list(range(len(groups)))
    while left:
        proved = proved_by(said) if said else None
        for at in [it for it in left if proved is None or crates_of(groups[it]) <= proved]:
            started[at] = pool.submit(answers_of, groups[at])
            left.remove(at)
        if left:
            time.sleep(SECONDS)
    return [started[at] for at in range(len(groups))]


def all_answers(lines, said):
    """(a script with its words, its answer), in the list's order, those at the end that are run alone."""
    groups = groups_of([words for words in lines if words[0] != "alone"])
    with ThreadPoolExecutor(len(os.sched_getaffinity(0))) as pool:
        for group, answers in zip(groups, start_all(pool, groups, said)):
            yield from zip(group, answers.result())
    for words in lines:
        if words[0] == "alone":
            yield words[1:], run(words[1:])


def main(words):
    said, turn = (words[words.index(it) + 1] if it in words else None for it in ("--beside", "--turn"))
    lines = in_turn([shlex.split(line) for line in sys.stdin if line.strip()], turn)
    if not lines:
        sys.exit("side_by_side.py: no script")
    failed = []
    for words, (status, text) in all_answers(lines, said):
        name = os.path.basename(words[0])
        print(f"== {name}\n{text}", end="", flush=True)
        failed += [(name, text)] * (status != 0)
    if failed:
        # again at the end, which a log that is cut off keeps
        print(*(f"== {name} failed\n{text[-4000:]}" for name, text in failed), sep="\n")
        sys.exit(f"side_by_side.py: failed: {' '.join(name for name, _ in failed)}")


main(sys.argv[1:])
