#!/usr/bin/env python3
"""Refuses each request for memory of the built command in turn, from its very first on: that one alone, and that one with all later
ones. Every run says `memory` with status 6 (`other: memory` where `adopt` reads the other image) and leaves each byte of the image, or ends
exactly as without the refusal. Every command runs, on disks of each kind, healthy and damaged. With as little address space and stack as
docs/commands.md names, every command answers as with plenty, or `memory`.

usage: tests/failures/no_memory.py PTAB [all]
Without `all`, on damaged disks and those of other kinds every so many requests are refused.
"""
import os
import re
import resource
import subprocess
import sys
import tempfile
from concurrent.futures import ProcessPoolExecutor

sys.path.insert(0, os.path.join(os.path.dirname(os.path.abspath(__file__)), "..", "shared"))
import faults
from faults import Failing, fail
from images import room

ALL = 2 ** 32 - 1
REFUSED = ("", "memory\n", 6)
OTHER_REFUSED = ("", "other: memory\n", 6)


def commands(it, sectors, words):
    """The lines of all commands on the image in place; PLANFILE is the plan of the words, the other image what they make of it,
    and TABLE that image's table as text."""
    size = ("--sector-size", str(sectors.size))
    text, errors, status = it.run(("plan", *size, it.path, *words))
    if status != 0:
        fail(f"plan {words}", (errors, status), ("", 0))
    it.write_plan(text)
    it.write_other(("edit", *size), words)
    it.write_table(size)
    it.write_data(size)
    for name, rest in (("show", ()), ("show", ("--after", it.plan)), ("show", ("--copy", "backup")), ("show", ("--json",)),
                       ("show", ("--human",)), ("show", ("--json", "--after", it.plan)), ("verify", ()), ("locate", ("1", "0")),
                       ("free", ()), ("free", ("--json",)), ("plan", words), ("check", (it.plan,)), ("apply", (it.plan,)),
                       ("edit", words), ("repair", ()), ("adopt", (it.other,)), ("adopt", (it.other, "--plan")),
                       ("adopt", (it.other, "--data", it.data)),
                       ("set", (it.table,)), ("set", (it.table, "--plan"))):
        yield (name, *size, it.path, *rest)
    yield ("types",)


def refuse(it, name, image, words, step):
    """(how many requests the words make on that image, how many runs were compared): each is refused."""
    it.put(image)
    wanted = it.run(words)
    after = it.image()
    it.put(image)
    found, count, runs = it.run(words, (0, 0, 0, 0)), it.number(2), 0
    if found != wanted or it.image() != after or count == 0:
        fail(f"{name}: {words} with the library, {count} requests", found, wanted)
    for first in range(1, count + 1, step):
        for last in (first, ALL):
            it.put(image)
            found = it.run(words, (first, last, 0, 0))
            told = f"{name}: {words} without memory from request {first} of {count}" + (" alone" if last == first else " on")
            if it.number(3) == 0:
                fail(told, "no request refused", "one")
            left = it.image()
            refused = OTHER_REFUSED if words[0] == "adopt" and found == OTHER_REFUSED else REFUSED
            if (found, left) not in ((wanted, after), (refused, image)):
                fail(told, (found, "the image as before" if left == image else "the image changed"), REFUSED)
            runs += 1
    return count, runs


def on_disk(ptab, loaded, disk, step):
    name, sectors, image, words = disk
    image = bytes(image)
    with room() as folder:
        it = Failing(ptab, loaded, folder)
        it.put(image)
        return [refuse(it, name, image, line, step) for line in list(commands(it, sectors, words))]


def within_bounds(ptab, disk):
    """How many commands answer, as with plenty or `memory`, within the address space and the stack below which docs/commands.md says that
    the system may end them."""
    with open(os.path.join(os.path.dirname(os.path.abspath(__file__)), "..", "..", "docs", "commands.md"), encoding="utf-8") as it:
        named = re.search(r"less than (\d+) MB of address space .* less than (\d+) kB", it.read())
    bounds = ((resource.RLIMIT_AS, int(named[1]) * 10 ** 6), (resource.RLIMIT_STACK, int(named[2]) * 2 ** 10))

    def lower():
        for kind, most in bounds:
            resource.setrlimit(kind, (most, most))

    name, sectors, image, words = disk
    image, count = bytes(image), 0
    with room() as folder:
        it = Failing(ptab, None, folder)
        it.put(image)
        for line in list(commands(it, sectors, words)):
            ends = []
            for before in (None, lower):
                it.put(image)
                done = subprocess.run([ptab, *line], capture_output=True, text=True, preexec_fn=before)
                ends.append(((done.stdout, done.stderr, done.returncode), it.image()))
            if ends[1] not in (ends[0], (REFUSED, image)):
                fail(f"{name}: {line} within {named[0]}", ends[1][0], ends[0][0])
            count += 1
    return count


def main():
    ptab, whole = os.path.abspath(sys.argv[1]), sys.argv[2:] == ["all"]
    with tempfile.TemporaryDirectory() as folder, ProcessPoolExecutor() as pool:
        loaded = faults.library("no_memory", folder)
        others = (*faults.damaged_disks(), *faults.more_disks())
        jobs = [pool.submit(on_disk, ptab, loaded, disk, 1) for disk in faults.disks()]
        jobs += [pool.submit(on_disk, ptab, loaded, disk, 1 if whole else 7) for disk in others]
        bounded = [pool.submit(within_bounds, ptab, disk) for disk in faults.disks()]
        done = [it for job in jobs for it in job.result()]
        within = sum(job.result() for job in bounded)
    print(f"no memory: {sum(runs for _, runs in done) + within} passed, 0 failed, of {sum(count for count, _ in done)} requests, "
          f"{within} with little address space and stack")


main()
