#!/usr/bin/env python3
"""The lock of an image. While another holds it, `edit`, `apply` and `repair` answer `refused: locked`, status 3, and write nothing; every
earlier fault is told in its place; the other commands read. With `--no-lock` the three take no lock. While one of them is at work the lock
is its own. 60 edits at once on one image: each is done, or refused by the lock and not there at all. What is left is to the byte what the
edits that were done make, one after the other, in the order that the image tells.

usage: tests/failures/locks.py PTAB
"""
import contextlib
import fcntl
import os
import re
import subprocess
import sys
import time

sys.path.insert(0, os.path.join(os.path.dirname(os.path.abspath(__file__)), "..", "shared"))
import compared
import images
from compared import content, put, same
from images import SMALL, room
from writes import SYNCS

LOCKED = ("", "refused: locked\n", 3)
DONE = ("done\n", "", 0)
LONG_AGO = 1_000_000_000
MANY = 60


def answer(*words, **more):
    done = subprocess.run(words, capture_output=True, text=True, **more)
    return done.stdout, done.stderr, done.returncode


@contextlib.contextmanager
def held(path, how=fcntl.LOCK_EX):
    """While another open of the file holds its lock."""
    with open(path, "rb") as it:
        fcntl.flock(it, how | fcntl.LOCK_NB)
        yield


def plan_of(ptab, image, folder):
    path = f"{folder}/plan"
    text, errors, status = answer(ptab, "plan", image, "c:1:planned")
    same("a plan", (errors, status), ("", 0))
    put(path, text.encode())
    return path


def refused(ptab, folder):
    """Each command while another holds the lock, exclusive or shared."""
    path, image = f"{folder}/image", bytes(images.one_partition())
    put(path, image)
    plan, none = plan_of(ptab, path, folder), f"{folder}/none"
    put(none, b"")
    writing = (["edit", path, "c:1:new"], ["edit", path, "a:1"], ["apply", path, plan], ["apply", path, none], ["repair", path])
    for how in (fcntl.LOCK_EX, fcntl.LOCK_SH):
        os.utime(path, ns=(LONG_AGO, LONG_AGO))
        with held(path, how):
            for words in writing:
                same(f"{words} of a locked image", answer(ptab, *words), LOCKED)
                same("nothing was written", (content(path) == image, os.stat(path).st_mtime_ns), (True, LONG_AGO))
            # what is found before the image is opened
            for words, told in ((["edit", path, "x"], ("", "bad word x\n", 2)),
                                (["edit", path, "--fresh", "0", "c:1:x"], ("", "bad fresh\n", 2)),
                                (["apply", path, path], ("", "refused: plan text 0\n", 3)),
                                (["apply", path, f"{folder}/missing"], ("", "device\n", 5)),
                                (["edit", f"{folder}/missing", "c:1:x"], ("", "device\n", 5))):
                same(f"{words} of a locked image", answer(ptab, *words), told)
            for words, told in ((["verify", path], "yes\n"), (["locate", path, "1", "1"], "2049\n"), (["check", path, plan], "yes 2\n")):
                same(f"{words} of a locked image", answer(ptab, *words), (told, "", 0))
            for words in (["show", path], ["plan", path, "c:1:x"]):
                same(f"{words} of a locked image", answer(ptab, *words)[1:], ("", 0))
            same("the image", content(path) == image, True)


def by_callers(ptab, folder):
    """With `--no-lock` the three write whoever holds the lock; no other command has it."""
    path, image = f"{folder}/image", bytes(images.one_partition())
    put(path, image)
    plan = plan_of(ptab, path, folder)
    for words in (["edit", path, "c:1:new"], ["apply", path, plan], ["repair", path]):
        put(path, image)
        same(f"{words} of a free image", answer(ptab, *words), DONE)
        wanted = content(path)
        for how in (fcntl.LOCK_EX, fcntl.LOCK_SH):
            for line in ([*words, "--no-lock"], [words[0], "--no-lock", *words[1:]]):
                put(path, image)
                with held(path, how):
                    same(f"{line} of a locked image", answer(ptab, *line), DONE)
                same(f"what {line} leaves", content(path) == wanted, True)
        put(path, image)
        same(f"{words} under flock", answer("flock", path, ptab, *words), LOCKED)
        same("nothing was written", content(path) == image, True)
        same(f"{words} under flock", answer("flock", path, ptab, words[0], "--no-lock", *words[1:]), DONE)
        same(f"what {words} leaves under flock", content(path) == wanted, True)
    with held(path):
        same("--no-lock without a word", answer(ptab, "edit", "--no-lock", path)[2], 2)
    for words in (["show", path], ["show", "--json", path], ["verify", path], ["locate", path, "1", "0"], ["free", path], ["types"],
                  ["plan", path, "c:1:x"], ["check", path, plan]):
        out, errors, status = answer(ptab, *words, "--no-lock")
        same(f"{words} --no-lock", (out, "unexpected argument '--no-lock'" in errors, status), ("", True, 2))
    same("no lock is left", holder(path), [])


def holder(path):
    """The kind and the process of the lock on a file, as the system lists it."""
    inode = os.stat(path).st_ino
    with open("/proc/locks", encoding="ascii") as it:
        found = [re.match(r"\d+: (\w+) +ADVISORY +(\w+) +(\d+) \w+:\w+:(\d+) ", line) for line in it]
    return [(it[1], it[2]) for it in found if it and int(it[4]) == inode]


def at_work(ptab, folder):
    """While a command waits for its syncs, which strace delays, it has the lock; one that only reads has none."""
    path, image, syncs = f"{folder}/image", bytes(images.one_partition()), ",".join(SYNCS)
    put(path, image)
    plan = plan_of(ptab, path, folder)
    for words, kept in ((["edit", path, "c:1:new"], True), (["apply", path, plan], True), (["repair", path], True),
                        (["edit", "--no-lock", path, "c:1:new"], False)):
        put(path, image)
        slow = ["strace", "-qq", "-o", f"{folder}/log", "-e", f"trace={syncs}", "-e", f"inject={syncs}:delay_enter=400000", ptab, *words]
        working = subprocess.Popen(slow, stdout=subprocess.PIPE, stderr=subprocess.PIPE, text=True)
        found, until = [], time.monotonic() + (10 if kept else 0.3)
        while not found and working.poll() is None and time.monotonic() < until:
            found = holder(path)
            time.sleep(0.01)
        same(f"the lock while {words} is at work", found, [("FLOCK", "WRITE")] if kept else [])
        if kept:
            same(f"an edit while {words} is at work", answer(ptab, "edit", path, "c:1:other"), LOCKED)
            with open(path, "rb") as other:
                try:
                    fcntl.flock(other, fcntl.LOCK_SH | fcntl.LOCK_NB)
                    sys.exit(f"{words} is at work, and another took the lock")
                except BlockingIOError:
                    pass
            same(f"show while {words} is at work", answer(ptab, "show", path)[2], 0)
        same(f"{words} in the end", (*working.communicate(), working.returncode), DONE)
        same("no lock is left", holder(path), [])


def drawn(number):
    """Random bytes for one GUID, others for each number, as digits."""
    return f"{number:032x}"


def guid_of(number):
    """The GUID of those bytes: version 4, variant 1."""
    text = f"{number:032x}"
    text = f"{text[:12]}4{text[13:16]}8{text[17:]}"
    return "-".join((text[:8], text[8:12], text[12:16], text[16:20], text[20:]))


def words_of(number):
    """The words of one of the edits: every other one makes the lowest unused partition, of a length and with a GUID that no other has;
    the rest name partition 1."""
    if number % 2:
        return ["--fresh", drawn(number), "a:1", f"n:0:0:+{number}"]
    return [f"c:1:edit {number}"]


def at_once(commands):
    """The answers of commands that are begun at one moment: each waits for the end of a pipe."""
    waits, starts = os.pipe()
    begun = [subprocess.Popen(["sh", "-c", 'read -r _ <&3; exec 3<&-; exec "$@"', "sh", *command], stdout=subprocess.PIPE,
                              stderr=subprocess.PIPE, text=True, pass_fds=(waits,),
                              preexec_fn=lambda: os.dup2(waits, 3)) for command in commands]
    os.close(waits)
    os.close(starts)
    return [(*it.communicate(), it.returncode) for it in begun]


def in_order(ptab, path, done):
    """The edits that were done, in an order that leaves what the image shows: the partitions were made in the order of their numbers;
    of the names the last is the one that stands."""
    shown, errors, status = answer(ptab, "show", path)
    same("the table", (errors, status), ("", 0))
    rows = [line.split(" ", 6) for line in shown.splitlines()[1:]]
    by_guid = {guid_of(number): number for number in done if number % 2}
    made = [by_guid.get(row[5]) for row in rows[1:]]
    same("the partitions that were made", sorted(made, key=str), sorted(by_guid.values(), key=str))
    same("their lengths", [int(row[2]) - int(row[1]) + 1 for row in rows[1:]], made)
    names = [number for number in done if number % 2 == 0]
    last = [number for number in names if rows[0][6:] == [f"edit {number}"]]
    same("the name of the first", len(last), 1 if names else 0)
    return [*made, *(number for number in names if number not in last), *last]


def left_by(ptab, folder, path, image, done):
    """The image is healthy, and to the byte what these edits make of it in the order that it shows."""
    same("the image is healthy", answer(ptab, "verify", path), ("yes\n", "", 0))
    other = f"{folder}/other"
    put(other, image)
    for number in in_order(ptab, path, done):
        same(f"edit {number} by itself", answer(ptab, "edit", other, *words_of(number)), DONE)
    same(f"what {len(done)} edits at once leave", content(path) == content(other), True)


def crowd(ptab, folder):
    """60 edits at once: each is done or refused by the lock; and once more with each tried again until it is done."""
    path, image = f"{folder}/image", bytes(SMALL.gpt(8192, {1: images.entry(40, 47)}))
    numbers = range(1, MANY + 1)
    for again in (False, True):
        put(path, image)
        done, waiting = [], list(numbers)
        while waiting:
            found = at_once([[ptab, "edit", path, *words_of(number)] for number in waiting])
            for number, told in zip(waiting, found):
                same(f"edit {number} beside {len(waiting) - 1} others", told in (DONE, LOCKED), True)
            now = [number for number, told in zip(waiting, found) if told == DONE]
            same("at least one is done", bool(now), True)
            done += now
            waiting = [number for number in waiting if number not in now] if again else []
        same("how many are done", len(done) == MANY or not again, True)
        left_by(ptab, folder, path, image, done)
    put(path, image)
    found = at_once([["flock", path, ptab, "edit", "--no-lock", path, *words_of(number)] for number in numbers])
    same("60 edits under flock, which waits", found, [DONE] * MANY)
    left_by(ptab, folder, path, image, list(numbers))


def main():
    ptab = os.path.abspath(sys.argv[1])
    with room() as folder:
        refused(ptab, folder)
        by_callers(ptab, folder)
        at_work(ptab, folder)
        crowd(ptab, folder)
    print(f"locks: {compared.count} passed, 0 failed")


main()
