#!/usr/bin/env python3
"""Has each call of the built command on an image fail in turn, and each on a plan's file, on the other image of `adopt`, on a table's
text, or on the runs of its data. The answer is always `device`, of these three `other: device`, `table: device` and `data: device`, status
5, and no call follows but the closing. After a call that only reads no byte has changed; after a write, or a sync between them, the image
has the plan's writes up to there and no other, and shows the old layout or the new one, as the phase says; a repair, or the same edit
again, then ends in a healthy image. Calls that a signal interrupts and reads and writes of one byte change nothing. An output that takes
nothing gives `device`, status 5, one that nobody reads status 5 in silence, an error stream that takes nothing status 5; what was done
stands.

usage: tests/failures/no_device.py PTAB [all]
Without `all` every so many calls fail on damaged disks and those of other kinds, and the rarer ways of failing come at fewer calls.
"""
import errno
import os
import subprocess
import sys
import tempfile
from concurrent.futures import ProcessPoolExecutor

sys.path.insert(0, os.path.join(os.path.dirname(os.path.abspath(__file__)), "..", "shared"))
import faults
from faults import Failing, fail
from images import room
from plans import phases_of

ALL = 2 ** 32 - 1
FAILS, DONE_AND_FAILS, ONE_BYTE, NOTHING = range(4)
DEVICE = ("", "device\n", 5)
OTHER_DEVICE, TABLE_DEVICE, DATA_DEVICE = ("", "other: device\n", 5), ("", "table: device\n", 5), ("", "data: device\n", 5)
# what follows the image of a command: the file of the words' plan, or the image that the words make
PLAN, OTHER, TABLE, AFTER, COPY = ("plan",), ("other",), ("table",), ("after",), ("--copy", "backup")
JSON, JSON_AFTER, DATA = ("--json",), ("json", "after"), ("other", "data")
# of the words whose plan an adoption writes
KEEP = "--keep-primary"
# What can come of a call, by its letter: how it fails, and errno. The others of `MORE` come at fewer calls, but with `all`. Of a plan's
# file a read of nothing is its end.
FAULTS = {"s": ((FAILS, errno.EIO),), "o": ((FAILS, errno.EIO),), "l": ((FAILS, errno.EIO),), "r": ((FAILS, errno.EIO),), "c": (),
          "f": ((FAILS, errno.EIO), (DONE_AND_FAILS, errno.EIO)), "w": ((FAILS, errno.EIO), (DONE_AND_FAILS, errno.EIO))}
MORE = {"o": ((FAILS, errno.EACCES),), "l": ((FAILS, errno.ENOLCK),), "r": ((NOTHING, 0),), "w": ((FAILS, errno.ENOSPC), (NOTHING, 0)),
        "s": (), "f": (), "c": ()}
HARMLESS = {"o": ((FAILS, errno.EINTR),), "r": ((FAILS, errno.EINTR), (ONE_BYTE, 0)), "w": ((FAILS, errno.EINTR), (ONE_BYTE, 0)),
            "f": ((FAILS, errno.EINTR),), "l": ((FAILS, errno.EINTR),), "c": ((FAILS, errno.EIO),), "s": ()}


class Run:
    """One line of the command on one image, and what it does where no call fails."""

    def __init__(self, it, name, sectors, image, line, writing):
        self.it, self.sectors, self.before, self.line = it, sectors, image, line
        self.told = f"{name}: {' '.join(line)}"
        self.size = ("--sector-size", str(sectors.size))
        self.old = self.shown()
        self.phases, self.switch = self.planned(writing) if writing else ([], 0)
        if "--data" in line:
            # the sectors of the data, and the first sync of the commit
            self.phases, self.switch = [self.carried(), [], *self.phases], self.switch + 2
        self.writes = [write for phase in self.phases for write in phase]
        self.wanted = it.run(line)
        self.after = it.image()
        self.new = self.shown()
        if self.after != self.with_writes(len(self.writes)):
            fail(self.told, "another image", "the plan's writes")

    def shown(self):
        return self.it.run(("show", *self.size, self.it.path))

    def planned(self, words):
        """The phases that the words write, and the one that switches."""
        text, errors, status = self.it.run(("plan", *self.size, self.it.path, *words))
        if status != 0:
            fail(f"{self.told}: its plan", (errors, status), ("", 0))
        self.it.write_plan(text)
        answer = self.it.run(("check", *self.size, self.it.path, self.it.plan))[0]
        return phases_of(text, self.sectors.size), int(answer.removeprefix("yes "))

    def carried(self):
        """The writes of the data, which the two images have alike."""
        with open(self.it.data, encoding="ascii") as it:
            found = [int(line.split(" ")[0]) for line in it]
        return [(lba, self.before[lba * self.sectors.size:(lba + 1) * self.sectors.size]) for lba in found]

    def with_writes(self, count):
        """The image with that many of the plan's writes."""
        if count == 0:
            return self.before
        image = bytearray(self.before)
        for lba, content in self.writes[:count]:
            self.sectors.put(image, lba, content)
        return bytes(image)

    def calls(self):
        """The letters of the calls of the last run."""
        return bytes(self.it.numbers[20:20 + self.it.number(4)]).decode("ascii")

    def failing(self, on, first, last, how, error):
        """The answer, the calls that came, and the image that is left, where these calls fail."""
        self.it.put(self.before)
        answer = self.it.run(self.line, (first, last, how, error, 0), {"FAULTS_ON": on})
        return answer, self.calls(), self.it.image()


def ends_well(run, told, left, words, shows):
    """An edit of the image that is left ends in a healthy one, which shows that layout, where one is told."""
    it = run.it
    it.put(left)
    found = it.run(("edit", *run.size, it.path, *words))
    shown, verified = run.shown(), it.run(("verify", *run.size, it.path))
    if found != ("done\n", "", 0) or verified != ("yes\n", "", 0) or shows not in (None, shown):
        fail(f"{told}, then edit {' '.join(words)}", (found, verified, shown), ("done, yes", shows))


def after_a_write(run, told, left, phase):
    """The image that is left denotes the old layout or the new one; repaired, or edited again, it is healthy."""
    it = run.it
    shown = run.shown()
    allowed = (run.old,) if phase < run.switch else (run.new,) if phase > run.switch else (run.old, run.new)
    if shown not in allowed:
        fail(told, shown, allowed)
    line = ("repair", *run.size, it.path)
    found, wanted = it.run(line), ("", shown[1], 4) if shown[2] == 4 else ("done\n", "", 0)
    if found != wanted or run.shown() != shown:
        fail(f"{told}, then repair", (found, run.shown()), (wanted, shown))
    verified, repaired = it.run(("verify", *run.size, it.path)), it.image()
    if wanted[2] == 0 and verified != ("yes\n", "", 0) or it.run(line) != wanted or it.image() != repaired:
        fail(f"{told}, then two repairs", verified, "yes, and no change by the second")
    if run.line[0] == "edit" and shown == run.old:
        ends_well(run, told, left, run.line[4:], run.new)
    if shown[0].startswith("gpt "):
        ends_well(run, told, left, ("c:1:other",), None)


def one_fault(run, on, log, first, last, how, error):
    """One call fails, or it and all later ones."""
    letter, earlier = log[first - 1], log[:first - 1]
    told = f"{run.told}: call {first} of {len(log)} on {os.path.basename(on)} ({letter}), way {how}, errno {error}, last {last}"
    found, calls, left = run.failing(on, first, last, how, error)
    wanted = {run.it.other: OTHER_DEVICE, run.it.table: TABLE_DEVICE, run.it.data: DATA_DEVICE}.get(on, DEVICE)
    if found != wanted or calls[:first] != log[:first] or calls[first:].strip("c"):
        fail(told, (found, calls[first - 1:]), (wanted, f"{letter}, and closing"))
    written = earlier.count("w") + (letter == "w" and how == DONE_AND_FAILS)
    if left != run.with_writes(written):
        fail(told, "another image", f"the first {written} writes of the plan")
    if "w" in earlier or letter in "wf":
        after_a_write(run, told, left, earlier.count("f"))


def no_fault(run, on, log, first, how, error):
    found, calls, left = run.failing(on, first, first, how, error)
    if found != run.wanted or left != run.after:
        fail(f"{run.told}: call {first} of {len(log)} ({log[first - 1]}), way {how}, errno {error}", (found, calls[first - 1:]), run.wanted)


def ways_of(letter, is_image, whole):
    """(whether all later calls fail too, how, errno) of each way in which such a call fails."""
    ways = [(False, *way) for way in FAULTS[letter]]
    if whole:
        ways += [(False, how, error) for how, error in MORE[letter] if how != NOTHING or is_image]
        ways += [(True, *way) for way in FAULTS[letter][:1]]
    return ways


def fail_each(run, on, step, whole):
    """(the calls on that file, how many runs were compared): each call fails, in each way."""
    found, log, left = run.failing(on, 0, 0, 0, 0)
    counts, is_writing = (log.count("w"), log.count("f"), log.count("l")), run.line[0] in ("edit", "apply", "repair", "adopt", "set")
    wanted = (len(run.writes), len(run.phases) + 1, 1) if is_writing else (0, 0, 0)
    if found != run.wanted or left != run.after or not log or on == run.it.path and counts != wanted:
        fail(f"{run.told} with the library: writes, syncs and locks", (found, counts), (run.wanted, wanted))
    runs = 0
    for first in sorted({*range(1, len(log) + 1, step), *(k for k, letter in enumerate(log, 1) if letter in "solfc")}):
        letter, more = log[first - 1], whole or first % 6 == 0 or first == len(log)
        for later, how, error in ways_of(letter, on not in (run.it.plan, run.it.table, run.it.data), more):
            one_fault(run, on, log, first, ALL if later else first, how, error)
            runs += 1
        for how, error in HARMLESS[letter] if more else ():
            no_fault(run, on, log, first, how, error)
            runs += 1
    return len(log), runs


def full_streams(ptab, disk):
    """How many runs were compared: each command with an output that takes nothing, or that nobody reads, and refusals with an error
    stream that takes nothing: status 5, and what was done stands."""
    name, _, image, words = disk
    image, runs = bytes(image), 0
    with room() as folder, open("/dev/full", "wb") as full:
        unread, closed = os.pipe()
        os.close(unread)
        it = Failing(ptab, "", folder)
        it.put(image)
        it.write_plan(it.run(("plan", it.path, *words))[0])
        it.write_other(("edit",), words)
        it.write_data(())
        for command, (rest, writing) in lines(words).items():
            command = command.split()[0]
            if rest == TABLE and not has_table(it, ()):
                continue
            line = (command, it.path, *files(it).get(rest, rest))
            it.put(image)
            if it.run(line)[2] == 4 and rest == COPY:
                # an MBR has no copy to be printed
                continue
            after = it.image()
            for what, stream, errors in (("a full output", full, "device\n"), ("a closed pipe", closed, "")):
                it.put(image)
                done = subprocess.run([ptab, *line], stdout=stream, stderr=subprocess.PIPE, text=True)
                if (done.stderr, done.returncode) != (errors, 5) or it.image() != after:
                    fail(f"{name}: {command} with {what}", (done.stderr, done.returncode), (errors, 5))
            refused = subprocess.run([ptab, command, f"{folder}/missing", *line[2:]], stdout=subprocess.PIPE, stderr=full, text=True)
            if (refused.stdout, refused.returncode) != ("", 5):
                fail(f"{name}: {command} with full errors", (refused.stdout, refused.returncode), ("", 5))
            runs += 3
        os.close(closed)
    return runs


def types(ptab):
    """How many runs were compared: the list of types, which no image is opened for, with such streams."""
    unread, closed = os.pipe()
    os.close(unread)
    with open("/dev/full", "wb") as full:
        for stream, errors in ((full, "device\n"), (closed, "")):
            done = subprocess.run([ptab, "types"], stdout=stream, stderr=subprocess.PIPE, text=True)
            if (done.stderr, done.returncode) != (errors, 5):
                fail("types", (done.stderr, done.returncode), (errors, 5))
    os.close(closed)
    return 2


def lines(words):
    """Of each command what follows the image, and the words whose plan it writes."""
    return {"edit": (words, words), "apply": (PLAN, words), "repair": ((), ("a:1",)), "adopt": (OTHER, (KEEP, *words)),
            "adopt data": (DATA, (KEEP, *words)),
            "set": (TABLE, (KEEP, *words)), "free json": (JSON, ()),
            "plan": (words, ()), "check": (PLAN, ()), "verify": ((), ()), "show": ((), ()), "show after": (AFTER, ()),
            "show copy": (COPY, ()), "show json": (JSON, ()), "show json after": (JSON_AFTER, ()),
            "locate": (("1", "0"), ()), "free": ((), ())}


def files(it):
    return {PLAN: (it.plan,), OTHER: (it.other,), DATA: (it.other, "--data", it.data), TABLE: (it.table,), AFTER: ("--after", it.plan),
            JSON_AFTER: ("--json", "--after", it.plan)}


def has_table(it, size):
    """Whether the other image's table is a GPT, which a text may say; then the text is there."""
    it.write_table(size)
    with open(it.table, encoding="utf-8") as text:
        return '"label": "gpt"' in text.read()


def on_disk(ptab, loaded, disk, command, step, whole):
    """The same of one command on one disk, on its image and on the file of its plan."""
    name, sectors, image, words = disk
    image, size = bytes(image), ("--sector-size", str(sectors.size))
    rest, writing = lines(words)[command]
    with room() as folder:
        it = Failing(ptab, loaded, folder)
        it.put(image)
        if rest in (PLAN, AFTER, JSON_AFTER):
            it.write_plan(it.run(("plan", *size, it.path, *words))[0])
        if rest in (OTHER, TABLE, DATA):
            it.write_other(("edit", *size), words)
        if rest == DATA and not it.write_data(size):
            return []
        if rest == TABLE and not has_table(it, size):
            return []
        if command == "repair" and it.run(("show", *size, it.path))[2] != 0:
            writing = ()
        run = Run(it, name, sectors, image, (command.split()[0], *size, it.path, *files(it).get(rest, rest)), writing)
        return [fail_each(run, on, step, whole) for on in (it.path, *files(it).get(rest, ())) if not on.startswith("--")]


def main():
    ptab, whole = os.path.abspath(sys.argv[1]), sys.argv[2:] == ["all"]
    with tempfile.TemporaryDirectory() as folder, ProcessPoolExecutor() as pool:
        loaded = faults.library("no_device", folder)
        disks = [(disk, 1) for disk in faults.disks()]
        disks += [(disk, 1 if whole else 17) for disk in (*faults.damaged_disks(), *faults.more_disks())]
        jobs = [pool.submit(on_disk, ptab, loaded, disk, command, step, whole) for disk, step in disks for command in lines(())]
        streams = sum(full_streams(ptab, disk) for disk in faults.disks()) + types(ptab)
        done = [it for job in jobs for it in job.result()]
    print(f"no device: {sum(runs for _, runs in done) + streams} passed, 0 failed, of {sum(calls for calls, _ in done)} calls")


main()
