#!/usr/bin/env python3
"""Plans, checks and applies the same edits and long plans with ptab; prints one table.

usage: bench/checks.py PTAB

The long plans write 4,096 sectors, as many as a plan may have: in one phase, and in 4,096 phases. Their writes are those of sectors
of the table with the bytes that stand there, so that check goes through all of them and says yes. The same writes are checked in
ascending, in descending and in mixed order. It ends with status 1 where one of these takes more than twice the instructions of the
ascending ones, or where verify, an edit or a check of a long plan takes more instructions than its line allows.
"""
import os
import random
import subprocess
import sys
import tempfile

from disks import APART, full_gpt, labelled_chain, labelled_gpt
from measure import calls, instructions, reset

sys.path.insert(0, os.path.join(os.path.dirname(os.path.abspath(__file__)), "..", "tests", "shared"))
from images import SMALL, chained, ebr, entry, label, long_chain, record  # noqa: E402
from plans import phases_of, text_of  # noqa: E402

MOST = 4096
# Instructions that a check of such a plan may take: in one phase, with a phase for each write, and where these are of labels or of an MBR.
IN_ONE_PHASE, IN_PHASES, IN_PLACES = 32_200_000, 34_600_000, 37_200_000
# Instructions that a check of the same writes in another order may take, for one of the ascending ones.
IN_ANY_ORDER = 2
# Instructions that verify and an edit may take where 128 slices have labels.
VERIFY_LABELLED, EDIT_LABELLED = 2_300_000, 7_500_000


def whole(image, places):
    """The sectors of those places as they stand, over and over, as many as a plan may write."""
    return [(places[k % len(places)], SMALL.sector(image, places[k % len(places)])) for k in range(MOST)]


def in_orders(writes):
    """(order, the writes in it)"""
    ascending = sorted(writes, key=lambda write: write[0])
    if ascending[0][0] == ascending[-1][0]:
        yield "one sector", ascending
        return
    mixed = list(ascending)
    random.Random(1).shuffle(mixed)
    yield "ascending", ascending
    yield "descending", ascending[::-1]
    yield "mixed", mixed


def long_plans():
    """(title, image, writes, whether each has a phase of its own, instructions that a check may take)"""
    full = full_gpt()
    one = SMALL.gpt(65536, {1: entry(2048, 4095)})
    mbr = SMALL.mbr(65536, [record(0x83, 2048, 2048)])
    chain = long_chain(128)
    slices, labels = labelled_gpt()
    logicals, heads = labelled_chain()
    backup = list(range(65536 - 33, 65536))
    for title, image in (("1 partition", one), ("128 partitions", full), ("128 labelled slices", slices)):
        yield f"GPT, {title}: one phase", image, whole(image, backup), False, IN_ONE_PHASE
        yield f"GPT, {title}: a phase each", image, whole(image, backup), True, IN_PHASES
        yield f"GPT, {title}: its own header", image, whole(image, [1]), True, IN_PHASES
    yield "GPT, 128 labelled slices: labels", slices, whole(slices, labels), True, IN_PLACES
    yield "MBR: a phase each", mbr, whole(mbr, [0]), True, IN_PLACES
    yield "MBR, 128 logicals: a phase each", chain, whole(chain, [10 + 2 * k for k in range(128)]), True, IN_PLACES
    yield "MBR, 128 labelled: a phase each", logicals, whole(logicals, heads), True, IN_PLACES


def edits():
    """(title, image, words, instructions that the edit may take, none where it doesn't matter)"""
    fresh = ["--fresh", "".join(f"{number:032x}" for number in range(1, 130))]
    one = SMALL.gpt(65536, {1: entry(2048, 4095)})
    full = full_gpt()
    logical = chained({4096: ebr(link=record(0x05, 2047, 1001)), 6143: ebr(record(0x83, 1, 1000))})
    slices, _ = labelled_gpt()
    logicals, _ = labelled_chain()
    free = labelled_gpt()[0]
    SMALL.put(free, 1000 + 6 * APART + 1, label(300, {0: (30, 16, 7)}))
    yield "a name, 1 partition", one, ["c:1:renamed"], None
    yield "a name, 128 partitions", full, ["c:1:renamed"], None
    yield "a new table", SMALL.zeros(65536), [*fresh, "o"], None
    yield "an MBR to a GPT", long_chain(124, first=40), [*fresh, "g"], None
    yield "a logical", logical, ["n:5:0:+1000"], None
    yield "a name, 128 labelled slices", slices, ["c:1:renamed"], EDIT_LABELLED
    yield "a slice less of 128", slices, ["d:7"], EDIT_LABELLED
    yield "a type in one of 128 labels", slices, ["t:5.a:08"], EDIT_LABELLED
    yield "a partition less in a label", slices, ["d:7.b"], EDIT_LABELLED
    yield "a partition more in a label", free, ["a:1", "n:7.b:0:0"], EDIT_LABELLED
    yield "a type in a logical's label", logicals, ["t:9.a:08"], EDIT_LABELLED
    yield "a labelled logical less", logicals, ["d:9"], EDIT_LABELLED


def row(title, job, many, seen, allowed=None):
    mark = "" if allowed is None else f"{allowed / 1e6:8.2f}"
    print(f"{title:52} {job:6} {many / 1e6:9.2f} {seen['sectors']:9} {seen['writes']:7} {seen['syncs']:6} {mark}", flush=True)


def put(path, content):
    with open(path, "wb") as it:
        it.write(content)


class Bench:
    """The built command, and the files that it works on."""

    def __init__(self, ptab, folder):
        self.ptab, self.folder, self.over = ptab, folder, []
        self.kept, self.image, self.plan = (f"{folder}/{name}" for name in ("kept.img", "image.img", "plan"))

    def job(self, title, line, allowed=None):
        """Measures one call on a fresh image, and says what it took."""
        words = [self.ptab, *line]
        reset(self.image, self.kept)
        many = instructions(words, self.folder)
        reset(self.image, self.kept)
        row(title, line[0], many, calls(words, self.image, self.folder), allowed)
        reset(self.image, self.kept)
        if allowed is not None and many > allowed:
            self.over.append(f"{line[0]}, {title}: {many:,} instructions, allowed {allowed:,}")
        return many

    def begin(self, content):
        put(self.kept, content)
        reset(self.image, self.kept)

    def check(self, title, phases, allowed):
        put(self.plan, text_of(phases).encode())
        said = subprocess.run([self.ptab, "check", self.image, self.plan], capture_output=True, text=True)
        if (said.stdout, said.returncode) != ("yes 0\n", 0):
            sys.exit(f"{title}: {said.stdout}{said.stderr}")
        return self.job(title, ["check", self.image, self.plan], allowed)

    def long_plan(self, title, content, writes, is_split, allowed):
        self.begin(content)
        ascending = None
        for order, ordered in in_orders(writes):
            phases = [[write] for write in ordered] if is_split else [ordered]
            many = self.check(f"{title}, {order}", phases, min(allowed, IN_ANY_ORDER * ascending) if ascending else allowed)
            ascending = ascending or many

    def edit(self, title, content, words, allowed):
        self.begin(content)
        text = subprocess.run([self.ptab, "plan", self.image, *words], capture_output=True, text=True, check=True).stdout
        put(self.plan, text.encode())
        if text_of(phases_of(text, 512)) != text:
            sys.exit(f"{title}: another text")
        for line in (["plan", self.image, *words], ["check", self.image, self.plan], ["apply", self.image, self.plan]):
            self.job(title, line)
        self.job(title, ["edit", self.image, *words], allowed)


def main():
    print(f"{'plan':52} {'job':6} {'M instr':>9} {'sectors':>9} {'writes':>7} {'syncs':>6}  allowed")
    with tempfile.TemporaryDirectory() as folder:
        bench = Bench(os.path.abspath(sys.argv[1]), folder)
        for title, (content, _) in (("128 labelled slices", labelled_gpt()), ("128 labelled logicals", labelled_chain())):
            bench.begin(content)
            bench.job(title, ["verify", bench.image], VERIFY_LABELLED)
        for plan in edits():
            bench.edit(*plan)
        for plan in long_plans():
            bench.long_plan(*plan)
    print("\n".join(bench.over) if bench.over else "each takes the instructions that its line allows, or fewer; a check of a long plan "
          f"at most {IN_ANY_ORDER} times those of its writes in ascending order")
    sys.exit(1 if bench.over else 0)


main()
