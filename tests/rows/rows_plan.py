"""What plan, check and apply make of plans: the phases of each, the checker's answer, and the image that is left."""
import sys

import images
from command import Command
from images import FREEBSD, LARGE, SMALL, entry, guid, label, one_partition, record

FRESH = ("--fresh", "000102030405060708090a0b0c0d0e0f" + "0" * 32)


def lines_of(plan):
    """The lines of a plan, a list of phases of writes (lba, bytes)."""
    return "".join("".join(f"W {lba} {content.hex()}\n" for lba, content in phase) + "F\n" for phase in plan)


def phases_of(text):
    """The plan of a text that the command printed."""
    plan, phase = [], []
    for line in text.splitlines():
        if line == "F":
            plan.append(phase)
            phase = []
        else:
            letter, lba, digits = line.split(" ")
            if letter != "W":
                sys.exit(f"a plan has the line {line[:40]}")
            phase.append((int(lba), bytes.fromhex(digits)))
    if phase or lines_of(plan) != text:
        sys.exit("a plan's text isn't that of its phases")
    return plan


class Plans(Command):
    """The command with a file for plans beside the image."""

    def __init__(self, command):
        super().__init__(command.ptab, command.path, command.sectors)
        self.file = f"{command.path}.plan"

    def planned(self, *words):
        """The plan of the words; the image stays as it is, and a second call prints the same."""
        before = self.image()
        text, errors, status = self.run("plan", *words)
        if (errors, status) != ("", 0) or self.image() != before:
            sys.exit(f"plan {' '.join(words)}: status {status}, {errors}")
        self.gives(["plan", *words], text)
        return phases_of(text)

    def counts(self, wanted, *words):
        plan = self.planned(*words)
        found = [len(phase) for phase in plan]
        if found != wanted:
            sys.exit(f"plan {' '.join(words)} has phases of {found} writes, not of {wanted}")
        return plan

    def checked(self, plan, answer, status=0):
        with open(self.file, "w", encoding="ascii") as it:
            it.write(lines_of(plan))
        return self.gives(["check", self.file], f"{answer}\n", status=status)

    def accepted(self, plan, switch):
        return self.checked(plan, f"yes {switch}")

    def objected(self, plan, reason):
        """check says no for that reason, and so does apply, which writes nothing."""
        self.checked(plan, f"no {reason}", 1)
        self.gives(["show", "--after", self.file], f"no {reason}\n", status=1)
        return self.gives(["apply", self.file], f"no {reason}\n", status=1)

    def applied(self, plan):
        """apply does what the plan says, and nothing else; what `show` prints then it has printed before."""
        wanted = bytearray(self.image())
        for phase in plan:
            for lba, content in phase:
                self.sectors.put(wanted, lba, content)
        with open(self.file, "w", encoding="ascii") as it:
            it.write(lines_of(plan))
        told = self.run("show", "--after", self.file)
        self.gives(["apply", self.file], "done\n")
        if self.image() != bytes(wanted):
            sys.exit("apply left other bytes than the plan's")
        if told[2] != 0:
            sys.exit(f"what a plan leaves isn't shown: {told}")
        return self.gives(["show"], *told)


def zeros(*places):
    """A phase that writes zeros to these sectors."""
    return [(lba, bytes(512)) for lba in places]


def healthy(command):
    """A name, on a healthy disk: the backup first, then the primary, which is none between."""
    plans = Plans(command)
    plans.on(SMALL.zeros(4096)).edited(*FRESH, "o", "n:1:0:0")
    if plans.image() != bytes(one_partition()):
        sys.exit("a new table has other bytes")
    plan = plans.counts([33, 1, 32, 1], "c:1:data")
    if [[lba for lba, _ in phase] for phase in plan] != [list(range(4063, 4096)), [1], list(range(2, 34)), [1]]:
        sys.exit("the writes of a plan don't ascend")
    plans.accepted(plan, 2).objected(plan[:1] + plan[2:], "4 2 2").objected(plan[::-1], "4 2 2")
    plans.objected(plan[:3], "8 2").objected(plan[1:], "8 4").accepted([], 0).accepted(plan, 2).applied(plan)
    plans.shows(f"gpt 4096 34 4062 {images.DISK}", f"1 2048 4062 8300 0000000000000000 {images.FIRST} data").healthy()


def damaged(command):
    """A disk whose primary is none already, whose array has another bit, and one without a table."""
    plans = Plans(command)
    broken = one_partition()
    broken[512] ^= 0xFF
    plan = plans.on(broken).counts([1, 32, 1, 33], "c:1:data")
    plans.accepted(plan, 3).applied(plan).healthy()
    broken = one_partition()
    broken[2 * 512 + 200] ^= 1
    plan = plans.on(broken).counts([1, 32, 1, 33], "a:1")
    plans.accepted(plan, 0).applied(plan).healthy()
    plan = plans.on(SMALL.zeros(2048)).counts([1, 32, 1, 33, 1], *FRESH, "o")
    plans.accepted(plan, 3).applied(plan).healthy()
    plans.on(SMALL.zeros(2048)).objected([], "8 1")


def reasons(command):
    """Each of the checker's reasons, on one disk; of several the first is told."""
    plans = Plans(command).on(one_partition())
    plans.accepted([], 0)
    plans.objected([zeros(2)] * 4097, "1").objected([zeros(4096)] * 4097, "1").objected([zeros(2)] * 4096, "8 2")
    plans.objected([zeros(4096)], "2 1").objected([zeros(2 ** 64 - 1)], "2 1").objected([zeros(1), zeros(2, 3, 4096)], "2 4")
    first = bytearray(SMALL.sector(one_partition(), 0))
    first[0] = 1
    plans.objected([[(0, bytes(first))]], "3 1").objected([zeros(1), [(100, bytes(512)), (0, bytes(first))]], "3 3")
    plans.objected([zeros(1, 2)], "4 1 1").objected([zeros(3, 2)], "4 1 3").objected([zeros(100), zeros(101, 4063, 0)], "4 2 0")
    was = [(1, SMALL.sector(one_partition(), 1))]
    plans.objected([zeros(1), zeros(4095), was], "5 2").accepted([zeros(1), was], 0)
    plans.objected([zeros(100)], "6 100").objected([zeros(2048, 4000)], "6 2048").objected([was, zeros(1000, 100)], "6 1000")
    plans.objected([zeros(0)], "8 6").objected([zeros(4095), zeros(1)], "8 1").objected([zeros(1)], "8 2").objected([zeros(4095)], "8 3")


def written(image, *ranges):
    """A phase for each range of sectors, with what they hold in the image."""
    return [[(lba, SMALL.sector(image, lba)) for lba in range(first, end)] for first, end in ranges]


def by_hand(command):
    """Plans that no words make: a GPT over an MBR disk, refused where a partition of the MBR stands on its tables, and a type."""
    plans = Plans(command)
    plan = written(one_partition(), (4063, 4096), (2, 34), (1, 2), (0, 1))
    for first, size, sector in ((1, 100, 2), (33, 1, 33), (4000, 96, 4063), (4095, 1, 4095)):
        plans.on(SMALL.mbr(4096, [record(0x83, first, size)])).objected(plan, f"7 {sector}")
    plans.on(SMALL.mbr(4096, [record(0x83, 34, 4029)])).accepted(plan, 4).objected(plan[:3], "6 4063").applied(plan).healthy()
    slices = SMALL.gpt(4096, {1: entry(2048, 4062, FREEBSD)})
    plan = written(slices, (4063, 4096), (1, 2), (2, 34), (1, 2))
    plan[1] = zeros(1)
    plans.on(one_partition()).accepted(plan, 2).applied(plan).healthy()
    plans.shows(f"gpt 4096 34 4062 {images.DISK}", f"1 2048 4062 A500 {0:016x} {images.FIRST}")


def same_as_edit(plans, image, *words):
    """plan and apply leave what edit leaves; a second apply says what check says, and changes nothing."""
    plans.on(image).edited(*words)
    wanted = plans.image()
    plan = plans.on(image).planned(*words)
    plans.applied(plan)
    if plans.image() != wanted:
        sys.exit(f"plan and apply of {' '.join(words)} leave other bytes than edit")
    told, errors, status = plans.run("check", plans.file)
    if errors or status not in (0, 1):
        sys.exit(f"check of a plan that was applied: {told}{errors}")
    plans.gives(["apply", plans.file], "done\n" if status == 0 else told, status=status)
    if plans.image() != wanted:
        sys.exit(f"a second apply of {' '.join(words)} changed the image")


SMALL_WORDS = (("c:1:data",), ("a:1",), ("c:1:",), ("d:1",), ("t:1:EF00", "A:1:63:1"), (f"U:{images.FIRST}", f"u:1:{guid(9)}"),
               (*FRESH, "o"), (*FRESH, "a:8", "d:1", "n:7:0:+9:8200", "c:7:swap"), (*FRESH, "o", "n:128:40:+1"))


def small(command):
    plans = Plans(command)
    wrong = []
    for at in (512, 2 * 512 + 200, 4095 * 512, 4063 * 512, 446 + 5):
        wrong.append(one_partition())
        wrong[-1][at] ^= 0xFF
    for words in SMALL_WORDS:
        for image in (one_partition(), *wrong):
            same_as_edit(plans, image, *words)
    for words in (("e",), ("e", "c:1:grown"), ("c:1:x",)):
        same_as_edit(plans, one_partition() + SMALL.zeros(1000), *words)
    slices = SMALL.gpt(8192, {1: entry(2048, 6143, FREEBSD)})
    SMALL.put(slices, 2049, label(4096, {3: (100, 16, 1)}))
    for words in (("c:1:bsd",), ("d:1",), ("a:1",)):
        same_as_edit(plans, slices, *words)
    for sectors in (68, 2048):
        same_as_edit(plans, SMALL.zeros(sectors), *FRESH, "o")


def large(command):
    plans = Plans(command.large())
    image = LARGE.gpt(256, {1: entry(6, 250)})
    plan = plans.on(image).counts([5, 1, 4, 1], "c:1:data")
    plans.accepted(plan, 2).objected(plan[:1] + plan[2:], "4 2 2").objected([[(100, bytes(4096))]], "6 100")
    for words in (("c:1:x", "A:1:63:1"), ("d:1",), ("a:1",), ("t:1:A500",), (*FRESH, "a:1", "o", "n:1:0:0")):
        same_as_edit(plans, image, *words)
    same_as_edit(plans, LARGE.gpt(256, {1: entry(6, 250)}) + LARGE.zeros(10), "e")
    for sectors in (12, 256):
        same_as_edit(plans, LARGE.zeros(sectors), *FRESH, "o")
    plan = Plans(command).on(one_partition()).planned("c:1:x")
    plans.on(image)
    with open(plans.file, "w", encoding="ascii") as it:
        it.write(lines_of(plan))
    for words in (["check"], ["apply"], ["show", "--after"]):
        plans.gives([*words, plans.file], "", "refused: plan text 1\n", 3)


def refused_as_edit(command):
    """What edit refuses, plan refuses by the same words; neither writes."""
    plans = Plans(command)
    for image in (one_partition(), SMALL.zeros(67), SMALL.zeros(4096), SMALL.gpt(4096, {1: entry(3000, 2999)}), SMALL.mbr(64, [])):
        plans.on(image)
        for words in (("c:2:x",), ("c:1:" + "x" * 37,), ("o",), ("d:1.a",), ("n:0:0:0",), ("g",), ("x",), ("a:1", "c:1:x"),
                      ("--fresh", "0", "c:1:x"), (*FRESH, "n:1:1:1")):
            out, errors, status = plans.run("edit", *words)
            if status == 0:
                plans.on(image)
            else:
                plans.gives(["plan", *words], out, errors, status)


ROWS = (healthy, damaged, reasons, by_hand, small, large, refused_as_edit)
