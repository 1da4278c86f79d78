#!/usr/bin/env python3
"""Images with sectors of 4096 bytes, and labels that count the disk's sectors, by all eight commands.

usage: tests/rows/rows_4096.py PTAB [DOUBLES]
"""
import os
import sys

sys.path.insert(0, os.path.join(os.path.dirname(os.path.abspath(__file__)), "..", "shared"))
import images
from eight import not_repaired, nothing, repaired, run_all, stands
from images import FREEBSD, LARGE, SMALL, ebr, entry, guid, label, one_partition, record
from plans import both_copies, checks, lay, plan_of, primary_first, refused, same, turns

FRESH = "--fresh 000102030405060708090a0b0c0d0e0f" + "0" * 32
HEAD = f"gpt 256 6 250 {images.DISK}"
ONE = f"1 6 250 8300 0000000000000000 {images.FIRST}"
SLICE = ("mbr 8192", "1 2048 6143 A5 00")


def whole():
    return LARGE.gpt(256, {1: entry(6, 250)})


def new_tables(command):
    """Tables made on zeros: what each command says of them afterwards."""
    it = command.large()
    for sectors, words, lines, place in ((256, "o", [HEAD], None), (256, "o a:1 n:1:0:0", [HEAD, ONE], 6),
                                         (12, "o", [f"gpt 12 6 6 {images.DISK}"], None),
                                         (12, "o a:1 n:1:6:6", [f"gpt 12 6 6 {images.DISK}", ONE.replace("6 250", "6 6")], 6)):
        turns(it, LARGE.zeros(sectors), f"{FRESH} {words}", primary_first(LARGE, sectors, protects=True), 3, lines)
        made = it.image()
        stands(it, made, lines, None, place)
        repaired(it, made, made)
    stands(it, whole(), [HEAD, ONE], None, 6).located("1", 244, 250).nowhere("1", 245)
    refused(it.on(LARGE.zeros(256)), "edit 3", f"{FRESH} o n:1:0:0")
    nothing(it, LARGE.zeros(11), "too small")
    refused(it, "edit 12", f"{FRESH} o")
    nothing(it, LARGE.zeros(12), "copies 1 1")


def of_another_size(command):
    """Tables read with the other size of sectors."""
    nothing(command.large(), one_partition(), "copies 1 1")
    turns(command.large(), one_partition(), f"{FRESH} o", primary_first(LARGE, 512, protects=True), 3, [f"gpt 512 6 506 {images.DISK}"])
    nothing(command, whole(), "copies 1 1")
    mbr = SMALL.mbr(4096, [record(0x83, 100, 100)])
    stands(command.large(), mbr, ["mbr 512", "1 100 199 83 00"], None, 100)
    plan = plan_of(lay(command, one_partition()), "c:1:x")
    for word in ("check", "apply"):
        with open(f"{command.path}.plan", "w", encoding="ascii") as it:
            it.writelines(f"W {lba} {bytes(content).hex()}\n" for lba, content in plan[0])
        command.large().on(whole()).gives([word, f"{command.path}.plan"], "", "refused: plan text 1\n", 3)


def mended(command):
    """Copies and sector 0 that are damaged: what each command makes of them."""
    it = command.large()
    whole_plan = plan_of(lay(it, whole()), "c:1:data")
    for lba, byte, finding in ((1, 0, "2 primary copy 1"), (1, 40, "2 primary copy 4"), (5, 4095, "2 primary copy 9"),
                               (255, 0, "3 backup copy 1"), (251, 9, "3 backup copy 9"),
                               (0, 451, "6 protective record"), (0, 510, "6 protective record")):
        image = whole()
        image[lba * 4096 + byte] ^= 0x40
        stands(it, image, [HEAD, ONE], finding, 6)
        order = primary_first(LARGE, 256) if finding[0] == "2" else both_copies(LARGE, 256, protects=finding[0] == "6")
        turns(it, image, "c:1:data", order, 3 if finding[0] == "2" else 2, [HEAD, f"{ONE} data"])
        turns(it, image, "a:1", order, 0, [HEAD, ONE])
        repaired(it, image, whole())
        if finding[0] == "2":
            checks(lay(it, image), whole_plan, "no 4 1 251")
    both = whole()
    both[4096] ^= 1
    both[255 * 4096] ^= 1
    nothing(it, both, "copies 1 1")
    grown = whole() + LARGE.zeros(10)
    stands(it, grown, [HEAD.replace("256", "266"), ONE], "3 backup copy 1", 6)
    left = bytearray(grown)
    for lba, content in LARGE.gpt_pieces(266, {1: entry(6, 250)}, last=250).items():
        LARGE.put(left, lba, content)
    repaired(it, grown, left)
    nothing(it, whole()[:200 * 4096], "copies 8 1")


def reasons(command):
    """Each of the checker's reasons; sector 0's bytes past the boot code, and past 512, may change."""
    it = command.large()
    it.on(whole())
    zeros, first, header = bytes(4096), bytearray(LARGE.sector(whole(), 0)), [(1, LARGE.sector(whole(), 1))]
    for at, answer in ((0, "no 3 1"), (439, "no 3 1"), (440, "yes 0"), (445, "yes 0"), (446, "no 8 6"), (509, "no 8 6"),
                       (512, "yes 0"), (4095, "yes 0")):
        changed = bytearray(first)
        changed[at] ^= 0x80
        checks(it, [[(0, changed)]], answer)
    for plan, answer in (([[(256, zeros)]], "no 2 1"), ([[(2 ** 64 - 1, zeros)]], "no 2 1"),
                         ([[(1, zeros)], [(2, zeros), (256, zeros)]], "no 2 3"),
                         ([[(1, zeros), (2, zeros)]], "no 4 1 1"), ([[(3, zeros), (2, zeros)]], "no 4 1 3"),
                         ([[(1, zeros)], [(255, zeros)], header], "no 5 2"), ([[(1, zeros)], header], "yes 0"),
                         ([[(100, zeros)]], "no 6 100"), ([[(0, zeros)]], "no 8 6"), ([[(255, zeros)], [(1, zeros)]], "no 8 1"),
                         ([[(1, zeros)]], "no 8 2"), ([[(255, zeros)]], "no 8 3"), ([[(2, zeros)] * 1000], "no 4 1 2")):
        checks(it, plan, answer)
    low = LARGE.mbr(256, [record(0x83, 5, 100)])
    checks(lay(it, low), [[(lba, LARGE.sector(whole(), lba)) for lba in (2, 3, 4, 5)], header, [(0, bytes(first))]], "no 7 5")


def on_mbr(command):
    it = command.large()
    image = LARGE.mbr(256, [record(0x83, 6, 10, 0x80), bytes(16), record(0xEF, 20, 30)])
    image[512:4096] = bytes([7]) * 3584
    stands(it, image, ["mbr 256", "1 6 15 83 80", "3 20 49 EF 00"], None, 6)
    repaired(it, image, image)
    unsound = LARGE.mbr(256, [record(0x83, 6, 251)])
    stands(it, unsound, ["mbr 256", "1 6 256 83 00"], "7 outside 1", 6)
    not_repaired(it, unsound)
    chain = LARGE.mbr(512, [bytes(16), record(0x05, 100, 400)])
    LARGE.put(chain, 100, ebr(link=record(0x05, 50, 101)))
    LARGE.put(chain, 150, ebr(record(0x83, 1, 100)))
    lines = ["mbr 512", "2 100 499 05 00", "5 151 250 83 00"]
    stands(it, chain, lines).located("5", 99, 250)
    repaired(it, chain, chain)
    turns(it, chain, "a:1 n:5:300:+10", "299 | 150", 2, [*lines, "6 300 309 83 00"])
    LARGE.put(chain, 150, ebr(record(0x83, 1, 100), record(0x05, 0, 1)))
    nothing(it, chain, "chain 3 150")


def no_labels(command):
    """With sectors of 4096 bytes A5 and A500 are types like others, whatever stands in their second sector."""
    it = command.large()
    for content in (label(400, {}), label(400, {0: (200, 120, 7)}, raw_offset=100), label(400, {}, raw_offset=101)):
        image = LARGE.mbr(512, [record(0xA5, 100, 400)])
        LARGE.put(image, 101, content)
        stands(it, image, ["mbr 512", "1 100 499 A5 00"], None, 100).nowhere("1.a", 0)
        repaired(it, image, image)
        for words in ("a:1 n:1.a:120:200", "d:1.a", "t:1.a:07", "n:1.c:0:0"):
            refused(it, "edit 1", words)
        turns(it, image, "t:1:83", "0", 1, ["mbr 512", "1 100 499 83 00"])
        turns(it, None, "a:1 n:2:50:50:A5", "0", 1, ["mbr 512", "1 100 499 83 00", "2 50 50 A5 00"])
    gpt = LARGE.gpt(256, {1: entry(6, 250, FREEBSD)})
    LARGE.put(gpt, 7, label(245, {}, checksum=1))
    stands(it, gpt, [HEAD, ONE.replace("8300", "A500")], None, 6)
    repaired(it, gpt, gpt)
    both = [HEAD, f"1 6 50 A500 0000000000000000 {images.FIRST}", f"2 51 250 A500 0000000000000000 {guid(2)}"]
    stands(it, LARGE.gpt(256, {1: entry(6, 50, FREEBSD), 2: entry(51, 250, FREEBSD, guid(2))}), both, None, 6)


def absolute_labels(command):
    """Labels that count the disk's sectors, on a disk of 512."""
    def of(*given, **more):
        image = SMALL.mbr(8192, [record(0xA5, 2048, 4096)])
        SMALL.put(image, 2049, label(4096, *given, **more))
        return image
    two = {0: (2000, 2064, 7), 1: (1000, 4064, 7)}
    lines = [*SLICE, "1.a 2064 4063 07", "1.b 4064 5063 07"]
    relative = of({0: (2000, 16, 7), 1: (1000, 2016, 7)})
    for image, wanted in ((of({}, raw_offset=2048), SLICE), (of(two, raw_offset=2048), lines), (relative, lines)):
        stands(command, image, wanted)
        repaired(command, image, image)
    command.on(of(two, raw_offset=2048)).located("1.a", 0, 2064).located("1.b", 999, 5063).nowhere("1.b", 1000).nowhere("1.c", 0)
    low, foreign = of({0: (10, 2000, 7)}, raw_offset=2048), of({}, raw_offset=2049)
    stands(command, low, [*SLICE, "1.a 2000 2009 07"], "7 outside 1.a").located("1.a", 9, 2009)
    stands(command, foreign, SLICE, "11 foreign label 1")
    for image in (low, foreign):
        not_repaired(command, image)
        refused(command, "plan 4", "a:1 n:2:7000:7100")
    turns(command, low, "d:1.a", "2049", 1, SLICE)
    stands(command, command.image(), SLICE)
    sectors = 2 ** 32 + 5000
    pieces = SMALL.gpt_pieces(sectors, {1: entry(4294967200, 4294968199, FREEBSD)})
    head = [f"gpt {sectors} 34 {sectors - 34} {images.DISK}", f"1 4294967200 4294968199 A500 0000000000000000 {images.FIRST}"]
    for content, line, last in ((label(1000, {0: (10, 4294967290, 7)}, raw_offset=4294967200), "1.a 4294967290 4294967299 07", 4294967299),
                                (label(1000, {0: (10, 100, 7)}), "1.a 4294967300 4294967309 07", 4294967309)):
        pieces[4294967201] = content
        stands(command, (sectors, pieces), [*head, line]).located("1.a", 9, last).nowhere("1.a", 10)
        before = command.image()
        same("repair of a huge disk", (command.run("repair"), command.image()), (("done\n", "", 0), before))


ROWS = (new_tables, of_another_size, mended, reasons, on_mbr, no_labels, absolute_labels)


def main():
    run_all("large sectors and absolute labels", ROWS, *sys.argv[1:3])


main()
