#!/usr/bin/env python3
"""The C library beside the command: the header compiled as C and as C++, with all warnings; on images changed at random, of every kind and
both sector sizes, one answer, one status and one image after an edit or a repair, each plan taken by the command's `check`'s twin, and no
sector asked for twice; the table as text and back, free blocks, and the tables of texts that are drawn (random_tables.py), their faults
among them; plans by what becomes of the primary copy, byte by byte (kept_plans.py), which is whole at each stop where it is
kept; each request for memory refused in turn; the whole reply of each status (c_replies.py, c_texts.py); valgrind silent where it is
installed; the C example cut in each phase of its writes.

usage: tests/callers/c_library.py PTAB ARCHIVE [COUNT]     ARCHIVE is crates/pt_c/out/libpt_c.a
"""
import collections
import ctypes
import json
import os
import random
import re
import shutil
import subprocess
import sys

HERE = os.path.dirname(os.path.abspath(__file__))
ROOT = os.path.dirname(os.path.dirname(HERE))
sys.path.insert(0, os.path.join(ROOT, "tests", "shared"))
import c_replies
import c_texts
import images
import kept_plans
import plans
import replay as lib
from images import LARGE, SMALL, room
from reader import followed
from writes import SYNCS, choices, written


def of_test(name):
    """The names of a test of failures, which isn't run."""
    path = os.path.join(ROOT, "tests", "failures", f"{name}.py")
    found = {"__name__": name, "__file__": path}
    with open(path, encoding="utf-8") as file:
        exec(re.sub(r"\nmain\(\)\n$", "\n", file.read()), found)
    return found


HOSTILE, TABLES = of_test("hostile"), of_test("random_tables")
KEYS = ("text", "partitiontable", "unknown", "label", "device", "unit", "sectorsize", "sectors", "id", "firstlba", "lastlba", "entries",
        "table-length", "partitions", "chain", "number", "node", "start", "size", "last", "offset", "type", "type_name", "uuid", "name",
        "name_units", "attributes", "attrs", "bootable", "boot", "start_chs", "end_chs", "record", "bsd")
CALLS = ("openat", "pwrite64", *SYNCS)
WARNINGS = ("-Wall", "-Wextra", "-pedantic", "-Werror", "-O2")
# the interface's number, and a view, which has the size that it had before it had a `primary`
HEADER = """#include "ptab.h"
int main(void) {
  int is_view = offsetof(ptab_view, primary) == 4 && offsetof(ptab_view, sectors) == 8 && sizeof(ptab_view) == 16 + 4 * sizeof(size_t);
  return is_view && ptab_version() == PTAB_VERSION ? 0 : 1;
}
"""
WORDS = (["a:2048"], ["c:1:name"], ["d:1"], ["n:0:0:0"], ["o"], ["o", "n:0:0:+8", "c:1:root"], ["g"], ["t:1:8300"], ["e"],
         ["A:1:2:1"], ["d:1", "n:0:0:+5:8200"], ["d:2.a"], ["n:5:0:0"], ["x"], ["c:1:"], ["a:8", "n:2:0:+9"], ["t:1:83"],
         ["u:1:e896e426-a4e9-4c9e-8d92-b56974f85fcf"], ["U:e896e426-a4e9-4c9e-8d92-b56974f85fcf"], ["n:2.b:0:+3"],
         ["t:2.a:07"], ["d:5", "a:1"], ["a:1", "n:0:0:0"], ["g", "c:1:é𝄞"])


def fail(*told):
    sys.exit("C library: " + " ".join(str(it) for it in told))


def must(*words, **more):
    done = subprocess.run(words, capture_output=True, text=True, **more)
    if done.returncode != 0 or done.stderr:
        fail(words, done.returncode, done.stdout, done.stderr)
    return done.stdout


def built(archive, folder):
    """(the shared object, the one whose memory can be refused, the C example)"""
    must(f"{ROOT}/bindings/c/build.sh", archive, folder)
    include = f"-I{ROOT}/include"
    for compiler, standard, name in (("cc", "-std=c99", "h.c"), ("cc", "-std=c11", "h.c"), ("c++", "-std=c++11", "h.cpp"),
                                     ("c++", "-std=c++20", "h.cpp")):
        with open(f"{folder}/{name}", "w") as file:
            file.write(HEADER)
        must(compiler, standard, *WARNINGS, include, f"{folder}/{name}", f"{folder}/libptab.a", "-o", f"{folder}/h")
        must(f"{folder}/h")
    must("cc", "-std=c11", *WARNINGS, include, f"{ROOT}/examples/c/ptab.c", f"{folder}/libptab.a", "-o", f"{folder}/ptab_c")
    must("cc", "-std=c11", *WARNINGS, "-fPIC", "-shared", "-Wl,-z,defs", f"{HERE}/c_library_memory.c", "-Wl,--whole-archive", archive,
         "-Wl,--no-whole-archive", "-o", f"{folder}/refusing.so")
    return f"{folder}/libptab.so.2", f"{folder}/refusing.so", f"{folder}/ptab_c"


# the library's answers, as the command prints them


def no_table(reply):
    return {1: f"no table: copies {reply.a} {reply.b}\n", 3: "no table: two extended\n", 4: "no table: too small\n",
            2: "no table: chain 5\n" if reply.a == 5 else f"no table: chain {reply.a} {reply.b}\n"}[reply.number]


def shown(it, disk):
    try:
        table, rows = disk.members()
    except lib.Failed as failed:
        return failed.status, "", no_table(failed.reply)
    gpt = table.kind == 2
    out = [f"gpt {table.sectors} {table.first} {table.last} {it.guid(table.disk)}" if gpt else f"mbr {table.sectors}"]
    for row in rows:
        where = f"{row.number}{'.' + chr(row.letter) if row.letter else ''} {row.first} {row.last}"
        if row.letter:
            out.append(f"{where} {row.type_byte:02X}")
        elif gpt:
            code = it.lib.ptab_type_code(row.type_guid)
            kind = f"{code:04X}" if code >= 0 else it.guid(row.type_guid)
            units = list(row.name)
            units = units[:units.index(0)] if 0 in units else units
            text = b"".join(unit.to_bytes(2, "little") for unit in units).decode("utf-16-le", "surrogatepass")
            name = "".join("?" if c < " " or c == "\x7f" or "\ud800" <= c <= "\udfff" else c for c in text)
            out.append(f"{where} {kind} {row.attributes:016x} {it.guid(row.unique)}" + (f" {name}" if units else ""))
        else:
            out.append(f"{where} {row.type_byte:02X} {row.boot:02X}")
    return 0, "\n".join(out) + "\n", ""


def path(number, letter):
    return f"{number}{'.' + chr(letter) if letter else ''}"


def verified(disk):
    status, reply = disk.verify()
    if status == 0:
        return 0, "yes\n", ""
    a, b = path(reply.a, reply.a_letter), path(reply.b, reply.b_letter)
    text = {1: "no table", 2: f"primary copy {a}", 3: f"backup copy {a}", 4: "copies differ",
            5: f"alternate {['', 'primary', 'backup'][reply.a]}" if reply.a < 3 else "", 6: "protective record",
            7: f"outside {a}", 8: f"overlap {a} {b}", 9: f"on table {a} {b}", 10: f"same guid {a} {b}",
            11: f"foreign label {a}"}[reply.number]
    return status, f"no {reply.number} {text}\n", ""


def refusal(failed, words):
    reply = failed.reply
    return {1: "", 2: f"bad word {words[reply.a - 1]}\n" if 0 < reply.a <= len(words) else "",
            3: no_table(reply) if reply.about == 3 else "", 9: "refused: other size\n" if reply.number == 1 else "",
            10: f"other: {no_table(reply)}" if reply.about == 10 else "", 5: f"refused: edit {reply.number}\n",
            6: f"refused: plan {reply.number}\n", 7: f"refused: check {reply.number}\n",
            8: f"refused: repair {reply.number}\n", 11: f"refused: table {KEYS[reply.number - 1]}" + f" {reply.a}" * (reply.a > 0) + "\n",
            }[reply.about]


def told_by(call):
    """(status, output, errors) of a call that gives a text."""
    try:
        return 0, call() + "\n", ""
    except lib.Failed as failed:
        return failed.status, "", no_table(failed.reply)


def blocks(disk):
    """The free blocks of a disk, as lines."""
    return "\n".join(f"{first} {last}" + f" {inside}" * (inside > 0) for first, last, inside in disk.free()) or "none"


def carried_out(image, phases, size):
    after = bytearray(image)
    for phase in phases:
        if not phase:
            fail("an empty phase")
        for sector, data in phase:
            after[sector * size:(sector + 1) * size] = data
    return bytes(after)


def changed(plan, image, size, words):
    """(status, output, errors, the image after it), and the phases"""
    try:
        phases = plan()
    except lib.Failed as failed:
        return (failed.status, "", refusal(failed, words), image), None
    return (0, "done\n", "", carried_out(image, phases, size)), phases


class Beside:
    """One image after the other, by the library and by the command."""

    def __init__(self, it, runner):
        self.it, self.runner, self.stops = it, runner, 0
        self.turns, self.adopted = collections.defaultdict(collections.Counter), collections.Counter()
        self.was_set = collections.Counter()

    def image(self, sectors, image):
        self.sectors, self.bytes, self.size = sectors, bytes(image), sectors.size
        self.count = len(image) // sectors.size
        with open(self.runner.path, "wb") as file:
            file.write(image)

    def disk_of(self, image, primary=lib.OF_ITSELF):
        """An image as a disk: no sector is asked for twice."""
        count, asked = len(image) // self.size, set()

        def read(k):
            if not 0 <= k < count or k in asked:
                fail("asked for sector", k, "of", count)
            asked.add(k)
            return image[k * self.size:(k + 1) * self.size]
        return lib.Disk(self.it, read, count, self.size, primary)

    def disk(self, primary=lib.OF_ITSELF):
        self.last = self.disk_of(self.bytes, primary)
        return self.last

    def same(self, what, mine, theirs):
        self.turns[what][self.last.calls] += 1
        if mine != theirs:
            with open("bad.img", "wb") as file:
                file.write(self.bytes)
            fail(f"{self.size}: {what}: the library {mine!r:.2000}, the command {theirs!r:.2000}; the image is bad.img")

    def run(self, *words):
        return self.runner.run(words[0], self.sectors, *words[1:])

    def after(self):
        with open(self.runner.path, "rb") as file:
            return file.read()

    def reads(self, rng):
        it = shown(self.it, self.disk())
        self.same("show", it, self.run("show"))
        finding = verified(self.disk())
        self.same("verify", finding, self.run("verify"))
        self.has_primary = it[1].startswith("gpt ") and not finding[1].startswith("no 2 ")
        where, k, _ = HOSTILE["place"](it, self.sectors, rng)
        name = where.split(".")
        try:
            found = self.disk().locate(int(name[0]), name[1] if len(name) > 1 else "", k)
            mine = (1, "none\n", "") if found is None else (0, f"{found}\n", "")
        except lib.Failed as failed:
            mine = (failed.status, "", no_table(failed.reply))
        self.same("locate", mine, self.run("locate", where, str(k)))
        self.text = told_by(lambda: self.disk().text(self.runner.path))
        self.same("text", self.text, self.run("show", "--json"))
        status, found, errors = told_by(lambda: blocks(self.disk()))
        self.same("free", (1 if found == "none\n" else status, found, errors), self.run("free"))

    def taken(self, phases, rng):
        """The plan is taken by the library's checker, and with a sector moved it is not what it was."""
        if phases is None:
            return
        status, reply = self.disk().check(phases)
        if status != 0:
            fail("a plan of its own is refused", status, reply.number)
        if phases:
            worse = [list(phase) for phase in phases]
            worse[0][0] = (self.count + rng.randrange(9), worse[0][0][1])
            status, reply = self.disk().check(worse)
            if (status, reply.about, reply.number, reply.a) != (1, 7, 2, 1):
                fail("a plan past the disk's end is taken", status, reply.number)

    def writes(self, rng):
        words, drawn = rng.choice(WORDS), rng.randbytes(16 * rng.choice((0, 3, 3, 200)))
        disk = self.disk()
        mine, phases = changed(lambda: disk.plan(words, drawn), self.bytes, self.size, words)
        theirs = self.run("edit", *(["--fresh", drawn.hex()] if drawn else []), *words)
        self.same("edit", mine, (*theirs, self.after()))
        self.edited = mine[3]
        self.taken(phases, rng)
        self.image(self.sectors, self.bytes)
        disk = self.disk()
        mine, phases = changed(disk.repair, self.bytes, self.size, [])
        self.same("repair", mine, (*self.run("repair"), self.after()))
        self.taken(phases, rng)


    def sets(self, rng):
        """The table of a text: its own, which changes nothing on a healthy GPT, that one with members changed, or one that is drawn."""
        self.image(self.sectors, self.bytes)
        table = {"partitiontable": TABLES["drawn"](rng, self.sectors, self.bytes)}
        if self.text[0] == 0 and rng.randrange(3):
            table = json.loads(self.text[1])
        for _ in range(rng.choice((0, 1, 2))):
            TABLES["mutate"](rng, table)
        drawn = rng.randbytes(16 * rng.choice((0, 1, 200, 200)))
        changed_text = json.dumps(table, indent=rng.choice((None, 1)))
        self.set_by(rng, (self.text[1] if rng.randrange(4) == 0 else changed_text).encode("utf-8"), drawn)

    def set_by(self, rng, text, drawn):
        """One text, by each choice of what becomes of the primary copy."""
        path, fresh = f"{self.runner.path}.json", ["--fresh", drawn.hex()] if drawn else []
        with open(path, "wb") as file:
            file.write(text)
        kept, by_table = self.run("set", "--plan", *fresh, path), self.run("set", "--plan", "--by-table", *fresh, path)
        for primary, theirs in ((lib.OF_ITSELF, kept), (lib.KEPT, kept), (lib.BY_TABLE, by_table)):
            self.planned(rng, "set", primary, lambda disk: disk.set(text, drawn), [], theirs)
        mine, phases = changed(lambda: self.disk().set(text, drawn), self.bytes, self.size, [])
        self.same("set", mine, (*self.run("set", *fresh, path), self.after()))
        self.image(self.sectors, self.bytes)
        self.taken(phases, rng)
        self.was_set[mine[2] or ("done" if phases else "nothing to do")] += 1

    def adopts(self, rng, other):
        """The image takes the table of another one of the same size of sectors."""
        self.image(self.sectors, self.bytes)
        path = f"{self.runner.path}.other"
        with open(path, "wb") as file:
            file.write(other)
        disk = self.disk()
        mine, phases = changed(lambda: disk.adopt(self.disk_of(other)), self.bytes, self.size, [])
        self.same("adopt", mine, (*self.run("adopt", path), self.after()))
        self.taken(phases, rng)
        self.adopted[mine[2] or ("done" if phases else "nothing to do")] += 1
        self.image(self.sectors, self.bytes)
        self.by_choice(rng, other, path)

    def planned(self, rng, what, primary, plan, words, theirs):
        """A plan by what becomes of the primary copy is the command's; where the copy is kept, it is whole at each stop."""
        disk = self.disk(primary)
        (status, _, errors, _), phases = changed(lambda: plan(disk), self.bytes, self.size, words)
        self.same(f"{what} by {primary}", (status, plans.text_of(phases or []), errors), theirs)
        if primary == lib.KEPT and phases and self.has_primary:
            self.stops += kept_plans.stops(rng, self.sectors, self.bytes, phases)

    def by_choice(self, rng, other, path):
        """Plans, and repairs, by what becomes of the primary copy."""
        words, drawn = rng.choice(WORDS), rng.randbytes(16 * rng.choice((3, 200)))
        line = ["--fresh", drawn.hex(), *words]
        by_table, kept = self.run("plan", *line), self.run("plan", "--keep-primary", *line)
        for primary, theirs in ((lib.OF_ITSELF, by_table), (lib.KEPT, kept), (lib.BY_TABLE, by_table)):
            self.planned(rng, "plan", primary, lambda disk: disk.plan(words, drawn), words, theirs)
        kept, by_table = self.run("adopt", "--plan", path), self.run("adopt", "--plan", "--by-table", path)
        for primary, theirs in ((lib.OF_ITSELF, kept), (lib.KEPT, kept), (lib.BY_TABLE, by_table)):
            self.planned(rng, "adopt", primary, lambda disk: disk.adopt(self.disk_of(other)), [], theirs)
        for primary, option in ((lib.KEPT, ["--keep-primary"]), (lib.BY_TABLE, [])):
            disk = self.disk(primary)
            mine, phases = changed(disk.repair, self.bytes, self.size, [])
            self.same(f"repair by {primary}", mine, (*self.run("repair", *option), self.after()))
            self.taken(phases, rng)
            self.image(self.sectors, self.bytes)
            if primary == lib.KEPT and phases and self.has_primary:
                self.stops += kept_plans.stops(rng, self.sectors, self.bytes, phases)


def others(rng, runs, before):
    """An image whose table is taken: the same one after an edit, or the one before it, mostly made as long."""
    if before is None or rng.randrange(2) == 0:
        return runs.edited
    if rng.randrange(8) == 0:
        return before
    return (before + bytes(len(runs.bytes)))[:len(runs.bytes)]


def beside(it, ptab, folder, count):
    rng = random.Random(1)
    runs, before = Beside(it, HOSTILE["Runner"](ptab, f"{folder}/image")), {}
    for _ in range(count):
        sectors, image = HOSTILE["hostile"](rng)
        runs.image(sectors, image)
        runs.reads(rng)
        runs.writes(rng)
        runs.sets(rng)
        runs.adopts(rng, others(rng, runs, before.get(sectors.size)))
        before[sectors.size] = image
    for what, turns in runs.turns.items():
        print(what, "by calls:", dict(sorted(turns.items())), file=sys.stderr)
    print("adopted:", dict(runs.adopted.most_common()), "stops with the primary copy kept:", runs.stops, file=sys.stderr)
    print("set:", dict(runs.was_set.most_common()), file=sys.stderr)
    ends = ("done", "nothing to do", *(f"refused: {it}\n" for it in ("table text", "table unknown", "plan 4")))
    if not all(runs.was_set[it] for it in ends):
        fail("no table was set, or none was refused:", dict(runs.was_set))
    if not all(runs.adopted[it] for it in ("done", "refused: other size\n", "other: no table: copies 1 1\n")):
        fail("no image was adopted, or none was refused:", dict(runs.adopted))
    if runs.stops == 0:
        fail("no plan that keeps the primary copy was stopped")
    return 20 * count + runs.stops


def by_choice(it, ptab, folder):
    """The plans of kept_plans.py, by each choice: the library's and the command's."""
    rng, runs = random.Random(1), 0
    for job in kept_plans.jobs():
        for keep, primary in kept_plans.CHOICES.items():
            wanted = plans.text_of(job.phases(keep))
            mine = kept_plans.by_calls(it, job, primary)
            for who, found in (("the library", mine), ("the command", kept_plans.by_command(ptab, folder, job, keep))):
                if plans.text_of(found) != wanted:
                    fail(f"{job.name}, by {primary}: {who} {plans.spelled(plans.sectors_of(found))}, or other bytes")
                runs += 1
            if primary == lib.KEPT and followed(job.image, job.sectors):
                runs += kept_plans.stops(rng, job.sectors, job.image, mine)
    return runs


def disks():
    """(sectors, image, words) of each kind."""
    yield SMALL, images.one_partition(), ["c:1:data"]
    yield SMALL, SMALL.gpt(300, {1: images.entry(40, 139, images.FREEBSD)}), ["d:1", "a:1", "n:0:40:60"]
    yield SMALL, SMALL.mbr(200, [images.record(0xA5, 10, 100), images.record(0x83, 120, 30, 0x80)]), ["t:2:07"]
    yield LARGE, LARGE.gpt(64, {1: images.entry(6, 40)}), ["c:1:data"]


def without_memory(library):
    """Each request of each call refused in turn, alone and with all later ones: PTAB_MEMORY, or the same answer; no block stays."""
    it, runs = lib.Ptab(library), 0
    it.lib.test_requests.restype = it.lib.test_blocks.restype = ctypes.c_uint64
    it.lib.test_refuse.argtypes = [ctypes.c_uint64, ctypes.c_uint64]
    for sectors, image, words in disks():
        image, size = bytes(image), sectors.size
        broken = image[:size] + bytes(size) + image[2 * size:]
        for content in (image, broken):
            disk = lib.Disk(it, lambda k: content[k * size:(k + 1) * size], len(content) // size, size)

            def answer(call):
                try:
                    found = call()
                    if isinstance(found, tuple) and isinstance(found[0], int):
                        return found[0], found[1].number, found[1].a, found[1].b
                    return [bytes(row) for row in found[1]] if isinstance(found, tuple) else found
                except lib.Failed as failed:
                    if failed.status == lib.MEMORY and c_replies.whole(failed.reply) != c_replies.reply():
                        fail("memory was refused, and the reply tells", c_replies.whole(failed.reply))
                    return failed.status

            phases = [[(0, bytes(size))]]
            texts = (b'{"partitiontable": {"label": "gpt", "partitions": [{"size": "4KiB", "name": "x"}, {}]}}',
                     b'{"partitiontable": {"partitions": [{"nmae": "x"}]}}')
            other, kept = (lib.Disk(it, lambda k, of=of: of[k * size:(k + 1) * size], len(of) // size, size, primary)
                           for of, primary in ((image, lib.OF_ITSELF), (content, lib.KEPT)))
            for call in (disk.members, disk.verify, lambda: disk.locate(1, "", 0), lambda: disk.plan(words, bytes(range(16)) * 4),
                         disk.repair, lambda: disk.adopt(other), lambda: disk.check(phases), lambda: kept.plan(words, bytes(range(16)) * 4),
                         kept.repair, lambda: disk.text("disk.img"), disk.free, lambda: disk.set(texts[0], bytes(range(16)) * 4),
                         lambda: disk.set(texts[1])):
                it.lib.test_refuse(0, 0)
                wanted = answer(call)
                count = it.lib.test_requests()
                for first in range(1, count + 1):
                    for last in (first, 2 ** 64 - 1):
                        it.lib.test_refuse(first, last)
                        found = answer(call)
                        if found not in (lib.MEMORY, wanted) or it.lib.test_blocks() != 0:
                            fail(f"request {first} of {count} refused: {found}, {it.lib.test_blocks()} blocks stay")
                        runs += 1
    return runs


# the C example


def recorded(example, image, words, sectors, environment):
    """The writes, as (sector, bytes), before each sync after the first one."""
    log = f"{image}.log"
    done = subprocess.run(["strace", "-e", f"trace={','.join(CALLS)}", "-xx", "-s", str(2 * sectors.size), "-o", log, example, image,
                           str(sectors.size), *words], capture_output=True, text=True, env=environment)
    if (done.stdout, done.returncode) != ("done\n", 0):
        fail(words, done)
    phases, writes, fd = [], [], None
    with open(log, encoding="ascii") as file:
        for line in file:
            found = re.search(rf"({'|'.join(CALLS)})\((.*)\) += (\d+)$", line.strip())
            if not found:
                continue
            call, arguments, answer = found.groups()
            if call == "openat":
                fd = answer if "O_RDWR" in arguments else fd
            elif arguments.split(",")[0] != fd:
                continue
            elif call == "pwrite64":
                content = bytes.fromhex(re.search(r'"([^"]*)"', arguments).group(1).replace("\\x", ""))
                writes.append((int(arguments.split(", ")[-1]) // sectors.size, content))
            else:
                phases.append(writes)
                writes = []
    if writes or phases[:1] != [[]]:
        fail(words, "writes after the last sync, or none before the first read")
    return phases[1:]


def cut(ptab, example, folder):
    """The C example's edits and repairs, stopped in each phase: the old table or the new one."""
    cases, checked = of_test("power_cut"), 0
    rng = random.Random(1)
    random_file = f"{folder}/random"
    with open(random_file, "wb") as file:
        file.write(rng.randbytes(4096))
    environment = {**os.environ, "PTAB_RANDOM": random_file}
    tables = [(SMALL, cases[name]) for name in ("on_gpt", "on_slices_of_gpt", "on_mbr", "on_chains")] + [(LARGE, cases["on_large_sectors"])]
    image_path = f"{folder}/cut"

    def show(image, sectors):
        return cases["shown"](ptab, image_path, image, sectors)

    for sectors, table in tables:
        for name, image, words, counts, switch in table():
            words = words.split(" ")
            words = words[2:] if words[0] == "--fresh" else words
            with open(image_path, "wb") as file:
                file.write(image)
            phases = recorded(example, image_path, ["edit", *words], sectors, environment)
            with open(image_path, "rb") as file:
                after = file.read()
            if [len(phase) for phase in phases] != counts:
                fail(f"{name}: phases of {[len(phase) for phase in phases]} writes, not of {counts}")
            old, new, before = show(image, sectors), show(after, sectors), bytes(image)
            for number, phase in enumerate(phases, 1):
                allowed = (old,) if number < switch else (new,) if number > switch else (old, new)
                for some in choices(rng, phase):
                    if show(written(before, some, sectors), sectors) not in allowed:
                        fail(f"{name}: stopped in phase {number}")
                    checked += 1
                before = bytes(written(before, phase, sectors))
    for damage, sectors in cases["repairs"]()[::7]:
        with open(image_path, "wb") as file:
            file.write(damage.image)
        old = show(damage.image, sectors)
        with open(image_path, "wb") as file:
            file.write(damage.image)
        phases, before = recorded(example, image_path, ["repair"], sectors, environment), bytes(damage.image)
        for phase in phases:
            for some in choices(rng, phase):
                if show(written(before, some, sectors), sectors) != old:
                    fail(f"{damage.name}: another layout")
                checked += 1
            before = bytes(written(before, phase, sectors))
        if before != damage.mended:
            fail(f"{damage.name}: another image")
    return checked


def example_beside(ptab, example, folder):
    """The C example prints what the command prints; under valgrind it does so in silence."""
    checked, valgrind = 0, shutil.which("valgrind")
    drawn = bytes(range(256)) * 16
    with open(f"{folder}/drawn", "wb") as file:
        file.write(drawn)
    environment = {**os.environ, "PTAB_RANDOM": f"{folder}/drawn"}
    for sectors, image, words in disks():
        path = f"{folder}/example"
        for name, content in (("other", image), ("longer", bytes(image) + bytes(sectors.size)), ("blank", bytes(len(image)))):
            with open(f"{path}.{name}", "wb") as file:
                file.write(content)
        must(ptab, "edit", f"{path}.other", "--sector-size", str(sectors.size), "--fresh", drawn.hex(), *words)
        adopt = [["adopt", f"{path}.{name}"] for name in ("other", "longer", "blank", "missing")]
        for line in (["show"], ["verify"], ["locate", "1", "3"], ["edit", *words], ["edit", "x"], ["repair"], *adopt, ["show"], ["verify"]):
            if line[0] in ("show", "edit", "adopt"):
                with open(path, "wb") as file:
                    file.write(image)
            fresh = ["--fresh", drawn.hex()] if line[0] == "edit" else []
            run = [ptab, line[0], path, "--sector-size", str(sectors.size), *fresh, *line[1:]]
            wanted = subprocess.run(run, capture_output=True)
            after = open(path, "rb").read()
            if line[0] in ("show", "edit", "adopt"):
                with open(path, "wb") as file:
                    file.write(image)
            found = subprocess.run([example, path, str(sectors.size), *line], capture_output=True, env=environment)
            mine, theirs = ((it.returncode, it.stdout, it.stderr) for it in (found, wanted))
            if mine != theirs or open(path, "rb").read() != after:
                fail("the C example:", line, found, wanted)
            checked += 1
            if valgrind:
                done = subprocess.run([valgrind, "-q", "--error-exitcode=99", "--leak-check=full", example, path, str(sectors.size), *line],
                                      capture_output=True, text=True, env=environment)
                if done.returncode == 99 or "==" in done.stderr:
                    fail("valgrind:", line, done.stderr)
                checked += 1
    return checked


def main():
    ptab, archive = os.path.abspath(sys.argv[1]), os.path.abspath(sys.argv[2])
    count = int(sys.argv[3]) if len(sys.argv) > 3 else 1000
    with room() as folder:
        shared, refusing, example = built(archive, folder)
        it = lib.Ptab(shared)
        runs = beside(it, ptab, folder, count)
        runs += by_choice(it, ptab, folder)
        runs += c_replies.checked(it, (*c_replies.PARTS, *c_texts.PARTS))
        runs += without_memory(refusing)
        runs += example_beside(ptab, example, folder)
        runs += cut(ptab, example, folder)
        print(f"C library: {runs} passed, 0 failed")


main()
