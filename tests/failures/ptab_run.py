#!/usr/bin/env python3
"""What could make tools/ptab-run end badly, do harm, or leave something behind:

- tables of hostile fields: each of both headers, of an entry, of records and of links at extreme values (ptab_run_hostile.py);
- signals while the tool works, while ptab reads and while it writes, and at any moment;
- another file at IMAGE's path, or at the end of a link, while the tool works;
- a full TMPDIR and a full folder of COPY; the mode of COPY; names that begin with `-`; streams that are closed; modules in PYTHONPATH;
- a lock that a caller holds, the copy under the image's own path, disks of any length, what killed runs left (ptab_run_places.py);
- --data: what is carried, limits, room, what a terminal shows, failures (ptab_run_data.py);
- images that are cut off, file systems without a table, and what is said of them;
- devices: `ptab` on a copy with sectors of 4096 bytes, a neighbour's bytes in the page of a table, sectors that can't be read, and a file
  that the kernel's cache has otherwise than the medium. This needs root and loop devices.

usage: tests/failures/ptab_run.py PTAB
"""
import os
import random
import shutil
import signal
import stat
import subprocess
import sys
import tempfile
import time

TESTS = os.path.dirname(os.path.dirname(os.path.abspath(__file__)))
sys.path[:0] = [f"{TESTS}/{it}" for it in ("shared", "peers")]
import other_tools_runs
import ptab_run_data
import ptab_run_devices
import ptab_run_hostile
import ptab_run_places
from images import SMALL, entry, record, room
from plans import both_copies, phases_of, sectors_of, spelled
from tools import must, run

RUN = f"{os.path.dirname(TESTS)}/tools/ptab-run"
SECTORS = 2048
SIGNALS = (signal.SIGHUP, signal.SIGINT, signal.SIGTERM)
UNTOUCHED, WRITTEN = "isn't touched", "has the new table"


class Tried(other_tools_runs.Runs):
    """ptab-run on an image in a folder."""

    def write(self, image, path=None):
        with open(path or self.path, "wb") as it:
            it.write(image)
        return path or self.path

    def gpt(self, path=None):
        return self.write(SMALL.gpt(SECTORS, {1: entry(100, 200, name="old")}), path)

    def rename(self, path=None):
        """The words that rename the partition of `gpt`."""
        return [path or self.path, self.ptab, "edit", "@", "c:1:new"]

    def script(self, name, text):
        """A program in place of ptab, or a tool; it may call `ptab`."""
        path = f"{self.folder}/{name}"
        with open(path, "w", encoding="utf-8") as it:
            it.write(f'#!/bin/sh\nptab() {{ {self.ptab} "$@"; }}\n{text}\n')
        os.chmod(path, 0o755)
        return path

    def each(self, parts):
        """Each part in a folder of its own."""
        for part in parts:
            with tempfile.TemporaryDirectory(dir=self.folder) as folder:
                os.chmod(folder, 0o755)
                inner = type(self)(self.ptab, self.run_file, folder)
                part(inner)
                self.checked += inner.checked

    def names(self, path=None):
        return [line.split(" ")[-1] for line in self.show(path)[0].splitlines()[1:]]


# ---- signals


def sent(it, number, words, program, is_group=False):
    """How a run ends in which `program` in place of ptab, or a tool, sends a signal; it is written $SIGNAL to."""
    target = "0" if is_group else "$PPID"
    where = {**it.where, "SIGNAL": f"-{int(number)} {target}", **({"PTAB": program} if program else {})}
    done = subprocess.run([RUN, *words], capture_output=True, text=True, env=where, start_new_session=True)
    it.same(f"{words}: what is left", os.listdir(f"{it.folder}/left"), [])
    return done.stderr.replace(it.folder, "FOLDER").replace("ptab-run: ", ""), done.returncode


def ended(number, fate):
    return f"ended by {number.name}: FOLDER/disk.img {fate}\n", 128 + number


def signals(it):
    """By itself `sh` ends at a signal of its group, so what ignores it goes on."""
    tool = it.script("tool", 'ptab edit "$1" c:1:new; eval kill $SIGNAL; exec sleep 300')
    reads = it.script("reads", f'[ "$1" != show ] || {{ eval kill $SIGNAL; exec sleep 300; }}\nexec {it.ptab} "$@"')
    writes = it.script("writes", f'case "$*" in *--no-lock*/proc/self/fd/*) eval kill $SIGNAL; sleep 0.1; esac\nexec {it.ptab} "$@"')
    for number in SIGNALS:
        it.gpt()
        before, start = it.image(), time.monotonic()
        if number != signal.SIGINT:
            it.same(f"{number}: while the tool works", sent(it, number, [it.path, tool, "@"], None), ended(number, UNTOUCHED))
        it.same(f"{number}: while ptab reads", sent(it, number, it.rename(), reads), ended(number, UNTOUCHED))
        it.same(f"{number}: what works is ended, and the image", (time.monotonic() - start < 150, it.image() == before), (True, True))
        for is_group in (False, True):
            it.gpt()
            lines, status = ended(number, WRITTEN)
            it.same(f"{number}: while ptab writes", sent(it, number, it.rename(), writes, is_group), (f"done\n{lines}", status))
            it.same(f"{number}: the table", (it.names(), it.ptab_says("verify", it.path)), (["new"], ("yes\n", "", 0)))
    dies = it.script("dies", f'case "$*" in *--no-lock*/proc/self/fd/*) kill -9 $$; esac\nexec {it.ptab} "$@"')
    it.gpt()
    it.same("ptab is killed as it writes", sent(it, 0, it.rename(), dies), (
        "FOLDER/disk.img: FOLDER/dies ended with status -9; where it was being written it has the old table or the new one: ptab show "
        "prints which\n", 125))
    # the interrupt of a terminal goes to the tool as well, which does with it what it does
    it.gpt()
    it.same("an interrupt that the tool takes", sent(it, signal.SIGINT, [it.path, it.script(
        "takes", 'trap "ptab edit $1 c:1:new >/dev/null" INT; eval kill $SIGNAL; true'), "@"], None, True), ("done\n", 0))
    it.same("its table", it.names(), ["new"])
    copy = f"{it.folder}/copy"
    shown = it.script("shown", f'case "$*" in *show*) n=$(cat {it.folder}/n); echo $((n + 1)) >{it.folder}/n; '
                      f'[ $n != 1 ] || {{ eval kill $SIGNAL; exec sleep 300; }}; esac\nexec {it.ptab} "$@"')
    for number in SIGNALS:
        it.write(b"0", f"{it.folder}/n")
        it.same(f"{number}: --save", sent(it, number, ["--save", copy, it.path], shown), ended(number, UNTOUCHED))
        it.same(f"{number}: no COPY", os.path.exists(copy), False)


def nohup(it):
    """What was ignored from the start stays so."""
    writes = it.script("ignored", f'kill -HUP $PPID; exec {it.ptab} "$@"')
    it.gpt()
    done = subprocess.run(["nohup", RUN, *it.rename()], capture_output=True, text=True, env={**it.where, "PTAB": writes})
    it.same("nohup", (done.returncode, done.stderr.splitlines()[-1], it.names()), (0, "ptab-run: done", ["new"]))


def at_any_moment(it):
    """The line says what is so. Before the script can take signals it has made nothing."""
    rng = random.Random(1)
    for _ in range(60):
        number = rng.choice(SIGNALS)
        it.gpt()
        child = subprocess.Popen([RUN, *it.rename()], stderr=subprocess.PIPE, stdout=subprocess.DEVNULL, text=True, env=it.where,
                                 start_new_session=True)
        time.sleep(rng.uniform(0, 0.3))
        if child.poll() is None:
            os.killpg(child.pid, number)
        lines = child.communicate(timeout=300)[1].splitlines()
        fate = UNTOUCHED if it.names() == ["old"] else WRITTEN
        answers = [(128 + number, f"ptab-run: ended by {number.name}: {it.path} {fate}"), (0, "ptab-run: done")]
        # Python or the script may not have begun, and ptab or the tool may have ended by it first
        ends = (125, 128 + number, *([1] if lines[-1:] == ["KeyboardInterrupt"] else []))
        other = fate == UNTOUCHED and (child.returncode == -number or child.returncode in ends and bool(lines))
        found = (child.returncode, lines[-1] if lines else None)
        it.same(f"{number} at any moment: {found}, {fate}", found in answers or other, True)
        it.same("what is left", os.listdir(f"{it.folder}/left"), [])


# ---- what is at the path


def moved(it):
    """What was opened and locked is written, and nothing else."""
    for is_link in (False, True):
        first, other = it.gpt(f"{it.folder}/first"), it.gpt(f"{it.folder}/other")
        kept, before = f"{it.folder}/kept", it.image(other)
        if os.path.lexists(it.path):
            os.unlink(it.path)
        if is_link:
            os.symlink(first, it.path)
            moves = f"ln -sfn {other} {it.path}"
        else:
            os.rename(first, it.path)
            moves = f"mv {it.path} {kept}; mv {other} {it.path}"
        tool = it.script("moves", f'{moves}\nptab edit "$1" c:1:new >/dev/null')
        it.same(f"moved: {is_link}", it.do(it.path, tool, "@")[1:],
                ("FOLDER/disk.img is another file by now: the one that it was has the new table\ndone\n", 0))
        it.same("what was opened", it.names(first if is_link else kept), ["new"])
        it.same("what is there now", it.image(it.path) == before, True)
        os.unlink(it.path)


# ---- folders that are full, and what COPY is


def full(it):
    """TMPDIR with room for ever more pages: it is named, until the run is done."""
    place = f"{it.folder}/left"
    line = f"FOLDER/disk.img isn't touched: its copy in FOLDER/left can't be written: {{}}; TMPDIR may name another folder\n"
    os.rmdir(place)
    it.gpt()
    done = subprocess.run([RUN, *it.rename()], capture_output=True, text=True, env=it.where)
    it.same("no TMPDIR", (done.stderr.replace("ptab-run: ", "").replace(it.folder, "FOLDER"), done.returncode),
            (line.format("No such file or directory"), 125))
    os.mkdir(place)
    if os.geteuid() != 0:
        return
    ends = set()
    for pages in range(3, 60):
        it.gpt()
        before = it.image()
        must("mount", "-t", "tmpfs", "-o", f"size={pages * 4096}", "tmpfs", place)
        try:
            found = it.do(*it.rename())
        finally:
            must("umount", place)
        ends.add(found[2])
        if found[2] == 0:
            break
        # the tool fails in its own way
        wanted = line.format("No space left on device") if found[2] == 125 else found[1]
        it.same(f"{pages} pages", (found[1], it.image() == before), (wanted, True))
    it.same("how runs ended", ({0, 125} <= ends, it.names()), (True, ["new"]))
    it.gpt()
    must("mount", "-t", "tmpfs", "-o", "size=8192", "tmpfs", place)
    try:
        it.same("a full folder of COPY", run(RUN, "--save", f"{place}/copy", it.path, env=it.where).stderr,
                f"ptab-run: {place}/copy: No space left on device\n")
        it.same("no COPY", os.listdir(place), [])
    finally:
        must("umount", place)


def copies(it):
    """COPY has the image's mode."""
    for mode in (0o600, 0o640, 0o444, 0o664):
        copy = f"{it.folder}/copy{mode:o}"
        os.chmod(it.gpt(), mode)
        it.same("--save", it.do("--save", copy, it.path), ("", "", 0))
        it.same("its mode", stat.S_IMODE(os.stat(copy).st_mode), mode)
        os.chmod(it.path, 0o644)
    before = it.image(copy)
    it.same("a copy that is there", it.do("--save", copy, it.path), ("", "FOLDER/copy664: File exists\n", 125))
    it.same("it stays", it.image(copy) == before, True)


def names(it):
    """Names and options that begin with `-`, and what is printed by options."""
    it.gpt(f"{it.folder}/-x.img")
    it.same("-- and a run", it.do("--", "-x.img", it.ptab, "edit", "@", "c:1:new", cwd=it.folder), ("done\n", "done\n", 0))
    it.same("its table", it.names(f"{it.folder}/-x.img"), ["new"])
    it.same("-- and --save", it.do("--save", "-copy", "--", "-x.img", cwd=it.folder), ("", "", 0))
    it.same("its copy", it.names(f"{it.folder}/-copy"), ["new"])
    for words in (["-p"], ["--plan=1"], ["-"], ["--save="]):
        out, errors, status = it.do(*words, it.path, "true", "@")
        it.same(words, (out, errors.count("\n"), status), ("", 1, 122))
    it.same("-h", it.do("-h"), it.do("--help"))
    it.same("the version is ptab's", it.do("--version"), (f"ptab-run, with {it.ptab_says('--version')[0]}", "", 0))
    it.same("-V", it.do("-V"), it.do("--version"))


def closed(it):
    """No file gets the number of a stream that is closed."""
    for streams in ("<&-", ">&-", "2>&-", "<&- >&- 2>&-"):
        it.gpt()
        done = subprocess.run(["sh", "-c", f'exec "$0" "$@" {streams}', RUN, *it.rename()], capture_output=True, text=True, env=it.where)
        it.same(f"{streams}: {done.stderr}", (done.returncode, it.names()), (0, ["new"]))


def isolated(it):
    """Modules of the caller's folder and of PYTHONPATH aren't Python's own."""
    place = f"{it.folder}/modules"
    os.mkdir(place)
    for name in ("zlib", "contextlib", "struct", "sitecustomize"):
        it.write(b'import os\nos.write(2, b"loaded\\n")\nos._exit(7)\n', f"{place}/{name}.py")
    it.gpt()
    where = {**it.where, "PYTHONPATH": place, "PYTHONSTARTUP": f"{place}/zlib.py"}
    done = subprocess.run([RUN, *it.rename()], capture_output=True, text=True, env=where, cwd=place)
    it.same("PYTHONPATH", (done.returncode, done.stderr, it.names()), (0, "ptab-run: done\n", ["new"]))


# ---- what is said of images without a table that ptab reads


def said_of(it, advice, *words):
    found = it.do(it.path, *(words or ("true", "@")))
    it.same(f"what to do: {advice}", (found[2], found[1].partition(" What to do: ")[2]), (123, f"{advice}\n"))


def cut_off(it):
    """A GPT that is sound for others isn't to be ended, and what is said brings it back."""
    with open(it.path, "wb") as disk:
        disk.truncate(16 << 20)
    must("sgdisk", "-n", "1:2048:4095", "-c", "1:old", it.path)
    shown = it.show()[0].splitlines()[1:]
    os.truncate(it.path, 12 << 20)
    said_of(it, "it is cut off, since its GPT is of a disk of 32768 sectors: give it that length back, or let sgdisk -e work on a whole "
            "copy, and take the table from there by ptab adopt", "sgdisk", "-e", "@")
    shutil.copy(it.path, f"{it.folder}/longer")
    os.truncate(f"{it.folder}/longer", 16 << 20)
    must(it.ptab, "repair", f"{it.folder}/longer")
    copy = f"{it.folder}/copy"
    shutil.copy(it.path, copy)
    must("sgdisk", "-e", copy)
    it.same("adopt", it.ptab_says("adopt", it.path, copy), ("done\n", "", 0))
    for path in (it.path, f"{it.folder}/longer"):
        it.same(f"{path}: its table", (it.show(path)[0].splitlines()[1:], it.ptab_says("verify", path)), (shown, ("yes\n", "", 0)))


def unread(it):
    entries = ("other tools may read its GPT, which has more or fewer than 128 entries, or an array in another place, as ISO images have: "
               "leave it to the tool that made it")
    chains = "other tools may read its table: see `no table` in ptab(8)"
    foreign = "wipefs without an option shows what it is, and ends nothing: a file system without a table, or a table of another kind"
    for name, advice in (("gpt, more entries", entries), ("blank, a filesystem", foreign), ("logicals, chained backwards", chains)):
        it.make(name)
        said_of(it, advice)
    it.write(SMALL.gpt(SECTORS, {1: entry(100, 200)}, revision=7))
    said_of(it, "its GPT is damaged: testdisk may find its partitions, on a whole copy")
    it.write(SMALL.mbr(SECTORS, [record(5, 100, 50), record(5, 200, 50)]))
    said_of(it, chains)
    it.write(bytes(50 * 512) + b"x" * 512)
    said_of(it, "make it longer")


def file_systems(it):
    """A FAT begins with what looks like an MBR without partitions."""
    for name, jump, at, mark in (("FAT12", b"\xeb\x3c\x90", 54, b"FAT12   "), ("FAT16", b"\xe9\x00\x01", 54, b"FAT16   "),
                                 ("FAT32", b"\xeb\x58\x90", 82, b"FAT32   "), ("NTFS", b"\xeb\x52\x90", 3, b"NTFS    "),
                                 ("EXFAT", b"\xeb\x76\x90", 3, b"EXFAT   ")):
        image = SMALL.mbr(SECTORS, [])
        SMALL.put(image, 0, jump)
        image[at:at + 8] = mark
        it.write(image)
        for tool in (["sfdisk", "-q", "@"], ["sgdisk", "-og", "@"]):
            out, lines, status = it.do(it.path, *tool, input="label: dos\n100,200,83\n")
            it.same(f"{name}: {tool}", (status, f"a file system that begins in sector 0 ({name})" in lines, it.image() == image),
                    (123, True, True))
        it.same(f"{name}: a look", it.do(it.path, "sfdisk", "-d", "@")[1:], ("sfdisk changed nothing\n", 0))
        status = it.do("--lossy", it.path, "sfdisk", "-q", "@", input="label: dos\n100,200,83\n")[2]
        it.same(f"{name}: --lossy", (status, it.show()[0]), (0, f"mbr {SECTORS}\n1 100 299 83 00\n"))
        image[446:462] = record(0x83, 100, 200)
        it.write(image)
        it.same(f"{name}: with a partition", it.do(it.path, "sfdisk", "-q", "--part-type", "@", "1", "7")[1:], ("done\n", 0))


# ---- the primary copy meanwhile


def primary(it):
    """The primary copy is kept, but for --by-table; and an image on which such a run was stopped is edited as any other is."""
    for more, meanwhile in (((), b"EFI PART"), (("--by-table",), bytes(8))):
        it.gpt()
        out, _, status = it.do("--plan", *more, *it.rename())
        phases = phases_of(out, SMALL.size)
        it.same(f"the phases {more}", (status, spelled(sectors_of(phases))), (0, both_copies(SMALL, SECTORS)))
        it.same(f"sector 1 meanwhile {more}", phases[1][0][1][:8], meanwhile)
        it.same(f"the run {more}", (it.do(*more, *it.rename())[1:], it.names()), (("done\n", 0), ["new"]))
        for tool in (["sgdisk", "-c", "1:more", "@"], ["sfdisk", "-q", "--part-label", "@", "1", "more"]):
            image = SMALL.gpt(SECTORS, {1: entry(100, 200, name="old")})
            for phase in phases[:2]:
                for lba, content in phase:
                    SMALL.put(image, lba, content)
            it.write(image)
            _, lines, status = it.do(it.path, *tool)
            it.same(f"{tool[0]} behind a stop {more}", (lines.endswith("done\n"), status, it.names()), (True, 0, ["more"]))
            it.same(f"{tool[0]} behind a stop {more}: healthy", it.ptab_says("verify", it.path), ("yes\n", "", 0))


def main():
    if len(sys.argv) != 2:
        sys.exit("usage: tests/failures/ptab_run.py PTAB")
    ptab, count, on_devices = os.path.abspath(sys.argv[1]), 0, ""
    # whatever ran this script ignored; `nohup` tries what then happens
    for number in SIGNALS:
        signal.signal(number, signal.SIG_DFL)
    for part in (signals, nohup, at_any_moment, moved, full, copies, names, closed, isolated, cut_off, unread, file_systems, primary,
                 ptab_run_hostile.all_of, ptab_run_places.all_of, ptab_run_data.all_of,
                 ptab_run_devices.all_of):
        with room() as folder:
            it = Tried(ptab, RUN, folder)
            on_devices = part(it)
            count += it.checked
    print(f"ptab-run: {count} passed, 0 failed{'' if on_devices else '; no loop devices here, or no root'}")


if __name__ == "__main__":
    main()
