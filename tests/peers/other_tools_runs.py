"""What tools/ptab-run does beside its jobs (other_tools.py): options, refusals and faults, what isn't taken over, plans, backups."""
import contextlib
import json
import os
import re
import shutil
import signal
import subprocess
import sys
import time

import other_tools_jobs
from images import FREEBSD, SMALL, as_layout, entry, label, record, room
from tools import ENVIRONMENT, must

LONG_AGO = 1_000_000_000
# what a sparse copy of a table takes at most: both ends of 17 KiB, in blocks of 4 KiB that needn't begin with them
BACKUP_BYTES = 10 * 4096


class Runs:
    """ptab-run on images in a folder."""

    def __init__(self, ptab, run, folder):
        self.ptab, self.run_file, self.folder, self.checked = ptab, run, folder, 0
        os.mkdir(f"{folder}/left")
        self.where = {**ENVIRONMENT, "PTAB": ptab, "TMPDIR": f"{folder}/left"}
        self.path = f"{folder}/disk.img"

    def same(self, what, found, wanted):
        self.checked += 1
        if found != wanted:
            sys.exit(f"ptab-run: {what}:\n  found  {found}\n  wanted {wanted}")

    def make(self, name, path=None):
        other_tools_jobs.make(name, path or self.path)
        return self

    def image(self, path=None):
        with open(path or self.path, "rb") as it:
            return it.read()

    def do(self, *words, program=None, **more):
        """(output, errors without the program's name, status), also with a program in place of ptab; nothing is left behind."""
        where = {**self.where, "PTAB": program or self.ptab}
        done = subprocess.run([self.run_file, *words], capture_output=True, text=True, env=where, **more)
        self.same(f"{words}: what is left", os.listdir(f"{self.folder}/left"), [])
        return done.stdout, done.stderr.replace(self.folder, "FOLDER").replace("ptab-run: ", ""), done.returncode

    @contextlib.contextmanager
    def locked(self, path, how="-x"):
        """Another program holds the lock, from which no run descends."""
        other = subprocess.Popen(["flock", "--no-fork", how, path, "sh", "-c", "echo; exec sleep 1000"], stdout=subprocess.PIPE)
        other.stdout.readline()
        try:
            yield
        finally:
            other.kill()
            other.communicate()

    def ptab_says(self, *words):
        done = subprocess.run([self.ptab, *words], capture_output=True, text=True)
        return done.stdout, done.stderr, done.returncode

    def show(self, path=None):
        return self.ptab_says("show", path or self.path)

    def unchanged(self, words, wanted, **more):
        """The answer of a run that doesn't write to the image, not even the bytes that are there."""
        os.utime(self.path, ns=(LONG_AGO, LONG_AGO))
        before = self.image()
        self.same(words, self.do(*words, **more), wanted)
        self.same(f"{words}: the image", (self.image() == before, os.stat(self.path).st_mtime_ns), (True, LONG_AGO))

    def refused(self, words, line, status=123, **more):
        self.unchanged(words, ("", f"{line}\n", status), **more)

    def done(self, *words, errors="done\n", **more):
        found = self.do(*words, **more)
        self.same(words, found[1:], (errors, 0))
        self.same(f"{words}: verify", self.ptab_says("verify", self.path), ("yes\n", "", 0))


def options(it):
    it.make("gpt")
    for words, line in (([], "IMAGE and TOOL are wanted; ptab-run --help says more"), ([it.path], None), (["--nonsense"], None),
                        (["-p", it.path, "true", "@"], None), (["--sector-size", "1024", it.path, "true", "@"], None),
                        (["--sector-size"], "--sector-size takes a value"), (["--save"], "--save takes a value"),
                        (["--save", "x"], "--save takes COPY and IMAGE alone"), (["--save", "x", "--lossy", it.path], None),
                        (["--save", "x", it.path, "true"], None),
                        ([it.path, "sgdisk", "-o", it.path], "`@` is wanted among the words of TOOL, for the copy of IMAGE"),
                        ([it.path, "@", "root@host"], None)):
        out, errors, status = it.do(*words)
        it.same(words, (out, errors.count("\n"), status), ("", 1, 122))
        it.same(f"{words}: its line", errors, f"{line}\n" if line else errors)
    out, errors, status = it.do("--help")
    it.same("--help", ("usage: ptab-run " in out, errors, status), (True, "", 0))
    for words in (["--sector-size=512", "--plan", it.path, "true", "@"], ["--lossy", it.path, "true", "of=@"]):
        it.unchanged(words, ("", "true changed nothing\n", 0))
    it.refused(["--sector-size", "4096", it.path, "true", "@"], "FOLDER/disk.img has no table that ptab reads (no table: copies 1 1), but "
               "isn't blank: a stop might leave nothing of what is there. What to do: a GPT with sectors of 512 bytes begins there: "
               "--sector-size 512")


def faults(it):
    it.make("gpt")
    wrong = "not a plain file"
    for path, why in ((f"{it.folder}/none", "No such file or directory"), ("/dev/null", wrong), (it.folder, wrong)):
        found = it.do(path, "true", "@")
        it.same(path, found, ("", f"{path.replace(it.folder, 'FOLDER')}: {why}\n", 125))
        it.same(f"--save {path}", it.do("--save", f"{it.folder}/copy", path), found)
    it.same("no copy", os.path.exists(f"{it.folder}/copy"), False)
    for how in ("-s", "-x"):
        with it.locked(it.path, how):
            it.refused([it.path, "sgdisk", "-o", "@"], "FOLDER/disk.img isn't touched: another process has locked it")
    it.refused([it.path, "flock", "-n", it.path, "true", "@"], "flock ended with status 1: FOLDER/disk.img isn't touched", 1)
    it.refused([it.path, "sh", "-c", "exit 7", "sh", "@"], "sh ended with status 7: FOLDER/disk.img isn't touched", 7)
    it.refused([it.path, "sh", "-c", "kill -9 $$", "sh", "@"], "sh ended with status 137: FOLDER/disk.img isn't touched", 137)
    it.refused([it.path, f"{it.folder}/none", "@"], "FOLDER/none: No such file or directory", 127)
    it.refused([it.path, it.path, "@"], "FOLDER/disk.img: Permission denied", 126)
    it.refused([it.path, "truncate", "-s", "+1M", "@"], "FOLDER/disk.img isn't touched: the tool changed the length of its copy")
    writes = f"sgdisk -o $1 >{it.folder}/out; printf x | dd of={it.path} bs=1 seek=700 conv=notrunc status=none"
    it.same("another writer", it.do(it.path, "sh", "-c", writes, "sh", "@"),
            ("", "FOLDER/disk.img was changed meanwhile, and not by this run\n", 123))
    before = it.make("gpt").image()
    waits = f"sgdisk -o $1; touch {it.folder}/at; exec sleep 60"
    child = subprocess.Popen([it.run_file, it.path, "sh", "-c", waits, "sh", "@"], env=it.where, stdout=subprocess.DEVNULL,
                             stderr=subprocess.DEVNULL)
    while not os.path.exists(f"{it.folder}/at"):
        time.sleep(0.05)
    child.send_signal(signal.SIGTERM)
    it.same("a run that is ended", (child.wait(300), os.listdir(f"{it.folder}/left"), it.image() == before), (143, [], True))


def killed(it):
    """While ptab writes, the lock is held, also where the script is gone."""
    with open(f"{it.folder}/ptab", "w", encoding="utf-8") as script:
        script.write(f"""#!/bin/sh
case "$*" in *"--no-lock /proc/self/fd/"*)
  kill -9 $PPID; sleep 0.2
  flock -n {it.folder}/disk.img echo free >{it.folder}/found || echo locked >{it.folder}/found
esac
exec {it.ptab} "$@"
""")
    os.chmod(f"{it.folder}/ptab", 0o755)
    it.make("gpt")
    done = subprocess.run([it.run_file, it.path, "sgdisk", "-d", "1", "@"], capture_output=True, text=True,
                          env={**it.where, "PTAB": f"{it.folder}/ptab"})
    while len(it.show()[0].splitlines()) != 2 or it.ptab_says("verify", it.path)[2] != 0:
        time.sleep(0.05)
    with open(f"{it.folder}/found", encoding="utf-8") as found:
        it.same("a script that is killed", (done.returncode, found.read()), (-9, "locked\n"))


def other_data(it):
    """What the tool writes beside tables, and what stays as it was beside them."""
    lossy = "FOLDER/disk.img isn't touched; --lossy goes on without that"
    free = lossy.replace("; ", "; --data carries the data over, ")
    more = "dd if=/dev/urandom of=$1 bs=512 seek={} count=2 conv=notrunc status=none; sgdisk -t 1:ef02 $1 >$2"
    words = ["sh", "-c", more.format(3000), "sh", "@", f"{it.folder}/out"]
    it.make("gpt").refused([it.path, *words], f"not taken over: data in sectors 3000-3001\n{lossy}")
    data = it.image()[100 * 512:16351 * 512]
    it.done("--lossy", it.path, *words, errors="not taken over: data in sectors 3000-3001\ndone\n")
    it.same("the data", it.image()[100 * 512:16351 * 512] == data, True)
    it.same("the type", it.show()[0].split("\n")[1].split()[3], "21686148-6449-6e6f-744e-656564454649")
    it.refused([it.path, "sh", "-c", more.format(16349), "sh", "@", f"{it.folder}/out"],
               f"not taken over: data in sectors 16349-16350\n{free}")
    it.make("mbr, boot loader").refused([it.path, "dd", "if=/dev/zero", "of=@", "seek=20", "count=1", "conv=notrunc", "status=none"],
                                        f"not taken over: data in sectors 20\n{free}")
    it.make("gpt", f"{it.folder}/other")
    must("sgdisk", "-c", "1:other", f"{it.folder}/other")
    it.make("gpt")
    backup = it.image(f"{it.folder}/other")[-33 * 512:]
    with open(f"{it.folder}/backup", "wb") as copy:
        copy.write(backup)
    it.refused([it.path, "dd", f"if={it.folder}/backup", "of=@", f"seek={16384 - 33}", "conv=notrunc", "status=none"],
               f"not taken over: the backup copy, which has another table\n{lossy}")


def mended(it):
    """A backup copy that the tool leaves where the disk ended is written at its end."""
    shown = it.make("gpt, grown").show()[0]
    done = it.do(it.path, "parted", "-s", "@", "name", "1", "esp")
    it.same("parted on a grown disk", (done[1].splitlines()[-1], done[2]), ("done", 0))
    it.same("its table", (it.show()[0], it.ptab_says("verify", it.path)[0]), (shown.replace(" boot\n", " esp\n"), "yes\n"))


def stale_label(it):
    """A label that lies where a new slice gets its own, which the copy doesn't have."""
    image = SMALL.mbr(16384, [record(0x83, 100, 100)])
    SMALL.put(image, 2049, label(4096, {0: (100, 16, 7)}))
    with open(it.path, "wb") as disk:
        disk.write(image)
    it.done(it.path, it.ptab, "edit", "@", "n:2:2048:6143:A5")
    it.same("the slice", it.show()[0], "mbr 16384\n1 100 199 83 00\n2 2048 6143 A5 00\n")
    with open(it.path, "wb") as disk:
        disk.write(image)
    found = it.do(it.path, "sfdisk", "-q", "-a", "@", input="2048,4096,a5\n")
    it.same("a slice without a label of its own", (found[2], it.image() == bytes(image)), (123, True))
    gpt = SMALL.gpt(16384, {1: entry(2048, 6143, FREEBSD)})
    SMALL.put(gpt, 2049, label(4096, {0: (100, 16, 7)}))
    with open(it.path, "wb") as disk:
        disk.write(gpt)
    before = it.show()[0].splitlines()
    it.done(it.path, "sgdisk", "-c", "1:bsd", "@")
    it.same("a slice with its label", it.show()[0].splitlines()[1:], [f"{before[1]} bsd", before[2]])


def plans(it):
    jobs = (("gpt", ["sfdisk", "-q", "--part-type", "@", "1", other_tools_jobs.LVM], {}),
            ("mbr", ["sfdisk", "-q", "--disk-id", "@", "0xfeedbeef"], {}),
            ("gpt", ["sfdisk", "-q", "@"], {"input": "label: dos\nlabel-id: 1\n2048,2048,83\n"}))
    for name, words, more in jobs:
        it.make(name)
        before = it.image()
        out, errors, status = it.do("--plan", it.path, "sh", "-c", 'echo told; "$@"', "sh", *words, **more)
        it.same(f"--plan {words}", (errors.splitlines()[0], status, it.image() == before, bool(re.match(r"W \d+ [0-9a-f]{1024}\n", out))),
                ("told", 0, True, True))
        with open(f"{it.folder}/plan", "w", encoding="ascii") as plan:
            plan.write(out)
        answer = it.ptab_says("check", it.path, f"{it.folder}/plan")
        it.same("check", (answer[0][:4], *answer[1:]), ("yes ", "", 0))
        it.same("apply", it.ptab_says("apply", it.path, f"{it.folder}/plan"), ("done\n", "", 0))
        applied = it.image()
        it.make(name).done(it.path, *words, **more, errors=it.do("--plan", it.path, *words, **more)[1] + "done\n")
        it.same("the image by the plan", it.image() == applied, True)
    it.make("gpt").refused(["--plan", it.path, "dd", "if=/dev/urandom", "of=@", "seek=3000", "count=1", "conv=notrunc", "status=none"],
                           "not taken over: data in sectors 3000\nFOLDER/disk.img isn't touched; --lossy goes on without that")


def full_output(it):
    """A plan that nobody takes."""
    before = it.make("gpt").image()
    command = [it.run_file, "--plan", it.path, "sfdisk", "-q", "--delete", "@"]
    with open("/dev/full", "wb") as full:
        done = subprocess.run(command, stdout=full, stderr=subprocess.PIPE, env=it.where)
    it.same("a full output", (done.returncode, done.stderr, it.image() == before),
            (125, b"ptab-run: standard output: No space left on device\n", True))
    inner, outer = os.pipe()
    os.close(inner)
    done = subprocess.run(command, stdout=outer, stderr=subprocess.PIPE, env=it.where)
    os.close(outer)
    it.same("a closed pipe", (done.returncode, done.stderr), (125, b"ptab-run: standard output: Broken pipe\n"))


def backups(it):
    copy = f"{it.folder}/copy"
    it.make("gpt")
    must("sgdisk", "-t", "1:ef02", "-t", "2:8304", "-A", "2:set:60", it.path)
    must(it.ptab, "repair", it.path)
    with open(it.path, "r+b") as disk:
        for lba in (34, 2047, 2048, 8191, 16350):
            disk.seek(lba * 512)
            disk.write(os.urandom(512))
    before = it.image()
    it.unchanged(["--save", copy, it.path], ("", "", 0))
    found = os.stat(copy)
    it.same("its size, and what it takes", (found.st_size, found.st_blocks * 512 <= BACKUP_BYTES), (len(before), True))
    it.same("its table", it.show(copy), it.show())
    it.same("another copy over it", it.do("--save", copy, it.path), ("", "FOLDER/copy: File exists\n", 125))
    with open(it.path, "r+b") as disk:
        disk.seek(446)
        disk.write(bytes(34 * 512 - 446))
        disk.seek(-33 * 512, os.SEEK_END)
        disk.write(bytes(33 * 512))
    it.same("lost", it.show()[2], 4)
    it.same("a copy of no table", it.do("--save", f"{it.folder}/none", it.path), ("", "FOLDER/disk.img: no table: copies 1 1\n", 123))
    it.same("adopt", (it.ptab_says("adopt", it.path, copy), it.image() == before), (("done\n", "", 0), True))
    os.truncate(it.path, len(before) + (1 << 20))
    it.same("a grown disk", it.ptab_says("adopt", it.path, copy), ("", "refused: other size\n", 3))
    os.truncate(copy, len(before) + (1 << 20))
    it.same("and a copy as long", it.ptab_says("adopt", it.path, copy), ("done\n", "", 0))
    it.same("verify", it.ptab_says("verify", it.path), ("yes\n", "", 0))


def backups_of_mbr(it):
    copy = f"{it.folder}/mbr"
    it.make("logicals")
    it.same("--save", it.do("--save", copy, it.path), ("", "", 0))
    before, shown = it.image(), it.show()
    for words in (["--delete", it.path, "6"], ["--delete", it.path, "1"], ["--part-type", it.path, "5", "83"]):
        must("sfdisk", "-q", *words)
        it.same(f"adopt after {words}", (it.ptab_says("adopt", it.path, copy), it.show()), (("done\n", "", 0), shown))
    must("sfdisk", "-q", "--delete", it.path, "1", "6")
    it.same("two sectors", it.ptab_says("adopt", it.path, copy), ("", "refused: plan 1\n", 3))
    def end_table():
        with open(it.path, "wb") as disk:
            disk.write(bytes(512) + before[512:])

    end_table()
    it.same("no table", (it.ptab_says("adopt", it.path, copy), it.show()), (("done\n", "", 0), shown))
    end_table()
    it.done("--lossy", it.path, "cp", copy, "@", errors=it.do("--plan", "--lossy", it.path, "cp", copy, "@")[1] + "done\n")
    chain = json.loads(it.ptab_says("show", "--json", it.path)[0])["partitiontable"]["chain"]
    it.same("cp", (it.show(), it.image()[440:446] == before[440:446]), (shown, True))
    it.same("cp, to the byte", as_layout(it.image(), chain) == as_layout(before, chain), True)
    must("sgdisk", "-o", it.make("blank").path)
    it.done("--lossy", it.path, "cp", copy, "@", errors=it.do("--plan", "--lossy", it.path, "cp", copy, "@")[1] + "done\n")
    it.same("over an empty GPT", it.show(), shown)
    it.make("gpt").refused(["--lossy", it.path, "cp", copy, "@"], "FOLDER/disk.img isn't touched: refused: plan 2 (a sector that a "
                           "partition owns now would have to be written: delete in one run, and make in the next)")


def found_beside(it):
    """Without $PTAB the program is the one beside, also behind a link, else the one in the path."""
    where = {key: value for key, value in it.where.items() if key != "PTAB"}
    for name in ("beside", "links", "path"):
        os.mkdir(f"{it.folder}/{name}")
    shutil.copy(it.run_file, f"{it.folder}/beside/ptab-run")
    shutil.copytree(f"{os.path.dirname(it.run_file)}/ptab_run", f"{it.folder}/beside/ptab_run")
    os.symlink(f"{it.folder}/beside/ptab-run", f"{it.folder}/links/ptab-run")
    for folder, path in (("beside", ""), ("links", ""), ("path", f"{it.folder}/path:")):
        os.symlink(it.ptab, f"{it.folder}/{'path' if path else 'beside'}/ptab")
        it.make("gpt")
        run = it.run_file if path else f"{it.folder}/{folder}/ptab-run"
        done = subprocess.run([run, it.path, "sgdisk", "-d", "1", "@"], capture_output=True, text=True,
                              env={**where, "PATH": path + where["PATH"]})
        it.same(f"ptab in {folder}", (done.returncode, done.stderr), (0, "ptab-run: done\n"))
        os.unlink(f"{it.folder}/{'path' if path else 'beside'}/ptab")
    done = subprocess.run([it.run_file, it.path, "true", "@"], capture_output=True, text=True, env={**where, "PTAB": f"{it.folder}/none"})
    it.same("no ptab", (done.returncode, done.stderr), (125, f"ptab-run: {it.folder}/none: No such file or directory\n"))


def all_of(ptab, run):
    """How many answers were compared."""
    count = 0
    for part in (options, faults, killed, other_data, mended, stale_label, plans, full_output, backups, backups_of_mbr, found_beside):
        with room() as folder:
            it = Runs(ptab, run, folder)
            part(it)
            count += it.checked
    return count
