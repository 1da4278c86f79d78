"""Tries docs/other_tools.md: each call of its tables on images of the page, through tools/ptab-run and by the tool alone on other ones,
after which `ptab show` prints the same of both, or the image is as before and the answer stands on standard error. Every flag and command
of sgdisk, sfdisk and parted that docs/sgdisk.md has no word for has a row. Its texts are ptab-run's, and man/ptab-run.8 has its options,
statuses and texts.
"""
import os
import re
import shutil
import subprocess
import sys
from concurrent.futures import ThreadPoolExecutor

from images import room
from tools import ENVIRONMENT, must

TOP = os.path.abspath(os.path.join(os.path.dirname(os.path.abspath(__file__)), "..", ".."))
MIB = 1 << 20
FRESH = "".join(f"{number:02x}" * 16 for number in range(1, 4))
GUID = r"[0-9a-f]{8}(?:-[0-9a-f]{4}){3}-[0-9a-f]{12}"
TITLES = ("sgdisk", "sfdisk", "parted", "fdisk, gdisk and cgpt")


def read(name):
    with open(f"{TOP}/{name}", encoding="utf-8") as it:
        return it.read()


def script_text():
    """All of ptab-run."""
    names = sorted(os.listdir(f"{TOP}/tools/ptab_run"))
    return read("tools/ptab-run") + "".join(read(f"tools/ptab_run/{name}") for name in names if name.endswith(".py"))


def rows(text, title):
    """The cells of each row of the table under that title."""
    part = text.split(f"\n## {title}\n")[1].split("\n## ")[0]
    lines = [line for line in part.splitlines() if line.startswith("| ")]
    return [[cell.strip() for cell in re.split(r"(?<!\\)\|", line.strip()[1:-1])] for line in lines[1:]]


class Page:
    def __init__(self, ptab, run, folder):
        self.ptab, self.folder, self.compared = ptab, folder, []
        self.docs = read("docs/other_tools.md")
        os.mkdir(f"{folder}/bin")
        os.symlink(ptab, f"{folder}/bin/ptab")
        os.symlink(run, f"{folder}/bin/ptab-run")
        self.where = {**ENVIRONMENT, "PATH": f"{folder}/bin:{ENVIRONMENT['PATH']}:/usr/sbin:/sbin"}
        self.where.pop("PTAB", None)

    def same(self, what, found, wanted):
        self.compared.append(what)
        if found != wanted:
            sys.exit(f"docs/other_tools.md: {what}:\n  found  {found}\n  wanted {wanted}")

    def images(self, name):
        """A new folder with the page's images."""
        place = f"{self.folder}/{name}"
        shutil.rmtree(place, ignore_errors=True)
        os.mkdir(place)
        for path in ("disk", "grown", "empty", "mbr"):
            with open(f"{place}/{path}.img", "wb") as it:
                it.truncate(64 * MIB)
        for path in ("disk", "grown"):
            words = ("o", "n:1:2048:34815:EF00", "c:1:boot", "n:2:34816:65535", "c:2:data")
            must(self.ptab, "edit", f"{place}/{path}.img", "--fresh", FRESH, *words)
        os.truncate(f"{place}/grown.img", 128 * MIB)
        must("sfdisk", "-q", f"{place}/mbr.img",
             input="label: dos\n2048,20000,83,*\n24576,8192,7\n40960,60000,5\n43008,10000,82\n63488,1000,83\n")
        return place

    def shown(self, path, size, known):
        """The status and the lines of show, without GUIDs that were drawn."""
        done = subprocess.run([self.ptab, "show", "--sector-size", size, path], capture_output=True, text=True)
        return done.returncode, re.sub(GUID, lambda found: found[0] if found[0] in known.lower() else "DRAWN", done.stdout)

    def bash(self, line, place):
        return subprocess.run(["bash", "-c", line], cwd=place, capture_output=True, text=True, env=self.where)

    def tried(self, number, title, call, answer):
        """A call, and the same by the tool alone."""
        ours, theirs = self.images(f"{number:03}"), self.images(f"{number:03}alone")
        image = re.search(r"ptab-run (?:--\S+ \d+ )?(\w+\.img) ", call)[1]
        size = "4096" if "--sector-size 4096" in call else "512"
        known = call + must(self.ptab, "show", f"{ours}/disk.img")
        with open(f"{ours}/{image}", "rb") as it:
            before = it.read()
        done = self.bash(call, ours)
        alone = self.bash(re.sub(r"ptab-run .*?\.img (.*)", lambda it: it[1].replace("@", image), call), theirs)
        with open(f"{ours}/{image}", "rb") as it:
            after = it.read()
        last = (done.stderr.splitlines() or [""])[-1]
        self.same(f"{title}: {call}: {done.stderr}", (last.startswith("ptab-run: "), last.endswith(answer)), (True, True))
        if answer != "done":
            self.same(f"{title}: {call}: the image", (after == before, done.returncode in (0, 123)), (True, True))
            return
        self.same(f"{title}: {call}: {alone.stderr}", (done.returncode, alone.returncode, after == before), (0, 0, False))
        self.same(f"{title}: {call}: show", self.shown(f"{ours}/{image}", size, known), self.shown(f"{theirs}/{image}", size, known))
        verify = subprocess.run([self.ptab, "verify", "--sector-size", size, f"{ours}/{image}"], capture_output=True, text=True).stdout
        self.same(f"{title}: {call}: verify", verify, "yes\n")

    def calls(self):
        """Side by side, since sgdisk sleeps for a second where it has written."""
        found = [(title, call.strip("`").replace("\\|", "|"), answer.strip("`")) for title in TITLES
                 for _, call, answer, _ in rows(self.docs, title) if call or answer]
        with ThreadPoolExecutor(8) as pool:
            for done in [pool.submit(self.tried, number, *it) for number, it in enumerate(found)]:
                done.result()

    def flags(self):
        """Nothing is left out."""
        other = read("docs/sgdisk.md")
        for title in ("sgdisk", "sfdisk"):
            told = "".join(cells[0] for cells in rows(self.docs, title))
            for cells in rows(other, title):
                if cells[2] == "none":
                    flags = re.findall(r"`(-[^`]*)`", cells[0]) or [cells[0]]
                    self.same(f"{title}'s {cells[0]} has a row", any(flag in told for flag in flags), True)
        section = self.docs.split("\n## parted\n")[1].split("\n## ")[0]
        commands = re.findall(r"^  ([a-z][\w-]*)(?:,\w+)* ", must("parted", "--help").split("COMMANDs:")[1], re.MULTILINE)
        image = f"{self.images('flags')}/disk.img"
        known = ""
        for path in (image, image.replace("disk", "mbr")):
            known += must("parted", "-s", path, "help", "set") + must("parted", "-s", path, "help", "disk_set")
        words = [word for line in re.findall(r"FLAG is one of: (.*)", known) for word in line.split(", ")]
        self.same("parted's commands and flags", len(commands) > 10 and len(words) > 20, True)
        self.same("parted has no row", [word for word in commands + words if not re.search(rf"[`\s]{word}\b", section)], [])

    def texts(self):
        """What standard error is said to print is printed by the script or by ptab."""
        script = script_text() + "refused: plan "
        for title in ("What isn't taken over", "What is refused"):
            for cells in rows(self.docs, title):
                text = cells[0].strip("`")
                self.same(f"{title}: {text}", re.sub(r"\d$", "", text) in re.sub(r'"\n +(f?)"', "", script), True)

    def man(self):
        page = re.sub(r"\\f[BIRP]", "", read("man/ptab-run.8")).replace(r"\-", "-")
        script = script_text()
        for option in set(re.findall(r"--[a-z-]+", read("tools/ptab_run/command_line.py").split('"""')[1])):
            self.same(f"man/ptab-run.8 has {option}", option in page, True)
        for status in re.search(r"^USAGE, .* = (.*)$", script, re.MULTILINE)[1].split(", "):
            self.same(f"man/ptab-run.8 has status {status}", f"\n.B {status}\n" in page, True)
        for title in ("What isn't taken over", "What is refused"):
            for cells in rows(self.docs, title):
                self.same(f"man/ptab-run.8 has {cells[0]}", f"\n.B {cells[0].strip('`')}\n" in page, True)
        if shutil.which("groff"):
            done = subprocess.run(["groff", "-man", "-ww", "-Tutf8", f"{TOP}/man/ptab-run.8"], capture_output=True, text=True)
            self.same("groff", (done.returncode, done.stderr), (0, ""))


def all_of(ptab, run):
    """How many things were compared."""
    with room() as folder:
        it = Page(ptab, run, folder)
        it.calls()
        it.flags()
        it.texts()
        it.man()
        return len(it.compared)
