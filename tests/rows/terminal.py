#!/usr/bin/env python3
"""What the command prints on a terminal: behind a refusal, a no with a reason, `no table` and `device` the sentence that docs/commands.md
has for it, and of what can't be opened what stands there. The same calls with a pipe for one stream or both print their line alone. Where
root may make loop devices, a block device is among them.

usage: tests/rows/terminal.py PTAB
"""
import fcntl
import os
import pty
import subprocess
import sys

sys.path.insert(0, os.path.join(os.path.dirname(os.path.abspath(__file__)), "..", "shared"))
import compared
from compared import put, same
from images import LINUX, SMALL, entry, guid, one_partition, record, room
from loops import Loop, has_loops

SIGNATURES = "no MBR, and neither copy of a GPT exists: the signature isn't EFI PART (primary); the signature isn't EFI PART (backup)"
NOBODY = 65534
ERROR = "error: the argument '--in-use' needs '--device'\n\nFor more information, try '--help'.\n"


class Both:
    """The command with a terminal or a pipe for each of its streams."""

    def __init__(self, ptab):
        self.ptab = ptab

    def run(self, words, out, err, user=None):
        """(what came through pipes, what came on the terminal, the status), where `out` and `err` say which streams are terminals."""
        shown, terminal = pty.openpty()
        done = subprocess.Popen([self.ptab, *words], stdin=subprocess.DEVNULL, stdout=terminal if out else subprocess.PIPE,
                                stderr=terminal if err else subprocess.PIPE, user=user)
        os.close(terminal)
        piped = b"".join(it for it in done.communicate() if it)
        seen = b""
        while True:
            try:
                more = os.read(shown, 4096)
            except OSError:  # nobody has the terminal any more
                break
            if not more:
                break
            seen += more
        os.close(shown)
        return piped.decode(), seen.decode().replace("\r\n", "\n"), done.returncode

    def prints(self, words, line, sentence, status, on_output=False, user=None):
        """A line, and for a person its sentence; `on_output` says that the line is an answer."""
        said = f"{sentence}\n" if sentence else ""
        what = " ".join(words)
        same(f"{what}: both a terminal", self.run(words, True, True, user), ("", line + said, status))
        same(f"{what}: both pipes", self.run(words, False, False, user), (line, "", status))
        piped, shown = (line, "") if on_output else ("", line + said)
        same(f"{what}: the output a pipe", self.run(words, False, True, user), (piped, shown, status))
        piped, shown = ("", line) if on_output else (line, "")
        same(f"{what}: the errors a pipe", self.run(words, True, False, user), (piped, shown, status))


def answers(both, folder, image):
    """Findings and the checker's no; and answers that have no sentence."""
    empty = put(f"{folder}/empty", SMALL.zeros(4096))
    both.prints(["verify", empty], "no 1 no table\n", f"there is no table: {SIGNATURES}", 1, True)
    broken = one_partition()
    SMALL.put(broken, 1, bytes(512))
    both.prints(["verify", put(f"{folder}/broken", broken)], "no 2 primary copy 1\n",
                "the primary copy of the GPT doesn't exist: the signature isn't EFI PART", 1, True)
    twice = SMALL.gpt(4096, {1: entry(100, 200), 3: entry(150, 300, LINUX, guid(3))})
    both.prints(["verify", put(f"{folder}/twice", twice)], "no 8 overlap 1 3\n", "1 and 3 share a sector", 1, True)
    plan = put(f"{folder}/plan", f"W 100 {'00' * 512}\nF\n".encode())
    both.prints(["check", image, plan], "no 6 100\n", "sector 100 is written, and is in the tables of neither layout", 1, True)
    both.prints(["apply", image, plan], "no 6 100\n", "sector 100 is written, and is in the tables of neither layout", 1, True)
    both.prints(["verify", image], "yes\n", "", 0, True)
    both.prints(["locate", image, "3", "0"], "none\n", "", 1, True)
    both.prints(["show", put(f"{folder}/mbr", SMALL.mbr(4096, []))], "mbr 4096\n", "", 0, True)


def refusals(both, folder, image):
    both.prints(["edit", image, "d:9"], "refused: edit 1\n", "no such partition", 3)
    both.prints(["edit", image, "c:1:" + "x" * 37], "refused: edit 7\n", "a name over 36 units", 3)
    crossed = put(f"{folder}/crossed", SMALL.gpt(4096, {1: entry(100, 200), 2: entry(200, 300, LINUX, guid(2))}))
    both.prints(["edit", crossed, "c:1:x"], "refused: plan 4\n", "the new layout isn't sound: 1 and 2 share a sector", 3)
    both.prints(["repair", crossed], "refused: repair 2\n", "a repair leaves it to you: 1 and 2 share a sector", 3)
    text = put(f"{folder}/text", b"W x\n")
    both.prints(["check", image, text], "refused: plan text 1\n",
                "line 1 is not a plan's, or the text ends without the F of its last phase", 3)
    both.prints(["check", image, put(f"{folder}/bytes", b"\xff\n")], "refused: plan text 0\n",
                "the text has more than 8 MiB or isn't UTF-8", 3)
    table = put(f"{folder}/table", b'{"partitiontable": {"label": "gpt", "partitions": [{"nmae": "x"}]}}')
    both.prints(["set", image, table], "refused: table unknown 1\n", "object 1 of `partitions` has a fault at `unknown`", 3)
    other = put(f"{folder}/other", SMALL.zeros(100))
    both.prints(["adopt", image, other], "refused: other size\n", "the other disk has another number of sectors", 3)
    # what is no refusal has its line alone
    both.prints(["edit", image, "x"], "bad word x\n", "", 2)
    both.prints(["locate", image, "0", "1"], "bad path\n", "", 2)
    both.prints(["edit", "--in-use", image, "e"], ERROR, "", 2)


def no_tables(both, folder, image):
    empty = put(f"{folder}/empty", SMALL.zeros(4096))
    both.prints(["show", empty], "no table: copies 1 1\n", SIGNATURES, 4)
    both.prints(["show", "--human", empty], "no table: copies 1 1\n", SIGNATURES, 4)
    both.prints(["adopt", image, empty], "other: no table: copies 1 1\n", SIGNATURES, 4)
    both.prints(["show", "--copy", "backup", empty], "no table: backup copy 1\n", "the signature isn't EFI PART", 4)
    both.prints(["show", put(f"{folder}/small", SMALL.zeros(67))], "no table: too small\n", "no MBR, and fewer sectors than a GPT takes", 4)
    chain = SMALL.mbr(16384, [record(0x05, 20, 8192)])
    both.prints(["show", put(f"{folder}/chain", chain)], "no table: chain 1 20\n", "the extended boot record at sector 20 lacks 55 AA", 4)


def unopened(both, folder, image):
    """What stands at a path: as an image, the other one, the file of a plan and that of a table."""
    missing, pipe = f"{folder}/missing", f"{folder}/pipe"
    os.mkfifo(pipe)
    for path, what in ((missing, "there is no such file"), (folder, "it is a folder"), (f"{image}/below", "there is no such file"),
                       (pipe, "it is neither a file nor a device"), ("/dev/null", "it is neither a file nor a device")):
        both.prints(["show", path], "device\n", what, 5)
        both.prints(["edit", path, "e"], "device\n", what, 5)
        both.prints(["adopt", image, path], "other: device\n", what, 5)
        both.prints(["check", image, path], "device\n", what, 5)
    both.prints(["set", image, missing], "table: device\n", "there is no such file", 5)
    both.prints(["show", "--device", image], "device: not a block device\n", "it isn't a block device", 5)
    both.prints(["show", "--device", missing], "device\n", "there is no such file", 5)
    with open(image, "rb") as held:
        fcntl.flock(held, fcntl.LOCK_EX)
        both.prints(["edit", image, "e"], "refused: locked\n", "the image's lock is held elsewhere", 3)
    not_allowed(both, folder)


def not_allowed(both, folder):
    """A file that its reader may not open; root may, so another user tries it, and who is none tries it themselves."""
    path = put(f"{folder}/secret", one_partition())
    os.chmod(path, 0)
    os.chmod(folder, 0o755)
    user = NOBODY if os.geteuid() == 0 else None
    both.prints(["show", path], "device\n", "opening it isn't allowed", 5, user=user)
    os.chmod(path, 0o444)
    both.prints(["edit", path, "e"], "device\n", "opening it isn't allowed", 5, user=user)


def block_devices(both, folder, image):
    if not has_loops(folder):
        print("terminal: no loop devices here, so no block device is tried")
        return
    with Loop(image) as loop:
        both.prints(["show", loop.path], "device\n", "it is a block device: give --device", 5)
        both.prints(["adopt", image, loop.path], "other: device\n", "it is a block device: give --device", 5)


def main(ptab):
    with room() as folder:
        both = Both(os.path.abspath(ptab))
        image = put(f"{folder}/image", one_partition())
        for part in (answers, refusals, no_tables, unopened, block_devices):
            part(both, folder, image)
    print(f"terminal: {compared.count} passed, 0 failed")


main(sys.argv[1])
