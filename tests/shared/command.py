"""Runs of the built command on images, each compared whole: output, errors, status, and an image that may not change."""
import os
import subprocess
import sys

from images import LARGE, SMALL

LONG_AGO = 1_000_000_000


class Command:
    """The command on one image file; `checked` counts the runs."""

    checked = 0
    # plain versions of what is read and checked, asked before each run where they are given
    doubles = None

    def __init__(self, ptab, path, sectors=SMALL):
        self.ptab = ptab
        self.path = path
        self.sectors = sectors
        self.sparse = None

    def large(self):
        """The same, with sectors of 4096 bytes."""
        return Command(self.ptab, self.path, LARGE)

    def on(self, image):
        self.sparse = None
        with open(self.path, "wb") as it:
            it.write(image)
        return self

    def on_sparse(self, sectors, pieces):
        """An image of that many sectors with the pieces {lba: bytes}, zeros elsewhere, which takes no room for them."""
        self.sparse = sorted(pieces)
        with open(self.path, "wb") as it:
            it.truncate(sectors * self.sectors.size)
            for lba, content in pieces.items():
                it.seek(lba * self.sectors.size)
                it.write(content)
        return self

    def image(self):
        """The whole image; of a sparse one its length, the room that it takes, and a sector of each piece."""
        with open(self.path, "rb") as it:
            if self.sparse is None:
                return it.read()
            found = os.fstat(it.fileno())
            kept = [os.pread(it.fileno(), self.sectors.size, lba * self.sectors.size) for lba in self.sparse]
            return found.st_size, found.st_blocks, kept

    def sector_at(self, lba):
        with open(self.path, "rb") as it:
            return os.pread(it.fileno(), self.sectors.size, lba * self.sectors.size)

    def run(self, *words):
        """(output, errors, status) of the words, the image's path put second."""
        if Command.doubles:
            Command.doubles.before(self, words)
        return self.answer(*words)

    def answer(self, *words):
        return self.answer_at(self.path, *words)

    def answer_at(self, path, *words):
        size = [] if self.sectors is SMALL else ["--sector-size", str(self.sectors.size)]
        done = subprocess.run([self.ptab, words[0], *size, path, *words[1:]], capture_output=True)
        return done.stdout.decode("utf-8"), done.stderr.decode("utf-8"), done.returncode

    def gives(self, words, out, err="", status=0):
        before = self.image()
        found = self.run(*words)
        if found != (out, err, status):
            sys.exit(f"{' '.join(words)}:\n  found  {found}\n  wanted {(out, err, status)}")
        if (words[0] not in ("edit", "apply", "repair") or status != 0) and self.image() != before:
            sys.exit(f"{' '.join(words)} changed the image")
        Command.checked += 1
        return self

    def shows(self, *lines):
        return self.gives(["show"], "".join(f"{line}\n" for line in lines))

    def no_table(self, why):
        """`show` tells why there is no table, `verify` that there is none."""
        self.gives(["show"], "", f"no table: {why}\n", 4)
        return self.gives(["verify"], "no 1 no table\n", status=1)

    def healthy(self):
        return self.gives(["verify"], "yes\n")

    def unhealthy(self, finding):
        return self.gives(["verify"], f"no {finding}\n", status=1)

    def located(self, path, k, lba):
        return self.gives(["locate", path, str(k)], f"{lba}\n")

    def nowhere(self, path, k):
        return self.gives(["locate", path, str(k)], "none\n", status=1)

    def edited(self, *words):
        return self.gives(["edit", *words], "done\n")

    def writes_nothing(self, words, out, err="", status=0):
        """The same of a command that may write, and the file is not written to: not even with the bytes that are there."""
        os.utime(self.path, ns=(LONG_AGO, LONG_AGO))
        before = self.image()
        self.gives(words, out, err, status)
        if os.stat(self.path).st_mtime_ns != LONG_AGO or self.image() != before:
            sys.exit(f"{' '.join(words)} wrote to the image")
        return self

    def repaired(self):
        """A repair, after which the image is healthy; another one writes nothing."""
        self.gives(["repair"], "done\n").healthy()
        return self.writes_nothing(["repair"], "done\n")

    def not_repaired(self):
        return self.writes_nothing(["repair"], "", "refused: repair 2\n", 3)

    def refused(self, why, *words):
        """An edit that is refused with that text, and writes nothing."""
        return self.gives(["edit", *words], "", f"refused: {why}\n", 3)
