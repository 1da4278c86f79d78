"""How far a write has come, for whoever looks on."""
import sys

MEGA = 1_000_000


class Progress:
    """A line on a terminal, of how much of the data a program has written, which the kernel counts."""

    def __init__(self, total, quiet):
        self.total, self.is_on, self.is_shown = total, not quiet and total > 0 and sys.stderr.isatty(), False

    def look(self, process):
        if not self.is_on:
            return
        try:
            with open(f"/proc/{process}/io", encoding="ascii") as it:
                count = next(int(line.split()[1]) for line in it if line.startswith("wchar:"))
        except (OSError, StopIteration):
            return
        self.show(f"{min(count, self.total) // MEGA} of {self.total // MEGA} MB of data written")

    def show(self, text):
        self.is_shown = True
        sys.stderr.write(f"\r\x1b[Kptab-run: {text}")
        sys.stderr.flush()

    def end(self):
        if self.is_shown:
            sys.stderr.write("\r\x1b[K")
            sys.stderr.flush()
