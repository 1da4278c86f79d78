"""Runs of the command whose streams are files."""
import os


class Runner:
    """Runs the command with its streams in two files, which is cheaper than pipes."""

    def __init__(self, ptab, path):
        self.ptab = ptab
        self.path = path
        self.streams = [os.open(f"{path}.{name}", os.O_RDWR | os.O_CREAT | os.O_TRUNC, 0o600) for name in ("out", "err")]

    def run(self, command, sectors, *words):
        """(status, output, errors); a negative status is that of a signal."""
        for stream in self.streams:
            os.ftruncate(stream, 0)
            os.lseek(stream, 0, os.SEEK_SET)
        actions = [(os.POSIX_SPAWN_DUP2, stream, number) for number, stream in enumerate(self.streams, 1)]
        line = [self.ptab, command, "--sector-size", str(sectors.size), self.path, *words]
        child = os.posix_spawn(self.ptab, line, {}, file_actions=actions)
        status = os.waitstatus_to_exitcode(os.waitpid(child, 0)[1])
        return (status, *(os.pread(stream, os.fstat(stream).st_size, 0).decode("utf-8") for stream in self.streams))

    def close(self):
        for stream in self.streams:
            os.close(stream)
