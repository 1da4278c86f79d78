"""How a run ends: its exit statuses, the lines on standard error, and the signals that end it."""
import os
import signal
import sys

USAGE, REFUSED, FAILED, NOT_RUN, NOT_FOUND = 122, 123, 125, 126, 127
SIGNALS = (signal.SIGHUP, signal.SIGINT, signal.SIGTERM)
UNTOUCHED, WRITTEN = "isn't touched", "has the new table"


class End(Exception):
    """The run ends with this status, and this line on standard error."""

    def __init__(self, status, line):
        super().__init__(line)
        self.status, self.line = status, line


class Stopped(BaseException):
    """A signal ends the run."""


def say(line):
    sys.stderr.write(f"ptab-run: {line}\n")
    sys.stderr.flush()


def print_out(text):
    try:
        sys.stdout.write(text)
        sys.stdout.flush()
    except OSError as error:
        # what is left in the buffer goes nowhere
        os.dup2(os.open(os.devnull, os.O_WRONLY), sys.stdout.fileno())
        raise End(FAILED, f"standard output: {error.strerror}") from error


def hold_signals():
    """From here on the signals that end a run wait."""
    signal.pthread_sigmask(signal.SIG_BLOCK, SIGNALS)


def let_signals():
    signal.pthread_sigmask(signal.SIG_UNBLOCK, SIGNALS)


def stop(number, _):
    hold_signals()
    raise Stopped(number)
