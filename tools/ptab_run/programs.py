"""The programs that are run: `ptab`, and the tool on its copy."""
import errno
import os
import shutil
import signal
import subprocess
import sys

from .ends import FAILED, NOT_FOUND, NOT_RUN, SIGNALS, End, Stopped

# the folder of the script that was called
BESIDE = []
# so often it is looked at a program that goes on, in seconds
EVERY = 0.5


def program():
    """The path or the name of `ptab`."""
    return os.environ.get("PTAB") or next((f"{it}/ptab" for it in BESIDE if os.access(f"{it}/ptab", os.X_OK)), "ptab")


def finished(words, ignored=(), watch=None, **more):
    """The status of a program that ran, its output and its error. What ends the run ends the program too, but for ignored signals. As long
    as it goes on, `watch` gets its number now and then."""
    before, child = signal.pthread_sigmask(signal.SIG_BLOCK, SIGNALS), None

    def begins():
        for it in SIGNALS:
            signal.signal(it, signal.SIG_IGN if it in ignored or signal.getsignal(it) == signal.SIG_IGN else signal.SIG_DFL)
        signal.pthread_sigmask(signal.SIG_SETMASK, before)

    try:
        child = subprocess.Popen(words, preexec_fn=begins, **more)
        signal.pthread_sigmask(signal.SIG_SETMASK, before)
        out, errors = communicated(child, watch)
    except Stopped:
        if child:
            child.kill()
            child.wait()
        raise
    return child.returncode, out, errors


def communicated(child, watch):
    while watch:
        try:
            return child.communicate(timeout=EVERY)
        except subprocess.TimeoutExpired:
            watch(child.pid)
    return child.communicate()


def call_ptab(words, files=(), ignored=(), watch=None):
    """The status, the output and the error of ptab."""
    try:
        status, out, errors = finished([program(), *words], ignored, watch, encoding="utf-8", errors="replace", stdin=subprocess.DEVNULL,
                                       stdout=subprocess.PIPE, stderr=subprocess.PIPE, pass_fds=files)
    except OSError as error:
        raise End(FAILED, f"{program()}: {error.strerror}") from error
    # a program that was killed says nothing
    return status, out, errors.strip() or ("" if status in range(7) else f"{program()} ended with status {status}")


def ptab(command, sector, *words, **more):
    return call_ptab([command, "--sector-size", str(sector), *words], **more)


def is_ptab(tool):
    ours, theirs = shutil.which(program()), shutil.which(tool)
    return os.path.basename(tool) == "ptab" or bool(ours and theirs and os.path.samefile(ours, theirs))


def at_place(words, place):
    """The words of a tool, with the path of the copy in them."""
    return [place if it == "@" else it[:-1] + place if it.endswith("=@") else it for it in words]


def run_tool(words, quiet, told):
    """Runs the tool with our own streams, and with what else the caller had open, and gives its status. An interrupt is the tool's. By
    `told` ptab takes its copy."""
    where = {**os.environ, "PTAB_OPTIONS": " ".join(told)}
    sys.stdout.flush()
    before = signal.getsignal(signal.SIGINT)
    if before != signal.SIG_IGN:
        signal.signal(signal.SIGINT, lambda *_: None)
    try:
        status = finished(words, stdout=sys.stderr if quiet else None, env=where, close_fds=False)[0]
    except OSError as error:
        raise End(NOT_FOUND if error.errno == errno.ENOENT else NOT_RUN, f"{words[0]}: {error.strerror}") from error
    finally:
        signal.signal(signal.SIGINT, before)
    return status if status >= 0 else 128 - status
