"""The kit: how a crate of the repository is proved over the libraries below it, by `rattle` as its help tells. The gate is `rt ci`; this is
for the scripts that prove some crates, or the same crates again with something changed."""
import contextlib
import ctypes
import fcntl
import functools
import os
import shutil
import signal
import subprocess
import sys
import tempfile

TARGET = "x86_64-unknown-linux-gnu"
# of prctl(2): the signal that a process gets when the one that started it ends
SIGNAL_AT_END = 1
# looked up here, since a child of a script with threads may look up nothing
prctl = ctypes.CDLL(None).prctl
# what the control group of the script may have, in containers
GROUP = "/sys/fs/cgroup"


@functools.cache
def root():
    """The kit's folder. `rt doc` prints a page that stands in it."""
    if not shutil.which("rt"):
        sys.exit("no rt in PATH: crates are proved and built with the Rattle kit (README.md, Start)")
    return os.path.dirname(os.path.realpath(subprocess.run(["rt", "doc"], capture_output=True, text=True, check=True).stdout.strip()))


@functools.cache
def version():
    """The kit's one line."""
    return subprocess.run(["rt", "version"], capture_output=True, text=True, check=True).stdout


def numbers_in(path, key=""):
    """The numbers behind this key in a file of the system: none where there is no such file."""
    with contextlib.suppress(OSError), open(path, encoding="ascii") as it:
        lines = [line.split() for line in it]
        return [int(word) for line in lines if not key or line[0] == key for word in line if word.isdigit()]
    return []


def processors():
    """Those that the script may run on, or fewer by the quota of its control group."""
    found, group = len(os.sched_getaffinity(0)), numbers_in(f"{GROUP}/cpu.max")
    return max(1, min(found, group[0] // group[1])) if len(group) == 2 else found


def free_memory():
    """In bytes, by the limit of the control group too."""
    found = 1024 * numbers_in("/proc/meminfo", "MemAvailable:")[0]
    limit, held = numbers_in(f"{GROUP}/memory.max"), numbers_in(f"{GROUP}/memory.stat", "anon")
    return min(found, limit[0] - held[0]) if limit and held else found


def ends_with_us():
    """Has a process end with the script that starts it."""
    prctl(SIGNAL_AT_END, signal.SIGKILL)


@contextlib.contextmanager
def locked(crates):
    """Waits until no other run of these scripts, and no rt, works in the crates' folders, and keeps others out."""
    with contextlib.ExitStack() as held:
        for folder in sorted(it.folder for it in crates):
            it = os.open(folder, os.O_RDONLY)
            held.callback(os.close, it)
            fcntl.flock(it, fcntl.LOCK_EX)
        yield


def words_of(crate):
    """What `rattle build` and `rattle check` are told of a crate."""
    words = ["--crate-name", crate.name, "src/main.rt" if crate.is_program else "src/lib.rt"]
    words += [it for name in crate.of_kit for it in ("--extern", f"{name}={root()}/rlibs/{name}.rlib")]
    words += [it for dep in crate.deps for it in ("--extern", f"{dep.name}={dep.rlib}")]
    folders = [f"{root()}/rlibs", *(os.path.dirname(it.rlib) for it in crate.below())]
    words += [it for folder in folders for it in ("-L", f"dependency={folder}")]
    words += ["--antt-project", f"{root()}/rattle/logic/antt-project.json", "--logic-built", f"{root()}/logic_built", "--links",
              f"{crate.name}="]
    return [*words, "--crate-type", "staticlib"] if crate.is_static else words


def rattle(*words):
    return [f"{root()}/bin/rattle", *words]


def linking(made, program):
    """The command that links a program's object file."""
    c = f"{root()}/c"
    return [f"{root()}/bin/rattle-link", "--target", TARGET, "--toolchain", f"{root()}/toolchain", "-o", program, made, f"{c}/libos_c.a",
            f"{c}/liblibc_c.a"]


def building(crate, jobs):
    """The commands that prove a crate over the libraries below it by so many processes, and build it."""
    place = crate.place()
    words = rattle("build", *words_of(crate), "--jobs", str(jobs), "-o", f"{place}.o" if crate.is_program else place)
    # a library without `--statements`: over those a crate fits no later build of the library, though it shows the same
    words += [] if crate.makes_rlib() else ["--toolchain", f"{root()}/toolchain", "--backend", "llvm"]
    laid_out = rattle("fmt", "--check", *(it for it in crate.files() if it.endswith((".rt", ".antt"))))
    return [laid_out, words, *([linking(f"{place}.o", place)] if crate.is_program else [])]


def build(crate, jobs):
    """Proves and builds a crate. Whether that went well, and what the prover said. The gate refuses what `rt fmt` would lay out otherwise,
    so that is refused here."""
    shutil.rmtree(os.path.dirname(crate.rlib), ignore_errors=True)
    os.makedirs(os.path.dirname(crate.place()), exist_ok=True)
    with tempfile.TemporaryFile("w+", errors="replace") as out:
        how = {"cwd": crate.folder, "stdin": subprocess.DEVNULL, "stdout": out, "stderr": subprocess.STDOUT, "preexec_fn": ends_with_us}
        is_well = all(subprocess.run(words, check=False, **how).returncode == 0 for words in building(crate, jobs))
        out.seek(0)
        return is_well, out.read()


def checking(crate, flags, kept):
    """The words of a check of a crate over the libraries below it, and over what earlier checks left in a folder."""
    return rattle("check", *words_of(crate), *flags, "--incremental", kept)
