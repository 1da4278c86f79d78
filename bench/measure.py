"""What one command costs: instructions, and its system calls on an image."""
import os
import re
import shutil
import subprocess
import sys

CALLS = "read,pread64,readv,preadv,write,pwrite64,writev,pwritev,fsync,fdatasync"
SYNCS = ("fsync", "fdatasync")


def reset(image, kept):
    if os.path.getsize(kept) < 1 << 30:
        shutil.copyfile(kept, image)
    else:
        subprocess.run(["cp", "--sparse=always", kept, image], check=True)


def run(words, given=None):
    """Runs a command, with its standard input from a file. The environment is small, since the loader's instructions count it."""
    with open(given or os.devnull, "rb") as it:
        return subprocess.run(words, stdin=it, capture_output=True, text=True, env={"PATH": os.environ["PATH"], "LC_ALL": "C"})


def instructions(words, folder, given=None):
    out = f"{folder}/callgrind.out"
    done = run(["valgrind", "--tool=callgrind", f"--callgrind-out-file={out}", *words], given)
    found = re.search(r"Collected : (\d+)", done.stderr)
    if not found:
        sys.exit(f"callgrind counted nothing: {words}\n{done.stderr}")
    return int(found.group(1))


def calls(words, image, folder, given=None):
    """The sectors of 512 bytes read from the image, and the writes and syncs of it."""
    log = f"{folder}/strace.log"
    run(["strace", "-f", "-y", "-e", f"trace={CALLS}", "-o", log, *words], given)
    counts = {"sectors": 0, "writes": 0, "syncs": 0}
    with open(log, encoding="utf-8", errors="replace") as it:
        for line in it:
            found = re.search(r"(\w+)\(.* = (\d+)", line)
            if f"<{image}>" not in line or not found:
                continue
            call, count = found.groups()
            if "read" in call:
                counts["sectors"] += int(count) // 512
            else:
                counts["syncs" if call in SYNCS else "writes"] += 1
    return counts


def measure(words, image, kept, folder, given=None):
    """The instructions of one command, and its calls, each on a fresh image, as it left the second one."""
    reset(image, kept)
    many = instructions(words, folder, given)
    reset(image, kept)
    return {"instructions": many, **calls(words, image, folder, given)}
