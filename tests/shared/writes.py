"""The writes and syncs of a command on an image, taken down by strace; and images that a stop among them leaves."""
import re
import subprocess
import sys

SYNCS = ("fsync", "fdatasync")
CALLS = ("openat", "lseek", "write", "pwrite64", "ftruncate", *SYNCS)
CALL = re.compile(rf"^(\d+ +)?({'|'.join(CALLS)})\((.*)\) += (\d+)$")


def traced(command, path, sectors, calls=CALLS, log=None, **more):
    """How a command ends, and the writes to an image, as (sector, bytes), before each sync of it, by whichever process of the command,
    and by whatever path that opened it."""
    log = log or f"{path}.log"
    words = [*tracing(path, sectors, calls, log), *command]
    done = subprocess.run(words, stdout=subprocess.PIPE, stderr=subprocess.PIPE, text=True, **more)
    return done, phases_in(log, sectors, f"{command}: {done.stderr}")


def tracing(path, sectors, calls, log):
    """The words before a command that is traced."""
    return ["strace", "-f", "-P", path, "-e", f"trace={','.join(calls)}", "-xx", "-s", str(2 * sectors.size), "-o", log]


def phases_in(log, sectors, what, is_open=False):
    """The writes that were taken down, before each sync; of an image that the command has to open for them, or that it is given open."""
    phases, writes = [], []
    with open(log, encoding="ascii") as it:
        for line in it:
            found = CALL.search(line.strip())
            if not found:
                continue
            call, arguments = found.group(2, 3)
            if call == "openat":
                is_open = is_open or "O_RDWR" in arguments
            elif call == "pwrite64":
                content = bytes.fromhex(re.search(r'"([^"]*)"', arguments).group(1).replace("\\x", ""))
                writes.append((int(arguments.rsplit(",", 1)[1]) // sectors.size, content))
            elif call in SYNCS:
                phases.append(writes)
                writes = []
            elif is_open:
                sys.exit(f"{what}: {call}")
    if writes or not is_open:
        sys.exit(f"{what}: writes after the last sync, or an image that isn't opened for them")
    return phases


def recorded(ptab, path, command, words, sectors):
    """The writes, as (sector, bytes), before each sync of ptab's command on the image."""
    done, phases = traced([ptab, command, path, "--sector-size", str(sectors.size), *words], path, sectors)
    if (done.stdout, done.returncode) != ("done\n", 0):
        sys.exit(f"{command} {words}: status {done.returncode}: {done.stdout}{done.stderr}")
    return phases


def written(image, writes, sectors):
    image = bytearray(image)
    for lba, content in writes:
        sectors.put(image, lba, content)
    return image


def choices(rng, phase):
    """Choices of a phase's writes: all there are of a few, else none, all, every other one, each alone left out or done at either end,
    and random ones."""
    if len(phase) <= 3:
        return [[write for k, write in enumerate(phase) if number >> k & 1] for number in range(2 ** len(phase))]
    picked = [[], phase, phase[:1], phase[-1:], phase[1:], phase[:-1], phase[::2], phase[1::2]]
    picked += [[write for write in phase if rng.randrange(2)] for _ in range(12)]
    return picked
