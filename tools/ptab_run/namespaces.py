"""The copy under the disk's own name, in a mount namespace of the program's own: `--as-itself`."""
import os
import shutil
import subprocess

from .ends import NOT_FOUND, NOT_RUN, End
from .kernel import node_of, parts_of, sysfs

# What the shell does there: it puts each file over another one, says that it did, and becomes the program.
SCRIPT = ('began=$1 count=$2; shift 2; while [ "$count" -gt 0 ]; do mount --bind "$1" "$2" || exit; shift 2; count=$((count - 1)); done; '
          ': >"$began"; exec "$@"')
TRIAL = 'mount --bind /dev/null /dev/null && exec "$@"'
# what is unmounted outside meanwhile is so inside as well
ALONE = ("unshare", "--mount", "--propagation", "slave")
# with the caller's rights, and where these don't suffice, in a user namespace in which the caller is root to begin with
WAYS = ((*ALONE, "--"), (*ALONE, "--map-root-user", "--"))


def inner(program):
    """The program, as the user who called."""
    user, group = os.geteuid(), os.getegid()
    return program if user == 0 else ["unshare", "--user", f"--map-user={user}", f"--map-group={group}", "--", *program]


def way_in(is_device):
    """What goes before a program that may mount in a namespace of its own; or none, and why not."""
    if is_device and os.geteuid() != 0:
        return None, "root is needed for that"
    missing = [it for it in ("unshare", "mount") if not shutil.which(it)]
    if missing:
        return None, f"{missing[0]} isn't there"
    reason = ""
    for way in WAYS[:1] if is_device else WAYS if os.geteuid() == 0 else WAYS[1:]:
        words = [*way, "sh", "-c", TRIAL, "sh", *inner(["true"])]
        done = subprocess.run(words, stdin=subprocess.DEVNULL, capture_output=True, text=True)
        if done.returncode == 0:
            return way, None
        reason = (done.stderr.strip().splitlines() or ["there is no mount namespace"])[-1]
    return None, reason


def must_go(path, is_device):
    """What goes before the program of a run."""
    way, reason = way_in(is_device)
    if reason:
        raise no_place(path, reason)
    return way


def no_place(path, reason):
    return End(NOT_RUN, f"{path} isn't touched: its copy can't stand where it is: {reason}; without --as-itself `@` stands for the copy")


def in_namespace(way, places, began, words):
    """The words that run a program with each file over the other one that is behind it; the file `began` is there once they are."""
    if not shutil.which(words[0]):
        raise End(NOT_RUN if os.path.exists(words[0]) else NOT_FOUND, f"{words[0]}: no program that can be run")
    flat = [it for place in places for it in place]
    return [*way, "sh", "-c", SCRIPT, "sh", began, str(len(places)), *flat, *inner(words)]


def nodes(image, loop):
    """Where a loop device goes: over the device that it is a copy of, and its partitions over those that the device has."""
    ours, theirs = sysfs(os.stat(loop).st_rdev), sysfs(os.fstat(image.file).st_rdev)
    over = dict.fromkeys(it for it in (os.path.realpath(image.path), node_of(theirs)) if it)
    places, has = [(loop, it) for it in over], parts_of(ours)
    for number, folder in sorted(parts_of(theirs).items()):
        pair = node_of(has[number]) if number in has else None, node_of(folder)
        places += [pair] if all(pair) else []
    return places
