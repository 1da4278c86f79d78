"""Programs that must say nothing, and calls on open disks that must end with an error."""
import subprocess
import sys

import ptab as lib


def must(*words, **more):
    done = subprocess.run(words, capture_output=True, text=True, **more)
    if done.returncode != 0 or done.stderr:
        sys.exit(f"{words}: status {done.returncode}\n{done.stdout}{done.stderr}")
    return done.stdout


def error_of(call):
    """The error that a call ends with."""
    try:
        found = call()
    except lib.Error as error:
        return error
    sys.exit(f"disk library: {found!r}, and an error was wanted")
