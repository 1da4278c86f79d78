"""What `rt ci` has proved so far, for what test.sh runs beside it on processors that it leaves idle.

Of what it prints, `rt --help` tells the last line. That there is one for each crate that it has proved, no guide says: where there is none,
as for a crate that it takes from an earlier run, what waits for that crate starts at the end.
"""
import re
import sys

# How often what it prints is looked at, in seconds.
SECONDS = 2


def proved_by(said):
    """The crates that `rt ci` has proved, by what it printed into this file. None once it has ended well."""
    with open(said, encoding="utf-8", errors="replace") as it:
        text = it.read()
    ended = re.search(r"^\d+ passed, (\d+) failed$", text, re.MULTILINE)
    if ended and ended[1] != "0":
        sys.exit(f"{sys.argv[0]}: rt ci failed")
    return None if ended else set(re.findall(r"^rt: (\w+) proved$", text, re.MULTILINE))
