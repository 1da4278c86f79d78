#!/usr/bin/env python3
"""Checks one crate over what packaging/build.py proved below it, which it is asked for first. What is proved is kept, so that the
next check after an edit is short. Its last line begins with logic=proved where the whole crate is. Of the libraries below it says nothing.

usage: packaging/check.py CRATE [FLAG..]     flags of `rattle check`, as --only MODULE::FUNCTION, --allow-holes, --start FUNCTION
"""
import os
import re
import subprocess
import sys

import crates
import kit

# how much of each library the prover loaded
LOADED = re.compile(r"(?:statements|library) \w+: modules loaded=\d+ checked=0$")
ROOT = os.path.dirname(os.path.dirname(os.path.abspath(__file__)))


def main(name, *flags):
    crate = crates.crates_of(ROOT).get(name) or sys.exit(f"check.py: crates.txt has no {name}")
    if crate.deps:
        subprocess.run([sys.executable, f"{ROOT}/packaging/build.py", *(it.name for it in crate.below())], stdout=sys.stderr, check=True)
    os.makedirs(f"{crate.folder}/out", exist_ok=True)
    words = kit.checking(crate, ["--jobs", "2", *flags], f"{crate.folder}/out/checked")
    with subprocess.Popen(words, cwd=crate.folder, stdin=subprocess.DEVNULL, stdout=subprocess.PIPE, stderr=subprocess.STDOUT,
                          text=True, errors="replace", preexec_fn=kit.ends_with_us) as prover:
        for line in prover.stdout:
            if not LOADED.match(line):
                print(line, end="", flush=True)
    return prover.returncode


if len(sys.argv) < 2 or sys.argv[1].startswith("-"):
    sys.exit("usage: packaging/check.py CRATE [FLAG..]")
sys.exit(main(*sys.argv[1:]))
