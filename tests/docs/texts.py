#!/usr/bin/env python3
"""A text that the command prints is said once: what packaging/put_texts.py writes from docs/texts.toml stands in each file as it writes it,
and the errors of the crates print those sentences. On a copy, what is changed in one of these places is named, and a new refusal comes
into all of them.

usage: tests/docs/texts.py
"""
import os
import shutil
import subprocess
import sys
import tempfile
import tomllib

TOP = os.path.abspath(os.path.join(os.path.dirname(os.path.abspath(__file__)), "..", ".."))
sys.path.insert(0, os.path.join(TOP, "tests", "shared"))
import compared
from compared import same

DOCS, MAN, C, HELP = "docs/commands.md", "man/ptab.8", "bindings/c/ptab_disk_texts.h", "crates/pt_line/src/help.rt"
TABLE, REFUSALS, SCRIPT = "docs/texts.toml", "crates/pt_words/src/error.rt", "packaging/put_texts.py"
# a made-up refusal: what stands behind the last one in the table, and in the crate
NEW = '''
[[group.text]]
text = "refused: edit 16"
variant = "Refusal::Sunday"
sentence = "no edit on a Sunday, whatever the word is and whoever asks for it"
do = "wait for Monday"
'''
NEW_ERROR = {"            Refusal::LabelOffset => 15,\n": "            Refusal::Sunday => 16,\n",
             '"the offset doesn\'t fit a label that counts sectors of the disk",\n':
             '            Refusal::Sunday => "no edit on a Sunday, whatever the word is and whoever asks for it",\n'}
MADE = {DOCS: "| `refused: edit 16` | 3 | no edit on a Sunday, whatever the word is and whoever asks for it | wait for Monday |\n",
        MAN: ".TP\n.B refused: edit 16\nNo edit on a Sunday, whatever the word is and whoever asks for it.\nWait for Monday.\n",
        C: '    [16] = "no edit on a Sunday, whatever the word is and whoever asks for it",\n',
        HELP: f"  refused: edit 16        no edit on a Sunday, whatever the word is and whoever\n{' ' * 26}asks for it\"] $($rest)*)\n"}


def copied(folder):
    with open(f"{TOP}/{TABLE}", "rb") as it:
        errors = tomllib.load(it)["errors"]
    for path in {TABLE, SCRIPT, DOCS, "docs/c.md", MAN, C, HELP, *(f"crates/{path}" for path in errors.values())}:
        os.makedirs(os.path.dirname(f"{folder}/{path}"), exist_ok=True)
        shutil.copy(f"{TOP}/{path}", f"{folder}/{path}")


def run(folder, *words):
    done = subprocess.run([sys.executable, f"{folder}/{SCRIPT}", *words], capture_output=True, text=True)
    return done.returncode, done.stdout.splitlines(), done.stderr


def changed(folder, path, old, new):
    """Puts a text in the place of one that stands there once."""
    with open(f"{folder}/{path}", encoding="utf-8") as it:
        text = it.read()
    same(f"{path} has it once: {old}", text.count(old), 1)
    with open(f"{folder}/{path}", "w", encoding="utf-8") as it:
        it.write(text.replace(old, new))


def named(folder):
    """Each place that is changed alone is named, and another one isn't."""
    for path, old in ((DOCS, "| the number is taken |"), (MAN, "The number is taken.\n"), (C, '"the number is taken"'),
                      (HELP, "   the number is taken\n"), ("docs/c.md", "`the disk can't be locked`")):
        changed(folder, path, old, old.replace("taken", "used").replace("locked", "closed"))
        status, _, said = run(folder, "--check")
        same(f"{path} is named", (status, said), (1, f"{path} isn't what docs/texts.toml says: run packaging/put_texts.py\n"))
        same(f"{path} is written", run(folder), (0, [path], ""))
    for old, new in (('"the number is taken"', '"the number is used"'), ("NumberTaken => 2,", "NumberTaken => 17,")):
        changed(folder, REFUSALS, old, new)
        status, _, said = run(folder, "--check")
        same(f"{new} is named", (status, said.startswith("docs/texts.toml has no text of Refusal::NumberTaken")), (1, True))
        changed(folder, REFUSALS, new, old)


def followed(folder):
    """A new refusal, as CONTRIBUTING.md has it."""
    changed(folder, TABLE, 'do = "place the partition below sector 4294967296"\n',
            f'do = "place the partition below sector 4294967296"\n{NEW}')
    status, _, said = run(folder, "--check")
    same("all places are named", (status, [path in said for path in (*MADE, "Refusal::Sunday")]), (1, [True] * 5))
    for behind, line in NEW_ERROR.items():
        changed(folder, REFUSALS, behind, behind + line)
    same("all places are written", run(folder), (0, [*MADE], ""))
    changed(folder, TABLE, 'do = "wait for Monday"', 'todo = "wait for Monday"')
    same("a name that isn't read", run(folder, "--check")[2].splitlines()[0],
         "docs/texts.toml has a name that its head doesn't have: todo")
    changed(folder, TABLE, 'todo = "wait for Monday"', 'do = "wait for Monday"')
    for path, text in MADE.items():
        with open(f"{folder}/{path}", encoding="utf-8") as it:
            same(f"{path} has it", text in it.read(), True)
    same("nothing is left", run(folder, "--check"), (0, [], ""))


def main():
    same("what put_texts.py says of the files as they are", run(TOP, "--check"), (0, [], ""))
    with tempfile.TemporaryDirectory() as folder:
        copied(folder)
        named(folder)
        followed(folder)
    print(f"texts: each is as docs/texts.toml has it; {compared.count} compared, 0 differ")


main()
