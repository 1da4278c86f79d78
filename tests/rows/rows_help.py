"""What the command says of itself: each page of `-h` within a screen, with its words and its exit statuses, and `--help`, which says more;
and a recipe that works."""
import os
import re
import subprocess
import sys

import commands
from command import Command
from images import SMALL

DOCS = os.path.join(os.path.dirname(os.path.abspath(__file__)), "..", "..", "docs", "commands.md")
STATUSES = {"": "0123456", **commands.STATUSES}


def page(command, *words):
    done = subprocess.run([command.ptab, *words], capture_output=True, text=True)
    lines = done.stdout.split("\n")
    if done.returncode != 0 or done.stderr or lines[-1] != "":
        sys.exit(f"ptab {' '.join(words)}: status {done.returncode}: {done.stderr}")
    if "-h" in words and len(lines) > 25 or max(map(len, lines)) > 80:
        sys.exit(f"ptab {' '.join(words)} takes {len(lines) - 1} lines of {max(map(len, lines))} characters")
    Command.checked += 1
    return done.stdout


def holds(where, text, what):
    if what not in text:
        sys.exit(f"{where} doesn't say: {what}")
    Command.checked += 1


def pages(command):
    whole = page(command, "-h")
    for name, statuses in STATUSES.items():
        of = [name] if name else []
        text, more = page(command, *of, "-h"), page(command, *of, "--help")
        if page(command, "help", *of) != more:
            sys.exit(f"ptab help {name} says another thing than --help")
        head, usage = text.split("\n\n")[:2]
        holds(f"{name} --help", more, f"{head}\n\n{usage}\n\n")
        if len(more) < len(text) + 200:
            sys.exit(f"ptab {name} --help says little more than -h")
        told = re.search(r"Exit status: (.*)", text, re.DOTALL).group(1).replace("\n", " ").split(". ")[0]
        if "".join(re.findall(r"(?:^|, )(\d) ", told)) != statuses:
            sys.exit(f"ptab {name} -h tells the statuses of: {told}")
        if name:
            holds(f"{name} --help", more, f"Exit status: {told.split(' ')[0]} ")
            holds("ptab -h", whole, f"\n  {name} ")
            holds(name, text, f"Usage: ptab {name}")
        if name and name != "types":
            holds(name, text, "--sector-size <BYTES>")


def words(command):
    """Every word and finding that docs/commands.md tells, and no other word. tests/docs/man_page.py has the sentences of --help."""
    with open(DOCS, encoding="utf-8") as it:
        docs = it.read()
    text = page(command, "edit", "-h")
    told = re.findall(r"^\| `(\w)(?::[^`]*)?` \|", docs, re.MULTILINE)
    if not told:
        sys.exit("docs/commands.md tells no word")
    for letter in told:
        if not re.search(rf"(^|[ ,]){letter}(:|\s)", text.split("Words:")[1], re.MULTILINE):
            sys.exit(f"ptab edit -h doesn't tell the word {letter}")
    findings = page(command, "verify", "-h")
    for number in range(1, 12):
        name = re.search(rf"^\| `no {number} (\w+ \w+)", docs, re.MULTILINE)
        holds("ptab verify -h", findings, f"no {number} " + name.group(1).split(" ")[0])


def recipe(command):
    """The recipe for fresh GUIDs, taken from the page, makes a table."""
    fresh = re.search(r"--fresh \$\(.*\)", page(command, "edit", "-h")).group(0)
    for size, sectors in ((512, 4096), (4096, 512)):
        command.on(SMALL.zeros(4096))
        line = f'"$1" edit "$2" --sector-size {size} {fresh} o'
        done = subprocess.run(["sh", "-c", line, "sh", command.ptab, command.path], capture_output=True, text=True)
        if (done.stdout, done.stderr) != ("done\n", ""):
            sys.exit(f"{line}: {done.stdout}{done.stderr}")
        here = command if size == 512 else command.large()
        here.healthy()
        found = here.run("show")[0]
        random = "[0-9a-f]{8}-[0-9a-f]{4}-4[0-9a-f]{3}-[89ab][0-9a-f]{3}-[0-9a-f]{12}"
        if not re.fullmatch(rf"gpt {sectors} \d+ \d+ {random}\n", found):
            sys.exit(f"{line} makes {found}")


ROWS = (pages, words, recipe)
