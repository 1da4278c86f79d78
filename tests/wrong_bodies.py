#!/usr/bin/env python3
"""Tries the wrong bodies of crates/NAME/wrong_bodies.txt: the prover must refuse each at the clause that its author named.
docs/wrong_bodies.md says what a wrong body is here, and how to add one.

usage: tests/wrong_bodies.py [-v] [--keep DIR] [--beside FILE] [--turn N] [NAME[/BODY]..]     crates, or none for all
  -v              says at which clauses each body is refused, and all goals that it leaves open
  --keep DIR      keeps the prover's work on each crate there, for the next run
  --beside FILE   while `rt ci` runs, which prints into this file: each crate's, once it has proved what stands below that crate. Without
                  it packaging/build.py proves that first, where it isn't proved yet
  --turn N        each crate's bodies in turns: a third of them, others with N + 1 and N + 2

A wrong body is put into a copy of the crate as a second function beside the right one, with the same signature and contract and no proof by
hand. For each function that has wrong bodies one more is put there, which only calls the right one: it must be proved. All of a crate are
tried in one check. It ends with status 1 where a body isn't refused at its clause.
"""
import argparse
import contextlib
import os
import re
import shutil
import subprocess
import sys
import tempfile
import time
from concurrent.futures import ThreadPoolExecutor

ROOT = os.path.dirname(os.path.dirname(os.path.abspath(__file__)))
sys.path.insert(0, f"{ROOT}/packaging")
sys.path.insert(0, f"{ROOT}/tests")
import crates  # noqa: E402
import kit  # noqa: E402
from beside import SECONDS, proved_by  # noqa: E402
from functions import second  # noqa: E402

# The most memory that one check takes, in bytes, and how many run beside `rt ci`, which uses most of it.
MEMORY = 4_000_000_000
LANES_BESIDE = 2
# After how many turns each body has been tried.
TURNS = 3


class Body:
    """A body to be tried: a wrong one and the clauses that refuse it, or, with none named, one that must be proved."""

    def __init__(self, name, of, text="", refused="", uses=(), ghosts=()):
        self.name, self.text, self.uses, self.ghosts = name, text, uses, ghosts
        self.file, _, self.of = of.partition(" ")
        self.clauses = [it.strip() for it in refused.split(",") if it]


def table_of(crate):
    return f"{crate.folder}/wrong_bodies.txt"


def bodies_of(crate):
    """The wrong bodies of a crate's table. A block for each, which ends at an empty line."""
    with open(table_of(crate), encoding="utf-8") as it:
        blocks = re.split(r"\n\s*\n", re.sub(r"^#.*\n", "", it.read(), flags=re.MULTILINE))
    found = []
    for block in filter(str.strip, blocks):
        head, _, text = block.strip("\n").partition("\nbody:\n")
        fields = [line.partition(": ")[::2] for line in head.split("\n")]
        one, uses, ghosts = dict(fields), *([value for key, value in fields if key == it] for it in ("use", "ghost"))
        if one.keys() - {"use", "ghost"} != {"name", "of", "refused"} or not text:
            sys.exit(f"wrong_bodies.py: {table_of(crate)}: not a wrong body:\n{block}")
        if one["name"] in {it.name for it in found}:
            sys.exit(f"wrong_bodies.py: {table_of(crate)}: two bodies with one name: {one['name']}")
        found.append(Body(one["name"], one["of"], text, one["refused"], uses, ghosts))
    return found


def with_right_ones(bodies):
    """These, and behind them a right body for each of their functions, with the ghost values that the first one takes."""
    functions = {f"{it.file} {it.of}": it.ghosts for it in reversed(bodies)}
    return [*bodies, *(Body("right_" + re.sub(r"\W+", "_", it.removeprefix("src/").replace(".rt ", " ")).strip("_"), it, ghosts=ghosts)
                       for it, ghosts in functions.items())]


def picks_of(crate, body):
    """The file of a body's proof in which its calls are given their ghost values, and its text. A body's function is in no impl."""
    module = re.sub(r"^(lib|main)$|/mod$", "", body.file.removeprefix("src/").removesuffix(".rt"))
    place = "/".join(filter(None, ["proofs", module, body.name]))
    lines = [f"abbrev pub ghost-{call} : goal.ghost-{call}\nghost-{call} g a = {value}\n"
             for call, _, value in (it.partition(" ") for it in body.ghosts)]
    return f"{place}/Invariants.antt", "\n".join([f"use Rattle.{crate.name}.{place.replace('/', '.')}.Given as goal\n", *lines])


def texts_with(crate, bodies):
    """The texts of the crate's files that have these bodies' functions besides."""
    texts, folders = {}, [it.folder for it in [crate, *crate.below()]]
    for body in bodies:
        if body.file not in texts:
            with open(f"{crate.folder}/{body.file}", encoding="utf-8") as it:
                texts[body.file] = it.read()
        texts[body.file] = second(texts[body.file], body, folders)
    return {**texts, **dict(picks_of(crate, it) for it in bodies if it.ghosts)}


def check(crate, texts, names, kept):
    """Checks the functions of these names in a copy of the crate with these texts, over what kept holds. What the prover said."""
    with tempfile.TemporaryDirectory(prefix="wrong-bodies-") as room:
        for part in crates.PARTS:
            if os.path.isdir(f"{crate.folder}/{part}"):
                shutil.copytree(f"{crate.folder}/{part}", f"{room}/{part}")
        for path, text in texts.items():
            os.makedirs(os.path.dirname(f"{room}/{path}"), exist_ok=True)
            with open(f"{room}/{path}", "w", encoding="utf-8") as it:
                it.write(text)
        flags = ["--jobs", "1", *(it for name in names for it in ("--only", name))]
        ran = subprocess.run(kit.checking(crate, flags, kept), cwd=room, stdin=subprocess.DEVNULL, stdout=subprocess.PIPE,
                             stderr=subprocess.STDOUT, errors="replace", check=False)
    return ran.stdout


def unread(said, texts, bodies):
    """The body that the prover couldn't read, and what it said of it. None where it read all."""
    for file, line, why in re.findall(r"^(?:\./)?(src/\S+?):(\d+):\d+: (error.*)$", said, re.MULTILINE):
        above = re.findall(r"\bfn (\w+)(?=[<(])", "\n".join(texts.get(file, "").split("\n")[:int(line)]))
        for body in bodies:
            if above and body.name == above[-1]:
                return body, why
    return None


def goals_of(said, verdict, name):
    """The goals that a function leaves open, as the prover names them: in its verdict, and in the lines of a proof to be written."""
    block = re.search(rf"^help: write \./proofs/(?:\S+/)?{name}/Answers\.antt with .*\n((?:    .*\n|\n)*)", said, re.MULTILINE)
    told = re.findall(r"`([^`]+)`", verdict.partition("did not prove")[2])
    return [*dict.fromkeys([*told, *(re.findall(r"^    pub (\S+) :\s+goal\.", block[1], re.MULTILINE) if block else [])])]


def clause_of(goal):
    """The clause of a contract at whose goal a function is stuck: `ensures` where it has only one, `invariant` for a ghost field of what it
    changes. Nothing where it is another goal, as a callee's `requires` or a sum that may wrap."""
    found = re.match(r"(invariant)_of-|returns(?:-(?:.*-)?clause-(\w+?)(?:-\d+)?|-.*)?$", goal)
    return found and (found[1] or found[2] or "ensures")


def judge(body, said):
    """Whether a body came to what it has to, and what to say of it."""
    verdict = re.search(rf"^fn \S*\b{body.name}: (.*)$", said, re.MULTILINE)
    if not verdict:
        return False, "not tried"
    goals = goals_of(said, verdict[1], body.name)
    if not body.clauses:
        return verdict[1] == "proved", f"the right body isn't proved: {' '.join(goals) or verdict[1]}"
    clauses = [*dict.fromkeys(filter(None, map(clause_of, goals)))]
    if verdict[1] == "proved":
        return False, "NOT REFUSED: it is proved"
    if body.clauses[0] not in [*clauses, *filter(clause_of, goals)]:
        return False, f"NOT REFUSED at {body.clauses[0]}: {' '.join(goals) or verdict[1]}"
    return True, f"{', '.join(clauses)} ({' '.join(goals)})"


def try_bodies(crate, bodies, kept):
    """Each of these bodies and the right ones, whether it came to what it has to, and what to say of it."""
    answers = []
    while bodies:
        tried = with_right_ones(bodies)
        texts = texts_with(crate, tried)
        said = check(crate, texts, [it.name for it in tried], kept)
        if re.search(r"^only=\d+ proved=\d+$", said, re.MULTILINE):
            return [*answers, *((it, *judge(it, said)) for it in tried)]
        found = unread(said, texts, tried)
        if not found:
            return [*answers, *((it, False, f"no verdict: {said[-2000:]}") for it in bodies[:1])]
        # the others are tried without it (a right one that can't be read: without all of its function)
        answers.append((found[0], False, found[1]))
        bodies = [it for it in bodies if it is not found[0] and (found[0].clauses or it.of != found[0].of)]
    return answers


def try_crate(crate, asked):
    """Tries a crate's wrong bodies, and says how many were refused. What to say of those that weren't."""
    while asked.beside and (proved := proved_by(asked.beside)) is not None and not {it.name for it in crate.below()} <= proved:
        time.sleep(SECONDS)
    wanted = {it.partition("/")[2] for it in asked.names if it.startswith(f"{crate.name}/")}
    bodies = [it for it in bodies_of(crate) if not wanted or it.name in wanted]
    if asked.turn is not None:
        bodies = bodies[asked.turn % TURNS::TURNS]
    with contextlib.ExitStack() as ends:
        kept = f"{os.path.abspath(asked.keep)}/{crate.name}" if asked.keep else ends.enter_context(tempfile.TemporaryDirectory())
        os.makedirs(kept, exist_ok=True)
        answers = try_bodies(crate, bodies, kept)
    refused = [f"  {body.name}: {text}" for body, is_well, text in answers if is_well and body.clauses]
    print("\n".join([f"{crate.name}: {len(refused)} of {len(bodies)} refused", *(refused if asked.v else [])]), flush=True)
    missing = [f"{it}: no such body" for it in wanted - {it.name for it in bodies}]
    return [f"{crate.name}/{it}" for it in [*missing, *(f"{body.name}: {text}" for body, is_well, text in answers if not is_well)]]


def main():
    reader = argparse.ArgumentParser(usage="tests/wrong_bodies.py [-v] [--keep DIR] [--beside FILE] [--turn N] [NAME[/BODY]..]")
    reader.add_argument("-v", action="store_true")
    reader.add_argument("--keep")
    reader.add_argument("--beside")
    reader.add_argument("--turn", type=int)
    reader.add_argument("names", nargs="*")
    asked = reader.parse_args()
    having = {name: it for name, it in crates.crates_of(ROOT).items() if os.path.isfile(table_of(it))}
    names = list(dict.fromkeys(it.partition("/")[0] for it in asked.names)) or [*having]
    for name in names:
        if name not in having:
            sys.exit(f"wrong_bodies.py: crates/{name} has no wrong_bodies.txt")
    below = sorted({lib.name for name in names for lib in having[name].below()})
    if below and not asked.beside:
        subprocess.run([sys.executable, f"{ROOT}/packaging/build.py", *below], stdout=subprocess.DEVNULL, check=True)
    lanes = max(1, min(LANES_BESIDE if asked.beside else kit.processors(), kit.free_memory() // MEMORY))
    with ThreadPoolExecutor(lanes) as pool:
        failures = [text for found in pool.map(lambda it: try_crate(having[it], asked), names) for text in found]
    print(*failures, f"wrong bodies: {len(failures)} failed", sep="\n")
    sys.exit(1 if failures else 0)


if __name__ == "__main__":
    main()
