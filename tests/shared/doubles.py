"""The program test_doubles, plain versions of verify and check, on each image and plan that the command is run on."""
import os
import subprocess
import sys

# the most sectors of an image that the program compares
MOST = 16384
# It copies the image for each plan. Without these, each copy of some MB is asked of the system and given back, which takes as long as
# all else that it does (mallopt(3)). So it is with the scripts, which read whole images.
KEEPS_MEMORY = {"MALLOC_MMAP_THRESHOLD_": "1000000000", "MALLOC_TRIM_THRESHOLD_": "1000000000", "MALLOC_TOP_PAD_": "33554432"}


def text_of(phases):
    return "".join("".join(f"W {lba} {content}\n" for lba, content in phase) + "F\n" for phase in phases if phase)


def phases_of(text):
    """The phases of a plan that the command printed, each a list of a sector and its digits."""
    phases, phase = [], []
    for line in text.splitlines():
        if line == "F":
            phases.append(phase)
            phase = []
        else:
            _, lba, digits = line.split(" ")
            phase.append((int(lba), digits))
    return phases


def with_write(phases, k, at, writes):
    """The phases with these writes in place of one."""
    changed = [list(phase) for phase in phases]
    changed[k][at : at + 1] = writes
    return changed


def variants(phases, is_whole):
    """The plan, and it with a phase left out, exchanged for the next or joined with it, and with the first or the last write of a
    phase, or each of them, left out, of the next sector, of one seven sectors on with another byte, or a phase later."""
    yield phases
    for k, phase in enumerate(phases):
        yield phases[:k] + phases[k + 1 :]
        yield phases[:k] + phases[k : k + 2][::-1] + phases[k + 2 :]
        yield phases[:k] + [sum(phases[k : k + 2], [])] + phases[k + 2 :]
        for at in range(len(phase)) if is_whole else sorted({0, len(phase) - 1}):
            lba, digits = phase[at]
            yield with_write(phases, k, at, [])
            yield with_write(phases, k, at, [(lba + 1, digits)])
            yield with_write(phases, k, at, [(lba + 7, digits[:10] + "77" + digits[12:])])
            later = with_write(phases, k, at, []) + [[]]
            yield later[: k + 1] + [[(lba, digits)] + later[k + 1]] + later[k + 2 :]


class Doubles:
    """Holds the command's answers to those of the program, once for each image and plan; `checked` counts them."""

    def __init__(self, program):
        self.program = os.path.abspath(program)
        self.seen = set()
        self.shapes = set()
        self.checked = 0

    def before(self, command, words):
        """Compares on the image as it is before these words are run, and on it for their plan."""
        if not os.path.isfile(command.path) or os.path.getsize(command.path) > MOST * command.sectors.size:
            return
        with open(command.path, "rb") as it:
            image = hash(it.read())
        self.compare(command, (image, command.sectors.size), [])
        if words[0] in ("plan", "edit"):
            text, _, status = command.answer("plan", *words[1:])
            if status == 0:
                phases = phases_of(text)
                # each write is changed in the first plan of its shape
                shape = (command.sectors.size, *map(len, phases))
                self.compare(command, (image, text), [text_of(it) for it in variants(phases, shape not in self.shapes)])
                self.shapes.add(shape)
        elif words[0] in ("check", "apply") and command.answer("check", *words[1:])[2] in (0, 1):
            with open(words[1], encoding="ascii") as it:
                text = it.read()
            self.compare(command, (image, words[0], text), [text])

    def compare(self, command, key, texts):
        if key in self.seen:
            return
        self.seen.add(key)
        files = [f"{command.path}.{k}" for k in range(len(texts))]
        for file, text in zip(files, texts):
            with open(file, "w", encoding="ascii") as it:
                it.write(text)
        words = [self.program, str(command.sectors.size), command.path, *files]
        done = subprocess.run(words, capture_output=True, text=True, env={**os.environ, **KEEPS_MEMORY})
        if (done.stdout, done.returncode) != ("same\n", 0):
            sys.exit(f"beside plain versions, {' '.join(words[1:])}: {done.stdout}{done.stderr}, status {done.returncode}")
        for file in files:
            os.remove(file)
        self.checked += 1 + len(texts)
