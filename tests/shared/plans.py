"""Plans of the built command: their sectors phase by phase, what check says of them, and that apply does what edit does."""
import re
import sys

from command import Command
from images import SMALL


def text_of(phases):
    """A plan's text, of phases of (sector, bytes)."""
    return "".join("".join(f"W {lba} {bytes(content).hex()}\n" for lba, content in phase) + "F\n" for phase in phases)


def phases_of(text, size):
    """The phases of a text that has the one form in which plans are written."""
    line = re.compile(rf"W (0|[1-9][0-9]*) ([0-9a-f]{{{2 * size}}})")
    phases, phase = [], []
    for given in text.split("\n")[:-1]:
        found = line.fullmatch(given)
        if found:
            phase.append((int(found.group(1)), bytes.fromhex(found.group(2))))
        elif given == "F" and phase:
            phases.append(phase)
            phase = []
        else:
            sys.exit(f"a plan has the line {given[:60]}")
    if phase or not text.endswith("\n") and text:
        sys.exit("a plan has no last flush")
    return phases


def same(what, found, wanted):
    Command.checked += 1
    if found != wanted:
        sys.exit(f"{what}:\n  found  {found}\n  wanted {wanted}")


def plan_file(command, phases):
    """A plan from anywhere, as a file beside the image."""
    path = f"{command.path}.plan"
    with open(path, "w", encoding="ascii") as it:
        it.write(phases if isinstance(phases, str) else text_of(phases))
    return path


def checks(command, phases, answer):
    """`check` gives that answer of a plan and changes nothing; nor does `apply` where the answer is no."""
    path, before = plan_file(command, phases), command.image()
    status = 0 if answer.startswith("yes") else 1
    same("check", command.run("check", path), (f"{answer}\n", "", status))
    if status:
        same("apply", command.run("apply", path), (f"{answer}\n", "", 1))
    same("an image that is checked", command.image() == before, True)
    return command


def lay(command, image):
    """Puts an image in place: bytes, or (sectors, pieces) of one that takes no room for its zeros."""
    return command.on_sparse(*image) if isinstance(image, tuple) else command.on(image)


def plan_of(command, *words):
    """The phases that `plan` prints; the image stays."""
    before = command.image()
    out, err, status = command.run("plan", *words)
    same(f"plan {' '.join(words)}", (err, status), ("", 0))
    same("an image that is planned for", command.image() == before, True)
    return phases_of(out, command.sectors.size)


def sectors_of(phases):
    return [[lba for lba, _ in phase] for phase in phases]


def spelled(phases):
    """Phases of sectors, with runs as FIRST-LAST."""
    told = []
    for phase in phases:
        runs = []
        for lba in phase:
            if runs and runs[-1][1] + 1 == lba:
                runs[-1][1] = lba
            else:
                runs.append([lba, lba])
        told.append(" ".join(str(a) if a == b else f"{a}-{b}" for a, b in runs))
    return " | ".join(told)


def turns(command, image, words, phases, switch, lines=None):
    """Of the words on the image (the present one where it is None): the plan writes these sectors in these phases, as text
    FIRST-LAST with spaces between and a bar after each phase; check says yes with that switch; apply and edit make one image,
    which is healthy and shows these lines. The image that is left is the edited one. Where phases is None, any will do that check
    says yes to."""
    words = words.split(" ") if isinstance(words, str) else list(words)
    image = command.image() if image is None else image
    lay(command, image)
    found = plan_of(command, *words)
    if phases is None:
        answer, err, status = command.run("check", plan_file(command, found))
        same(f"check of {' '.join(words)}: {answer}{err}", (answer[:4], status), ("yes ", 0))
    else:
        same(f"the phases of {' '.join(words)}", spelled(sectors_of(found)), phases)
        checks(command, found, f"yes {switch}")
    same("apply", command.run("apply", plan_file(command, found)), ("done\n", "", 0))
    applied = command.image()
    lay(command, image).edited(*words)
    same("what apply and edit write", command.image() == applied, True)
    if not isinstance(image, tuple):
        wanted = bytearray(image)
        for phase in found:
            for lba, content in phase:
                command.sectors.put(wanted, lba, content)
        same("what apply writes and what stands in the plan", applied == bytes(wanted), True)
    command.healthy()
    return command.shows(*lines) if lines is not None else command


def refused(command, why, words):
    """Both `edit` and `plan` refuse the words, and write nothing."""
    words = words.split(" ") if isinstance(words, str) else list(words)
    command.refused(why, *words)
    return command.gives(["plan", *words], "", f"refused: {why}\n", 3)


def both_copies(sectors, count, labels="", protects=False):
    """The phases of a table whose primary copy stands: new labels and the backup, the primary header closed, its array, the
    header; then sector 0 where it isn't protective."""
    array = sectors.array
    labels = f"{labels} " if labels else ""
    return f"{labels}{count - array - 1}-{count - 1} | 1 | 2-{array + 1} | 1{' | 0' if protects else ''}"


def primary_first(sectors, count, labels="", protects=False):
    """The phases where there is no primary copy: it is made first, beside new labels."""
    array = sectors.array
    labels = f" {labels}" if labels else ""
    return f"1 | 2-{array + 1}{labels} | 1 | {count - array - 1}-{count - 1}{' | 0' if protects else ''}"


def converted(sectors, count, labels=""):
    """The phases of an MBR disk that becomes a GPT: both copies and new labels, then sector 0."""
    array = sectors.array
    labels = f" {labels}" if labels else ""
    return f"1-{array + 1}{labels} {count - array - 1}-{count - 1} | 0"


def at(image, lba, first, last, sectors=SMALL):
    """Bytes first to last of a sector, as hexadecimal digits."""
    return bytes(image[lba * sectors.size + first:lba * sectors.size + last + 1]).hex(" ")


def record_at(image, lba, number, sectors=SMALL):
    """Record 1 to 4 of a sector 0 or of an extended boot record."""
    return at(image, lba, 430 + 16 * number, 445 + 16 * number, sectors)
