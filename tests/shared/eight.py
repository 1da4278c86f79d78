"""What all eight commands answer on one image, sound, unsound or without a table."""
import os
from concurrent.futures import ProcessPoolExecutor

from command import Command
from doubles import Doubles
from images import room
from plans import checks, lay, plan_file, same


def stands(command, image, lines, finding=None, place=None):
    """An image with a table: show, verify, locate of partition 1's first sector, and check and apply of the empty plan."""
    lay(command, image).shows(*lines)
    command.healthy() if finding is None else command.unhealthy(finding)
    command.nowhere("1", 0) if place is None else command.located("1", 0, place)
    checks(command, [], "yes 0" if finding is None else f"no 8 {finding.split(' ')[0]}")
    if finding is None:
        before = command.image()
        command.gives(["apply", plan_file(command, [])], "done\n")
        same("an image after the empty plan", command.image() == before, True)
    return command


def nothing(command, image, why):
    """An image without a table: all eight commands."""
    lay(command, image).no_table(why)
    for words in (["locate", "1", "0"], ["edit", "c:1:x"], ["plan", "c:1:x"], ["plan", "a:1"], ["repair"]):
        command.gives(words, "", f"no table: {why}\n", 4)
    return checks(command, [], "no 8 1")


def repaired(command, image, left):
    """A repair leaves that image, which is healthy and shows the same partitions; a second one changes nothing."""
    shown = lay(command, image).run("show")
    for _ in range(2):
        same("repair", command.run("repair"), ("done\n", "", 0))
        same("a repaired image", command.image() == bytes(left), True)
    same("what a repaired image shows", command.run("show"), shown)
    return command.healthy()


def not_repaired(command, image):
    """A repair is refused, and writes nothing."""
    return lay(command, image).gives(["repair"], "", "refused: repair 2\n", 3)


def run(rows, ptab, doubles):
    """How many answers were compared, with what the rows say and with the plain versions'."""
    Command.checked = 0
    Command.doubles = Doubles(doubles) if doubles else None
    with room() as folder:
        rows(Command(ptab, f"{folder}/image"))
    return Command.checked, Command.doubles.checked if doubles else 0


def run_all(name, rows, ptab, doubles=None):
    """Runs the functions beside each other, and prints how many answers were compared."""
    with ProcessPoolExecutor() as pool:
        done = [pool.submit(run, it, os.path.abspath(ptab), doubles) for it in rows]
        passed, beside = (sum(it) for it in zip(*(it.result() for it in done)))
    print(f"{name}: {passed} passed, 0 failed" + (f"; {beside} answers as plain versions give them" if doubles else ""))
