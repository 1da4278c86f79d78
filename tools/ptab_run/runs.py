"""A run: the tool works on its copy, and the image gets the table that it made there."""
import collections
import os

from .copies import copy_of, differences, is_same, keep
from .disks import unreadable
from .ends import FAILED, REFUSED, SIGNALS, WRITTEN, End, hold_signals, let_signals, print_out, say
from .folders import no_room, reason_in
from .lost import FILE_SYSTEM, SIGNATURE, Lost
from .programs import at_place, is_ptab, ptab, run_tool
from .tables import advice, file_system, in_words, is_blank

# What is copied at both ends for a tool: it looks for other tables and for signatures as well.
ENDS = 1 << 20
REASONS = {
    "refused: plan 1": "the table can't turn in one write: do it in steps, each a run",
    "refused: plan 2": "a sector that a partition owns now would have to be written: delete in one run, and make in the next",
    "refused: plan 3": "a label can change only on a whole table: run ptab repair first",
    "refused: plan 4": "the table that the tool made isn't sound, or keeps a foreign label: ptab verify says what is wrong",
    "refused: data table": "data for a sector of the old table: change the table in one run, and write the data in the next",
    "refused: data new-table": "data for a sector of the new table",
    "refused: data read": "data for a sector that the old table is read from: change the table first",
}
# A way to give the image the tool's table: steps, each the command of ptab and the file that it takes; the copy on which they were tried;
# the status, and what was said where that isn't 0; else what is lost by it, and whether it changes anything.
Way = collections.namedtuple("Way", "steps made status said lost changes")


class Run:
    """The image and its copies: as it was, the tool's, and one on which each way is tried first."""

    def __init__(self, image, folder, options):
        self.path, self.sector, self.image, self.folder, self.options = image.path, image.sector, image, folder, options
        self.base, self.done, self.plan, self.runs = (f"{folder}/{name}" for name in ("base", "done", "plan", "runs"))
        # what the old table prints, the ranges of bytes that the program wrote, and its data
        self.shown, self.written, self.data = "", [], None
        os.mkdir(f"{folder}/copy")
        # by this name the tool's messages speak of it
        self.tool = f"{folder}/copy/{os.path.basename(self.path)}"

    def tell(self, line):
        if not self.options["quiet"]:
            say(line)

    def copy_to(self, path):
        try:
            new = os.open(path, os.O_RDWR | os.O_CREAT | os.O_TRUNC | os.O_CLOEXEC, 0o600)
            try:
                copy_of(self.image, new, ENDS // self.sector)
            finally:
                os.close(new)
        except OSError as error:
            raise no_room(self.path, os.path.dirname(self.folder), error.strerror) from error

    def begin(self):
        """Makes the copies. An image without a table that can be read must be blank: else nothing can be promised for what is there."""
        status, _, said = shown = self.image.ptab("show")
        if status not in (0, 4):
            raise End(FAILED, f"{self.path}: {said}{unreadable(self.image)}")
        if status == 4 and not is_blank(self.image):
            raise End(REFUSED, f"{self.path} has no table that ptab reads ({said}), but isn't blank: a stop might leave nothing of what is "
                      f"there. What to do: {advice(self.image, said)}")
        for copy in (self.base, self.tool):
            self.copy_to(copy)
        if ptab("show", self.sector, self.base) != shown:
            raise End(FAILED, f"{self.path}: its copy doesn't show its table")
        self.shown = shown[1]
        is_empty = shown[1].startswith("mbr ") and shown[1].count("\n") == 1
        self.file_system = file_system(self.image.read(0)) if is_empty else None

    def is_changed(self):
        """Whether the tool changed its copy. The image must be as it was."""
        try:
            if self.options["data"]:
                from .data import blocks_of
                with open(self.tool, "rb") as it:
                    self.written = blocks_of(it.fileno())
            keep(self.tool, f"{self.folder}/kept")
        except OSError as error:
            raise no_room(self.path, os.path.dirname(self.folder), error.strerror) from error
        # what the tool left at work goes on with the other one
        self.tool = f"{self.folder}/kept"
        if os.path.getsize(self.tool) != self.image.bytes:
            raise End(REFUSED, f"{self.path} isn't touched: the tool changed the length of its copy")
        self.image.sync()
        self.copy_to(self.done)
        if not is_same(self.base, self.done, self.sector):
            raise End(REFUSED, f"{self.path} was changed meanwhile, and not by this run")
        return not is_same(self.base, self.tool, self.sector)

    def told(self, command):
        """What this command of ptab is told besides."""
        is_by_table = self.options["by-table"] and command == "adopt" and self.kind(self.tool) == "gpt"
        return ["--by-table"] if is_by_table else []

    def tried(self, command, file, before=None):
        """What comes of a command, on a copy, or on what came of another one."""
        made = f"{self.done}-{command}"
        if before:
            keep(before.made, made)
        else:
            self.copy_to(made)
        status, out, said = ptab(command, self.sector, "--no-lock", *self.told(command), made, file)
        if status not in (0, 1, 2, 3, 4) and not said.startswith("other: "):
            raise no_room(self.path, os.path.dirname(self.folder), reason_in(self.folder) or said)
        lost = None if status else Lost(self.base, self.tool, made, self.sector)
        if lost and self.file_system:
            lost.heavy.add(f"{FILE_SYSTEM} ({self.file_system})")
        steps = [*(before.steps if before else []), (command, file)]
        return Way(steps, made, status, said or out.strip(), lost, not is_same(self.base, made, self.sector))

    def run_tool(self, words):
        """Runs the tool on its copy: on a file, or on a device where a device's sectors have 4096 bytes, since no file has them. ptab is
        told how many a file's have."""
        told = ["--sector-size", str(self.sector)] if self.sector != 512 else []
        if self.options["as-itself"]:
            return self.run_as_itself(words, told)
        if self.image.device and told and not (is_ptab(words[0]) and "--device" not in words):
            from .loops import Loop
            with Loop(self.tool, self.sector) as place:
                return run_tool(at_place(words, place), self.options["plan"], ["--device"])
        if told and is_ptab(words[0]) and len(words) > 1 and not any(it.startswith(told[0]) for it in words):
            words = [*words[:2], *told, *words[2:]]
        return run_tool(at_place(words, self.tool), self.options["plan"], told)

    def run_as_itself(self, words, told):
        """Runs the program where the copy stands under the image's own path; a device's is a device, with its partitions."""
        if self.image.device:
            from .loops import Loop
            from .namespaces import nodes
            with Loop(self.tool, self.sector) as loop:
                return self.run_there(words, nodes(self.image, loop), ["--device"])
        return self.run_there(words, [(self.tool, os.path.realpath(self.path))], told)

    def run_there(self, words, places, told):
        from .namespaces import in_namespace, no_place
        began = f"{self.folder}/began"
        status = run_tool(in_namespace(self.options["way in"], places, began, words), self.options["plan"], told)
        if not os.path.exists(began):
            raise no_place(self.path, "mount failed")
        return status

    def kind(self, path):
        """`gpt`, `mbr` or none."""
        return ptab("show", self.sector, path)[1].partition(" ")[0]

    def write_signed_plan(self, before):
        """The plan of `ptab adopt` with the disk signature that the tool wrote, which no layout carries: in the write of sector 0, or where
        there is none in one more, behind the others. The checker knows whether it is safe. Where `ptab adopt` has come before, that write
        is all."""
        out = "" if before else ptab("adopt", self.sector, "--plan", *self.told("adopt"), self.base, self.tool)[1]
        lines = out.splitlines()
        at = next((k for k, line in enumerate(lines) if line.startswith("W 0 ")), None)
        if at is None:
            at = len(lines)
            lines += [f"W 0 {self.sector_0(before.made if before else self.base).hex()}", "F"]
        head = bytes.fromhex(lines[at][4:])
        lines[at] = f"W 0 {(head[:440] + self.sector_0(self.tool)[440:446] + head[446:]).hex()}"
        with open(self.plan, "w", encoding="ascii") as plan:
            plan.writelines(f"{line}\n" for line in lines)

    def sector_0(self, path):
        with open(path, "rb") as it:
            return it.read(self.sector)

    def way(self):
        """How the image gets the tool's table: `ptab adopt`, or where that loses the disk signature of an MBR its plan with that. Data goes
        with `ptab adopt`, and then the signature comes in a step of its own."""
        way = self.tried("adopt", self.tool)
        if way.status:
            raise refusal(self.path, way.status, way.said)
        if self.options["data"] or way.lost.data:
            from .data import Data
            self.data = Data(self.image, self.shown, way.lost)
        if self.options["data"]:
            new = ptab("show", self.sector, self.tool)[1]
            self.data.add_zeros(self.tool, self.written, new, ENDS // self.sector, self.options["data-limit"])
        if SIGNATURE in way.lost.heavy:
            before = way if self.options["data"] and self.data.runs else None
            self.write_signed_plan(before)
            signed = self.tried("apply", self.plan, before)
            way = way if signed.status else signed
        return way

    def lost(self, way):
        """What isn't taken over, and how the run goes on."""
        is_carried, data = self.options["data"], self.data
        runs = data.owned if is_carried else way.lost.data
        lost = way.lost.heavy | ({f"data in sectors {in_words(runs)}"} if runs else set())
        other = "--data carries the data over, " if runs and not is_carried and data.is_free() else ""
        return ", ".join(sorted(lost)), f"{other}--lossy goes on without that"

    def show_plan(self, way):
        (command, file), = way.steps
        if command == "apply":
            status, out, said = self.image.ptab("check", file)
        else:
            status, out, said = self.image.ptab(command, file, how=[*self.image.how, *self.told(command), "--plan"])
        if status not in (0, 1, 2, 3, 4):
            raise End(FAILED, f"{self.path}: {said}{unreadable(self.image)}")
        if status:
            raise refusal(self.path, status, said or out.strip())
        if command == "apply":
            with open(file, encoding="ascii") as plan:
                out = plan.read()
        print_out(out)

    def write(self, way):
        """Writes the image. Signals wait until that is done, and don't end ptab."""
        hold_signals()
        with self.image.by_sectors():
            for command, file in way.steps:
                self.step(command, file)
        self.look_back(way)
        self.tell("done")
        let_signals()

    def step(self, command, file):
        """One step of the way. On a terminal it is shown how far the data is."""
        how, watch, end = [*self.image.to_write, *self.told(command)], None, lambda: None
        if self.options["data"] and command == "adopt" and self.data.runs:
            from .progress import Progress
            progress = Progress(self.data.bytes(), self.options["quiet"])
            self.data.write_to(self.runs)
            how, watch, end = [*how, "--data", self.runs], progress.look, progress.end
        status, out, said = self.image.ptab(command, file, how=how, ignored=SIGNALS, watch=watch)
        end()
        said = (said or out.strip()) + (unreadable(self.image) if status == 5 else "")
        if status and self.image.fate == WRITTEN:
            raise End(FAILED, f"{self.path} has the new table and the data, but not {SIGNATURE}: {said}")
        if status:
            raise refusal(self.path, status, said)
        self.image.fate = WRITTEN

    def look_back(self, way):
        """Reads what was written from where it was written to, and tells the kernel of a device's partitions."""
        self.image.drop_cache()
        is_carried = not self.options["data"] or self.data.is_there(self.tool)
        if not is_carried or any(self.image.read(lba) != now for lba, (_, now) in differences((self.base, way.made), self.sector)):
            raise End(FAILED, f"{self.path} was written, and reads otherwise: does another program write it?")
        if self.image.device:
            from .kernel import tell_kernel
            tell_kernel(self.image, ptab("show", self.sector, self.tool)[1].count("\n") > 1)
        elif not (os.path.exists(self.path) and os.path.samefile(self.path, self.image.file)):
            say(f"{self.path} is another file by now: the one that it was has the new table")


def refusal(path, status, said):
    """The end of a run that ptab refused."""
    if status not in (1, 2, 3, 4) and not said.startswith("other: "):
        return End(FAILED, f"{path}: {said}; where it was being written it has the old table or the new one: ptab show prints which")
    reason = next((text for key, text in REASONS.items() if said == key or said.startswith(f"{key} ")), None)
    if said.startswith("other: no table"):
        reason = "the tool left no table that ptab reads"
    return End(REFUSED, f"{path} isn't touched: {said}{f' ({reason})' if reason else ''}")


def run(options, image, words, folder):
    """The exit status."""
    it, path = Run(image, folder, options), image.path
    it.begin()
    status = it.run_tool(words)
    if status:
        it.tell(f"{words[0]} ended with status {status}: {path} isn't touched")
        return status
    is_changed = it.is_changed()
    # zeros over what the copy doesn't have are no change of it
    way = it.way() if is_changed or options["data"] else None
    has_data = bool(it.data and options["data"] and it.data.runs)
    if not is_changed and not has_data:
        it.tell(f"{words[0]} changed nothing")
        return 0
    lost, hint = it.lost(way)
    if lost:
        say(f"not taken over: {lost}")
        if not options["lossy"]:
            raise End(REFUSED, f"{path} isn't touched; {hint}")
    if not way.changes and not has_data:
        light = sorted(way.lost.light)
        it.tell(f"{path} has this table: nothing to do{' (harmless, and not taken over: ' + ', '.join(light) + ')' if light else ''}")
    elif options["plan"]:
        it.show_plan(way)
    else:
        it.write(way)
    return 0
