#!/usr/bin/env python3
"""What a reader has to believe. Each definition in specs/ must be reached by a contract: in specs/ itself by a public one, in specs/inner/
by a private one. No lemma stands there, but for those in specs/inner/ForFields.antt, which a ghost field of an impl is given. Then for each
call by which the library is known: how many definitions its contract reaches, in how many lines and files. docs/promises.md must say so.

usage: tests/docs/meaning.py [--files] [--write] [CRATE CALL]..     --files lists the files; --write puts the table into docs/promises.md

It goes by names and imports. A type that is declared in src/ counts for nothing, and so does what the library std defines.
"""
import collections
import glob
import os
import re
import sys

ROOT = os.path.dirname(os.path.dirname(os.path.dirname(os.path.abspath(__file__))))
HEADLINES = [("pt_recover", "recover"), ("pt_layout", "verify"), ("pt_edit", "edit"), ("pt_check", "check"), ("pt_plan", "commit"),
             ("pt_plan", "repair"), ("pt_plan", "commit_like"), ("pt_plan", "session")]
GIVEN = "specs/inner/ForFields.antt"
PART = r"[^\s(){}\[\]:,;.λ↦|]+"
WORD = re.compile(rf"{PART}(?:\.{PART})*")
ITEM = re.compile(r"^(?P<indent> *)(?P<words>(?:(?:abbrev|unfoldable|pub|data|record) )*)(?P<name>[^\s(){}:.,;]+)(?: :|\s+[({]|\s+:)")
USE = re.compile(r"^(?:pub )?use ([\w.«»]+?)(?:\.\{([^}]*)\}| as (\S+))?$")
GHOST_USE = re.compile(r"^\s*(?:pub )?ghost use ([\w.«»]+?)(?:\.\{([^}]*)\}| as (\w+))?;$")
Key = collections.namedtuple("Key", "module name")


class Definition:
    """An item of specs/, with the heads of the blocks of parameters that it stands in."""

    def __init__(self, file, words, name, blocks):
        self.file, self.words, self.name, self.blocks, self.lines, self.cases = file, words, name, blocks, [], []

    def text(self):
        return "\n".join(re.sub(r"(^|\s)--.*", "", line) for line in [*self.blocks, *self.lines])

    def is_lemma(self):
        """A declaration that no prover unfolds says nothing but its type, so it is a proof."""
        return not {"abbrev", "unfoldable", "data", "record"} & set(self.words.split())


def imports(lines, form):
    """What each name of a file stands for: a module and a name there; of a module's own name the name is None."""
    found = {}
    for line in lines:
        if it := form.match(line):
            module, names, alias = it.groups()
            for name in split(names):
                there, _, here = name.partition(" as ")
                found[here or there] = Key(module, there)
            if names is None:
                found[alias or module.split(".")[-1]] = Key(module, None)
    return found


def split(names):
    return [it.strip() for it in (names or "").split(",") if it.strip()]


def items_of(file):
    """The items of a file of specs/ in order. Blocks are told by their indent, as `rt fmt` lays them out."""
    found, blocks, item, head = [], [], None, None
    for line in open(file, encoding="utf-8").read().split("\n"):
        indent, bare = len(line) - len(line.lstrip()), line.strip()
        if head is not None or bare.startswith("module _"):
            head = (head or []) + [bare]
            if head[0] is bare:
                blocks = [it for it in blocks if it[0] < indent]
            if bare.endswith("where"):
                blocks.append((indent if len(head) == 1 else blocks_at, " ".join(head)))
                head, item = None, None
            elif len(head) == 1:
                blocks_at = indent
            continue
        if not bare or bare.startswith("--") or USE.match(line):
            continue
        if not bare.startswith(("}", ")", "]")):
            blocks = [it for it in blocks if it[0] < indent]
        level = blocks[-1][0] + 2 if blocks else 0
        is_head = indent == level and not bare.startswith(("unfolding ", "}", ")", "]")) and (it := ITEM.match(line))
        if is_head and not (item and re.match(rf"{re.escape(item.name)}(?! :)", bare) and not it["words"]):
            item = Definition(file, it["words"], it["name"], [text for _, text in blocks])
            found.append(item)
        if item:
            item.lines.append(line)
            if "data" in item.words.split() and indent == level + 2 and (case := re.match(rf"({PART}) :", bare)):
                item.cases.append(case[1])
    return found


def module_of(file):
    crate, rest = file.split("/", 2)[1:]
    return f"Rattle.{crate}." + rest.removesuffix(".antt").replace("/", ".")


class Definitions:
    """All of specs/, and what each item of it names."""

    def __init__(self):
        self.items, self.names, self.owner = {}, {}, {}
        for file in glob.glob("crates/*/specs/**/*.antt", recursive=True):
            module = module_of(file)
            self.names[module] = imports(open(file, encoding="utf-8").read().split("\n"), USE)
            for item in items_of(file):
                self.items[Key(module, item.name)] = item
                for case in item.cases:
                    self.owner[Key(module, case)] = Key(module, item.name)

    def meant(self, text, names, module=None):
        """The items that a text names. A name that the text binds itself is none."""
        bound = {it for group in re.findall(r"[({]([^(){}:]*?) : ", text) for it in group.split()}
        bound |= {it for group in re.findall(r"λ ([^.]*)\.", text) for it in re.findall(r"[^\s(){}:]+", group)}
        found = set()
        words = set(WORD.findall(text))
        # `do` binds by the operator that is in scope
        words |= {"◌>>=◌"} if {"do", ">>="} & words else set()
        for word in words:
            first, *rest = word.split(".")
            key = names.get(first) or (Key(module, first) if module and first not in bound else None)
            if key and key.name is None:
                key = Key(key.module, rest[0]) if rest else None
            key = self.owner.get(key, key)
            if key in self.items:
                found.add(key)
        return found

    def reached(self, seeds):
        seen, left = set(), list(seeds)
        while left:
            key = left.pop()
            if key not in seen:
                seen.add(key)
                left += self.meant(self.items[key].text(), self.names[key.module], key.module)
        return seen


def shown_by(crate):
    """The modules and the names that a crate shows."""
    root = next((it for it in (f"crates/{crate}/src/lib.rt", f"crates/{crate}/src/main.rt") if os.path.exists(it)), None)
    text = open(root, encoding="utf-8").read() if root else ""
    names = {it.split(" as ")[0].strip() for body in re.findall(r"^pub use [\w:]+?::\{?([\w\s,:]+)\}?;", text, re.MULTILINE)
             for it in body.split(",")}
    return set(re.findall(r"^pub mod (\w+);", text, re.MULTILINE)), {it.split("::")[-1] for it in names}


def contracts_of(file):
    """The heads of a file's functions, each with its name and whether it may be public; all else that isn't code, without a name."""
    found, rest, lines = [], [], open(file, encoding="utf-8").read().split("\n")
    at = 0
    while at < len(lines):
        line = lines[at]
        if GHOST_USE.match(line) or line.strip().startswith(("//", "#[", "use ", "pub use ")):
            at += 1
        elif it := re.match(r"^(\s*)(pub(?:\([^)]*\))? )?(?:const )?(?:extern \"C\" )?fn (\w+)", line):
            end = at
            while not re.match(rf"^{it[1]}(\{{|\{{\}}|\).*\{{|.*;)$", lines[end]) and not lines[end].rstrip().endswith((" {", "{}", ";")) \
                    or (lines[end].strip() not in ("{", "{}") and re.match(r"^\s*(ensures|requires) .*[^;]$", lines[end])):
                end += 1
            found.append((it[3], it[2] != "pub(crate) " and (it[2] or it[1]), "\n".join(lines[at:end + 1])))
            at = end + 1
        else:
            rest.append(line)
            at += 1
    return found, "\n".join(rest)


def seeds(known):
    """What public contracts name, and what any contract or ghost field names."""
    public, every = set(), set()
    for file in glob.glob("crates/*/src/**/*.rt", recursive=True):
        crate = file.split("/")[1]
        modules, shown = shown_by(crate)
        names = imports(open(file, encoding="utf-8").read().split("\n"), GHOST_USE)
        heads, rest = contracts_of(file)
        is_shown = file.split("/")[3].removesuffix(".rt") in modules | {"lib", "main"}
        every |= known.meant(rest, names)
        public |= known.meant(rest, names)
        for name, may_be_public, text in heads:
            meant = known.meant(text, names)
            every |= meant
            if may_be_public and (is_shown or name in shown or text.startswith(" ")):
                public |= meant
    return public, every


def rules(known):
    """What stands in specs/ and shouldn't."""
    public, every = map(known.reached, seeds(known))
    for key, item in sorted(known.items.items()):
        place = item.file.split("/", 2)[2]
        if item.is_lemma() and place != GIVEN:
            yield f"{item.file}: {item.name} is a lemma: it belongs in proofs/"
        elif key not in every and place != GIVEN:
            yield f"{item.file}: no contract names {item.name}: it belongs in proofs/"
        elif key not in public and not place.startswith("specs/inner/"):
            yield f"{item.file}: only private contracts name {item.name}: it belongs in specs/inner/"


def meaning(known, crate, call):
    """The definitions that a call's contract reaches."""
    for file in glob.glob(f"crates/{crate}/src/**/*.rt", recursive=True):
        for name, may_be_public, text in contracts_of(file)[0]:
            if name == call and may_be_public:
                return known.reached(known.meant(text, imports(open(file, encoding="utf-8").read().split("\n"), GHOST_USE)))
    sys.exit(f"meaning: {crate} has no public function {call}")


def main(words):
    os.chdir(ROOT)
    known = Definitions()
    wrong = list(rules(known))
    asked = [it for it in words if not it.startswith("--")]
    rows = ["| The contract of | reaches definitions | in lines | of files |", "|---|---|---|---|"]
    for crate, call in zip(asked[::2], asked[1::2]) if asked else HEADLINES:
        found = meaning(known, crate, call)
        lines = collections.Counter()
        for key in found:
            lines[known.items[key].file] += len(known.items[key].lines)
        rows.append(f"| `{call}` of {crate} | {len(found)} | {sum(lines.values())} | {len(lines)} |")
        if "--files" in words:
            print(f"{crate}::{call}", *(f"  {count:4} {file}" for file, count in sorted(lines.items())), sep="\n")
    print(*rows, sep="\n")
    page = open("docs/promises.md", encoding="utf-8").read()
    table = re.compile(r"\| The contract of \|.*?(?=\n\n|\Z)", re.DOTALL)
    if "--write" in words:
        with open("docs/promises.md", "w", encoding="utf-8") as it:
            it.write(table.sub(lambda _: "\n".join(rows), page))
    elif not asked and "\n".join(rows) not in page:
        wrong.append("docs/promises.md has another table: tests/docs/meaning.py --write")
    print(*(f"meaning: {it}" for it in wrong), sep="\n", end="\n" if wrong else "")
    print(f"meaning: {len(known.items)} definitions, {len(wrong)} failed")
    sys.exit(1 if wrong else 0)


if __name__ == "__main__":
    main(sys.argv[1:])
