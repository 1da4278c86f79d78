"""Functions in the text of a Rattle file, and second ones beside them with the same contract, for tests/wrong_bodies.py."""
import glob
import re

# What a function's head has behind its result: clauses in braces, or its body's brace, or the end of a function without a body.
BEHIND_HEAD = re.compile(r"^\s*(?:requires|ensures|ghost)\b|\{|;\s*$", re.MULTILINE)
# The closing bracket of each.
CLOSING = {"(": ")", "<": ">", "{": "}", "[": "]"}
# The traits of std whose methods have wrong bodies.
OF_STD = {
    "From": "pub trait From<T> {\nghost from_gives: {};\nfn from(value: T) -> Self\nensures { from_gives value result };\n}\n",
    "Display": "ghost use Rattle.std.specs.Fmt.{DisplaysOnOk};\npub trait Display {\nghost output: {};\n"
               "fn fmt<W: Write>(&self, f: &mut Formatter<W>) -> Result\n"
               "ensures writes { DisplaysOnOk W.write_str_gives f.old result (output self.now) f.new };\n}\n",
    "Iterator": "pub trait Iterator {\nghost next_gives: {};\nfn next(&mut self) -> Option<Self::Item>\n"
                "ensures steps { next_gives self.old result self.new };\n}\n",
}


def end_of(text, at):
    """The place of the bracket that closes the one at this place."""
    opening, depth = text[at], 0
    for place in range(at, len(text)):
        # the arrow before a result closes nothing
        if text[place] == CLOSING[opening] and text[place - 1] not in "-=":
            depth -= 1
        elif text[place] == opening:
            depth += 1
        if depth == 0:
            return place
    return len(text)


def parts_of(text):
    """A list's items, at the commas that stand within no bracket."""
    parts, depth = [""], 0
    for at, letter in enumerate(text):
        depth += (letter in "(<{[") - (letter in ")>}]" and text[at - 1] not in "-=")
        if letter == "," and depth == 0:
            parts.append("")
        else:
            parts[-1] += letter
    return [it.strip() for it in parts if it.strip()]


def plain(name):
    """The name alone of a type or a trait."""
    return name.partition("<")[0].rpartition("::")[2].strip()


class Impl:
    """The impl in a text whose first word and braces stand at these places."""

    def __init__(self, text, start, brace):
        self.end = end_of(text, brace)
        after = end_of(text, start + len("impl")) + 1 if text[start + len("impl")] == "<" else start + len("impl")
        head, where, rest = text[after:brace].partition(" where ")
        trait, _, kind = head.rpartition(" for ")
        self.trait, self.type = trait.strip(), kind.strip()
        # how an impl of the type alone begins, and how a clause names this one
        self.alone = f"{text[start:after]} {self.type} {where}{rest}".rstrip()
        self.bracket = f"⟦<{self.type} as {self.trait}>⟧"


def impl_at(text, place):
    """The impl in which a place is. None outside of one."""
    for found in re.finditer(r"^impl\b", text, re.MULTILINE):
        brace = text.index("{", found.end())
        if brace < place < end_of(text, brace):
            return Impl(text, found.start(), brace)
    return None


class Function:
    """A function in a text: its name is what was found."""

    def __init__(self, text, found):
        self.name, at, self.generics, self.body = found[1], found.end(), "", None
        if text[at] == "<":
            end = end_of(text, at)
            self.generics, at = text[at + 1:end], end + 1
        end = end_of(text, at)
        self.parameters, at = parts_of(text[at + 1:end]), end + 1
        clauses, head_end = None, at
        while behind := BEHIND_HEAD.search(text, at):
            head_end = behind.start()
            if behind[0].strip() not in ("requires", "ensures", "ghost"):
                self.body = (head_end, end_of(text, head_end)) if behind[0] == "{" else None
                break
            clauses = clauses or head_end
            at = end_of(text, text.index("{", behind.end())) + 1
        # from its first line on, with what is said of its proof
        start = text.rfind("\n", 0, found.start()) + 1
        while start and text[:start - 1].rpartition("\n")[2].strip().startswith("#["):
            start = text.rfind("\n", 0, start - 1) + 1
        self.signature = text[start:clauses or head_end].rstrip()
        self.clauses = text[clauses:head_end].rstrip() if clauses else ""
        self.impl = impl_at(text, found.start())

    def names(self):
        """Its parameters."""
        return [it.removeprefix("mut ").partition(":")[0].split()[-1] for it in self.parameters]

    def call(self):
        """A call of it with its own parameters. A trait that is named by a path isn't imported, so its method is called by that path."""
        kinds = [it.removeprefix("const ").partition(":")[0].strip() for it in parts_of(self.generics) if it[0] != "'"]
        names = self.names()
        if self.impl and "::" in self.impl.trait:
            return f"{self.impl.trait}::{self.name}({', '.join(it.lstrip('&') for it in names)})"
        of = "self." if names[:1] == ["self"] or names[:1] == ["&self"] else "Self::" if self.impl else ""
        generics = f"::<{', '.join(kinds)}>" if kinds else ""
        return f"{of}{self.name}{generics}({', '.join(names[of == 'self.':])})"


def functions_in(text):
    return [Function(text, it) for it in re.finditer(r"\bfn (\w+)(?=[<(])", text)]


def named(function):
    """How a table names a function: `f`, `Type::f`, or `<Type as Trait>::f`."""
    if not function.impl:
        return function.name
    kind, trait = plain(function.impl.type), function.impl.trait
    return f"<{kind} as {trait}>::{function.name}" if trait else f"{kind}::{function.name}"


def function_of(text, path):
    """The function that a table names so. Of a trait its name is enough."""
    for function in functions_in(text):
        short = re.sub(r" as (\w+)<.*>>::", r" as \1>::", named(function))
        if function.body and path in (named(function), short):
            return function
    raise SystemExit(f"wrong_bodies.py: no function {path}")


def trait_text(trait, folders):
    """The text of the file that declares a trait."""
    if trait in OF_STD:
        return OF_STD[trait]
    for folder in folders:
        for file in glob.glob(f"{folder}/src/**/*.rt", recursive=True):
            with open(file, encoding="utf-8") as it:
                text = it.read()
            if re.search(rf"^pub trait {trait}\b", text, re.MULTILINE):
                return text
    raise SystemExit(f"wrong_bodies.py: no trait {trait}")


def ghosts_of(text):
    """What a file's items `ghost use` import: modules, and the names from each."""
    return re.findall(r"^ghost use ([\w.]+)\.\{(.*)\};$", text, re.MULTILINE)


def inherited(function, folders):
    """The clauses that a method of an impl has from its trait, said of the impl, and what they import."""
    text = trait_text(plain(function.impl.trait), folders)
    declared = next(it for it in functions_in(text) if it.name == function.name and not it.body)
    clauses = declared.clauses
    for was, now in zip(declared.names(), function.names()):
        clauses = re.sub(rf"(?<![\w.]){was}\b(?! \{{)", now, clauses) if was.isidentifier() and was != "self" else clauses
    for ghost in re.findall(r"^\s*ghost (\w+):", text, re.MULTILINE):
        clauses = re.sub(rf"(?<![\w.]){ghost}\b(?! \{{)", f"{function.impl.bracket}.{ghost}", clauses)
    return clauses, ghosts_of(text)


def with_imports(text, imports):
    """The text with what isn't imported yet: lines of `use`, and modules with names of specs."""
    had = {(module, name) for module, names in ghosts_of(text) for name in parts_of(names)}
    lines = [f"{it}\n" for it in imports if isinstance(it, str) and it not in text]
    for module, names in (it for it in imports if not isinstance(it, str)):
        new = [it for it in parts_of(names) if (module, it) not in had]
        lines += [f"ghost use {module}.{{{', '.join(new)}}};\n"] if new else []
    at = re.search(r"^(?:ghost )?use ", text, re.MULTILINE)
    return text[:at.start()] + "".join(lines) + text[at.start():] if at and lines else text


def second(text, body, folders):
    """The text with a function of this body besides. One without a text calls the function."""
    function = function_of(text, body.of)
    clauses, imports = function.clauses, body.uses
    if function.impl and function.impl.trait and not clauses:
        clauses, more = inherited(function, folders)
        imports = [*imports, *more]
    signature = re.sub(rf"\bfn {function.name}\b", f"fn {body.name}", function.signature, count=1)
    made = f"\n\n{signature}\n{clauses}\n{{\n{body.text or function.call()}\n}}\n"
    at = function.body[1] + 1
    if function.impl and function.impl.trait:
        made, at = f"\n\n{function.impl.alone} {{{made}}}\n", function.impl.end + 1
    return with_imports(text[:at] + made + text[at:], imports)
