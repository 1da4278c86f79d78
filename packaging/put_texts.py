#!/usr/bin/env python3
"""Writes what docs/texts.toml says of the texts that `ptab` prints to where users read it: the tables of docs/commands.md and docs/c.md,
EXIT STATUS and DIAGNOSTICS of man/ptab.8, the rows of --help in crates/pt_line/src/help.rt, and bindings/c/ptab_disk_texts.h. Then it says
where the errors of the crates have another sentence or number than that file, or where one has no text there.

usage: packaging/put_texts.py [--check]     with --check it writes nothing, and fails where a file isn't what it would write
"""
import os
import re
import sys
import textwrap
import tomllib

ROOT = os.path.dirname(os.path.dirname(os.path.abspath(__file__)))
COMMANDS, MAN, C_DOCS, C_TEXTS, HELP = ("docs/commands.md", "man/ptab.8", "docs/c.md", "bindings/c/ptab_disk_texts.h",
                                        "crates/pt_line/src/help.rt")
KEYS = "crates/pt_drafts/src/fault.rt"
# arguments of the command, which the man page has in italics
ARGUMENTS = ("COPY", "FILE", "HEX", "IMAGE", "K", "OTHER", "PATH", "PLANFILE", "TABLE", "WORD")
# how the man page spells
SPELLED = (("isn't", "is not"), ("aren't", "are not"), ("doesn't", "does not"), ("don't", "do not"), ("can't", "cannot"))
# a page of --help: its width, where a sentence begins, and where one behind a text of one digit does
WIDTH, AT, AT_DIGIT = 80, 26, 5
# what errors say of a device, of memory and of what they wrap, of which the documents speak in other words
OTHERWISE = ("can't be read", "out of memory", "the plan is refused")
FROM = "packaging/put_texts.py writes this from docs/texts.toml"
# what docs/texts.toml may say of a group, and of a text or a case within it
OF_GROUP = {"table", "man", "intro", "pages", "status", "list", "arguments", "text"}
OF_TEXT = {"text", "status", "sentence", "help", "more", "do", "variant", "also", "number", "list", "c", "case"}


def read(path):
    with open(f"{ROOT}/{path}", encoding="utf-8") as it:
        return it.read()


def flat(text):
    return re.sub(r"\s+", " ", text)


# docs/texts.toml


class Text:
    """A text with what its group says of it."""

    def __init__(self, group, own):
        said = {**group, **own}
        self.table, self.man, self.pages = group.get("table"), group.get("man"), group.get("pages", [])
        self.text, self.status, self.list = own.get("text"), said.get("status"), said.get("list")
        self.sentence, self.help, self.more, self.do, self.c = (flat(own.get(key, "")) for key in ("sentence", "help", "more", "do", "c"))
        self.also, self.variant = own.get("also", []), own.get("variant")
        self.cases = [Text({"list": self.list}, case) for case in own.get("case", [])]
        digits = re.search(r"\d+", self.text or "")
        self.printed = int(digits[0]) if digits else own.get("number")
        self.number = own.get("number", self.printed)
        self.arguments = group.get("arguments", ["a", "b"])

    def names(self):
        """What stands for values, in the order of the text."""
        return re.findall(r"\b[A-Z]+\b", self.text or "")

    def on_page(self):
        """What --help says of it."""
        cases = ", ".join(case.sentence for case in self.cases)
        return re.sub(r"`(--[a-z-]+)`", r"\1", self.sentence + (f": {cases}" if cases else "") + self.help)

    def told(self, side):
        """What docs/commands.md (0) or the man page (1) says of it."""
        cases = ", ".join(case.sentence + case.more for case in self.cases)
        return chosen(self.sentence + (f": {cases}" if cases else "") + self.help + self.more, side)

    def in_c(self):
        sentence = self.sentence
        for name, argument in zip([it for it in self.names() if re.search(rf"\b{it}\b", sentence)], self.arguments):
            sentence = re.sub(rf"\b{name}\b", f"{{{argument}}}", sentence)
        return sentence + self.c


def chosen(text, side):
    return re.sub(r"\{([^{}|]*)\|([^{}|]*)\}", lambda it: it[1 + side], text)


def loaded():
    """The file, with a list of texts for each group, and all of them."""
    with open(f"{ROOT}/docs/texts.toml", "rb") as it:
        said = tomllib.load(it)
    said["groups"] = [[Text(group, own) for own in group["text"]] for group in said["group"]]
    said["statuses"] = [Text({"table": "statuses"}, own) for own in said["status"]]
    return said, [text for texts in said["groups"] for text in texts]


def misread(said):
    """What of the file nobody reads."""
    for group in said["group"]:
        if group.get("table") not in said["tables"]:
            yield f"docs/texts.toml has a group whose table isn't under [tables]: {group.get('table')}"
        texts = [*group["text"], *(case for text in group["text"] for case in text.get("case", []))]
        for key in (set(group) - OF_GROUP) | {key for text in texts for key in set(text) - OF_TEXT}:
            yield f"docs/texts.toml has a name that its head doesn't have: {key}"


# docs/commands.md


def cell(text):
    """A text as the first column has it."""
    return f"`{text.text}`" if text.pages and not text.text.isdigit() else text.text


def row(text, columns):
    whole = {"Status": str(text.status), "Meaning": text.told(0), "What is wrong with the copy": text.told(0),
             "What to do": chosen(text.do, 0)}
    if text.table == "statuses" and text.text:
        whole["Meaning"] = f"`{text.text}`: {whole['Meaning']}"
    cells = [whole.get(column) if column in whole else cell(text) for column in columns]
    return f"| {' | '.join(cells)} |".replace("|  |", "| |")


def put_tables(document, said, texts):
    """The document with each table of [tables] made anew."""
    for name, (section, head) in said["tables"].items():
        columns = head.split(" | ")
        rows = [row(text, columns) for text in (*said["statuses"], *texts) if text.table == name and (text.text or name == "statuses")]
        made = "\n".join([f"| {head} |", "|" + "---|" * len(columns), *rows])
        begin = document.index(f"\n## {section}\n") if section else 0
        found = re.compile(rf"^\| {re.escape(head)} \|$(?:\n\|.*$)*", re.MULTILINE).search(document, begin)
        if not found or "\n## " in document[begin + 1:found.start()] and section:
            sys.exit(f"{COMMANDS} has no table under {section or 'its title'} with the heads {head}")
        document = document[:found.start()] + made + document[found.end():]
    return document


# man/ptab.8


def escaped(text):
    return text.replace("\\", "\\e").replace("-", "\\-")


def roff(text, names=()):
    """A text of this file in the man page's language."""
    text = re.sub(r"\[([^]]*)\]\((\w+\.md)[^)]*\)", r"docs/\2", text.replace("**", ""))
    parts = []
    for place, part in enumerate(text.split("`")):
        if place % 2 == 0:
            for short, whole in SPELLED:
                part = part.replace(short, whole)
            part = re.sub(rf"\b({'|'.join((*ARGUMENTS, *names))})\b", r"\\fI\1\\fR", escaped(part).replace("\\-", "\0"))
        else:
            part = f"\\fB{escaped(part)}\\fR".replace("\\-", "\0")
        parts.append(part)
    return "".join(parts).replace("\0", "\\-")


def sentences(*parts, names=()):
    """Lines of the page: each part is a sentence or more, and begins with a capital letter."""
    lines = []
    for part in filter(None, parts):
        part = part[0].upper() + part[1:] + ("" if part[-1] in ".:" else ".")
        for sentence in re.split(r"(?<=[^.]\.) ", roff(part, names)):
            lines += textwrap.wrap(sentence, 130, break_long_words=False, break_on_hyphens=False)
    return [rf"\&{line}" if line[0] in ".'" else line for line in lines]


def paragraph(tag, text, *parts):
    return [".TP", f".B {escaped(tag)}", *sentences(*parts, names=text.names())]


def exit_status(said):
    lines = []
    for text in said["statuses"]:
        told = text.told(1)
        parts = (f"`{text.text}`: {told}",) if text.text else (told, chosen(text.do, 1))
        lines += paragraph(str(text.status), text, *parts)
    return lines


def diagnostics(said):
    """Each group below its heading, in the order in which the headings come."""
    headings, under = {}, None
    for group, texts in zip(said["group"], said["groups"]):
        if not group.get("pages"):
            continue
        under = group.get("man", under)
        lines = headings.setdefault(under, [f".SS {escaped(under)}", *sentences(group.get("intro"))])
        if (texts[0].text or "").isdigit():
            lines += [".PP", ".nf", *(rf"\fB{text.text}\fR  {roff(text.told(1))}" for text in texts), ".fi"]
            continue
        for text in texts:
            if text.text:
                lines += paragraph(text.text, text, text.told(1), chosen(text.do, 1))
    faults = [text for text in said["statuses"] if text.text]
    lines = [f".SS Faults of all commands (status {' and '.join(str(text.status) for text in faults)})"]
    for text in faults:
        lines += paragraph(text.text, text, text.told(1), chosen(text.do, 1))
    return [line for each in (*headings.values(), lines) for line in each]


def put_man(page, said):
    def put(page, begin, end, lines):
        start = page.index(begin) + len(begin)
        return page[:start] + "\n".join(lines) + "\n" + page[page.index(end, start):]
    mark = f'.\\" {FROM}.'
    page = put(page, "\n.SH EXIT STATUS\n", ".SH DIAGNOSTICS\n", [mark, *exit_status(said)])
    intro = page[page.index("\n.SH DIAGNOSTICS\n"):]
    intro = intro[:re.search(r"^\.(SS|\\\")", intro, re.MULTILINE).start()]
    return put(page, intro, ".SH EXAMPLES\n", [mark, *diagnostics(said)])


# the library for C


def in_docs(sentence, kinds):
    """A sentence of C as docs/c.md shows it, or several where it has kinds in it."""
    if "{k}" in sentence:
        return ", ".join(f"`{sentence.replace('{k}', kind)}`" for kind in (*kinds[1:], kinds[0]))
    sentence = re.sub(r"\{[a-z]\}", "N", sentence.replace("{K}", "KEY"))
    return f"`` {sentence} ``".replace("`` ", "``", 1) if "`" in sentence else f"`{sentence}`"


def put_c_docs(document, said, keys):
    rows, kinds = [], said["c_kinds"]["sentences"]
    for part in said["c"]:
        about, more = ", ".join(f"`PTAB_ABOUT_{it}`" for it in part["about"]), part.get("more", {})
        told = [in_docs(it, kinds) for it in part["sentences"]]
        if "{K}" in part["sentences"][0]:
            rows.append(f"| {about} | 1 to {len(keys)} | {', or '.join(told)} |")
            continue
        for number, it in enumerate(told, 1):
            rows.append(f"| {about if number == 1 else ''} | {number} | {it}{more.get(str(number), '')} |".replace("|  |", "| |"))
    document = re.sub(r"^(\| About \| Number \| Sentence \|\n\|---\|---\|---\|\n)(?:\|.*\n)*",
                      lambda it: it[1] + "\n".join(rows) + "\n", document, count=1, flags=re.MULTILINE)
    alone = ", ".join(in_docs(it, kinds) for it in said["c_statuses"].values())
    return re.sub(r"^(A status that is about nothing has one of ).*$", lambda it: f"{it[1]}{alone}.", document, count=1, flags=re.MULTILINE)


def literal(begin, text, end):
    """A literal of C behind the beginning of its line, on as many lines as it takes."""
    parts = [it.replace("\\", r"\\").replace('"', r"\"") for it in textwrap.wrap(text, 118, drop_whitespace=False)]
    return begin + f'"\n{" " * len(begin)}"'.join(['"' + parts[0], *parts[1:]]) + f'"{end}'


def array(name, numbered):
    return [f"static const char *const {name}[] = {{", *(literal(f"    [{number}] = ", it, ",") for number, it in numbered), "};", ""]


def c_texts(said, texts, keys):
    """The header with all sentences, in lists by their numbers."""
    lists = {}
    for text in (*texts, *(case for text in texts for case in text.cases)):
        if text.list and not text.cases:
            lists.setdefault(text.list, {})[text.number] = text.in_c()
    for part in said["c"]:
        lists[part["list"]] = dict(enumerate(part["sentences"], 1))
    lists["kinds"] = dict(enumerate(said["c_kinds"]["sentences"]))
    lists["keys"] = dict(enumerate(keys, 1))
    lines = [f"/* The sentences of ptab_disk_text.c: {FROM}. */", ""]
    for name, of in lists.items():
        lines += array(name, sorted(of.items()))
    lines += ["static const struct {", "  int32_t status;", "  const char *sentence;", "} statuses[] = {"]
    lines += [literal(f"    {{PTAB_{status}, ", it, "},") for status, it in said["c_statuses"].items()]
    return "\n".join([*lines, "};", ""])


# --help


def help_row(text):
    """A text's row in a page of --help."""
    key = str(text.status) if text.table == "statuses" else text.text
    sentence = f"{text.text}: {text.on_page()}" if text.table == "statuses" and text.text else text.on_page()
    at = AT_DIGIT if key.isdigit() else AT
    rows = textwrap.wrap(sentence, WIDTH - at, break_long_words=False, break_on_hyphens=False)
    head = f"  {key}".ljust(at) + rows.pop(0) if len(key) <= at - 4 or key.isdigit() else f"  {key}"
    return [head, *(" " * at + it for it in rows)]


def key_of(line):
    """The text of a row of --help, or None."""
    found = re.match(r"  (\d)  \S", line) or re.match(r"  (?=\S)(.{22})  \S", line) or re.match(r"  (\S.{22,})$", line)
    return found[1].strip() if found else None


def runs(lines):
    """(the first line, the line behind the last, the texts) of each run of rows; the last row may end with the literal."""
    at = 0
    while at < len(lines):
        begin, keys = at, []
        while at < len(lines) and (key_of(lines[at].split('"')[0]) or keys and re.match(r" {5,}\S", lines[at])):
            keys.append(key_of(lines[at].split('"')[0]))
            at += 1
            if '"' in lines[at - 1]:
                break
        if keys:
            yield begin, at, [key for key in keys if key]
        at += not keys


def put_help(source, said, wrong):
    """The source of the pages, with each run of rows that says something else made anew from the groups of which it has one."""
    groups = [[text for text in texts if text.text] for texts in said["groups"] if texts[0].pages]
    of = {text.text: texts for texts in groups for text in texts}
    lines, there = source.split("\n"), set()
    for begin, end, keys in reversed(list(runs(lines))):
        found = [said["statuses"]] if keys[0] == "0" else []
        for key in [] if found else keys:
            if key in of and of[key] not in found:
                found.append(of[key])
        if found:
            there |= {text.text for texts in found for text in texts}
            last, *rest = lines[end - 1].partition('"')
            made = [line for texts in found for text in texts for line in help_row(text)]
            if flat("\n".join([*lines[begin:end - 1], last])) != flat("\n".join(made)):
                lines[begin:end] = [*made[:-1], "".join([made[-1], *rest])]
    for it in (it for texts in groups for it in texts):
        if it.text not in there and f"`{it.text}`: {it.on_page()}." not in flat(source):
            wrong.append(f"{HELP} doesn't say: {it.text}  {it.on_page()}")
    return "\n".join(lines)


# the errors of the crates


def displayed(source, name):
    """(variant, number or None, sentence) of each literal that an error's Display prints; of an error without variants that is all."""
    numbers = {variant: int(it) for variant, it in re.findall(rf"{name}::(\w+)(?:\([^)]*\))? => (\d+),", source)}
    block = re.search(rf"^impl fmt::Display for {name} .*?^}}$", source, re.DOTALL | re.MULTILINE)[0]
    arms = re.split(rf"{name}::(\w+)", block)
    for variant, arm in zip(arms[1::2], arms[2::2]) if len(arms) > 1 else [("", block)]:
        for it in re.findall(r'"((?:[^"\\]|\\.)*)"', arm):
            sentence = re.sub(r": \{.*", "", it)
            if re.sub(r"\{[^}]*\}", "", sentence).strip():
                yield variant, numbers.get(variant), sentence


def pattern(sentence):
    """What a sentence is where names, or letters in braces, stand for values."""
    return r"(?:[A-Z]+|\{\w\})".join(re.escape(part) for part in re.split(r"\{[^}]*\}", sentence))


def errors(said, texts, wrong):
    """Adds each error's sentence that no text has, and each text that names no such error."""
    own, within, there = {}, {}, set()
    for text in (*texts, *(case for text in texts for case in text.cases)):
        own.setdefault(text.variant, []).append((text.printed, text.sentence))
        for name in text.also:
            within.setdefault(name, []).append(text.on_page())
    for part in said["c"]:
        own.setdefault(part.get("variant"), []).extend((None, it) for it in part["sentences"])
    for name, path in said["errors"].items():
        for variant, number, sentence in displayed(read(f"crates/{path}"), name):
            full = f"{name}::{variant}" if variant else name
            there.add(full)
            has = any(re.fullmatch(pattern(sentence), it) and (number in (None, of) or of is None) for of, it in own.get(full, []))
            has = has or any(re.search(rf"(?<!\w){pattern(sentence)}(?!\w)", it) for it in within.get(full, []))
            if not has and not any(it in sentence for it in OTHERWISE):
                wrong.append(f"docs/texts.toml has no text of {full} {number or ''} with its sentence (crates/{path}): {sentence}")
    for name in sorted({*own, *within} - there - {None}):
        wrong.append(f"docs/texts.toml names {name}, which is no case of an error under [errors]")


def made():
    """{path: its text as it has to be}, and what isn't as the file says."""
    said, texts = loaded()
    keys, wrong = re.findall(r'Key::\w+ => "([^"]+)"', read(KEYS)), list(misread(said))
    files = {COMMANDS: put_tables(read(COMMANDS), said, texts), MAN: put_man(read(MAN), said), C_DOCS: put_c_docs(read(C_DOCS), said, keys),
             C_TEXTS: c_texts(said, texts, keys), HELP: put_help(read(HELP), said, wrong)}
    errors(said, texts, wrong)
    return files, wrong


def main():
    if sys.argv[1:] not in ([], ["--check"]):
        sys.exit(__doc__.split("\n\n")[1])
    files, wrong = made()
    for path, text in files.items():
        if os.path.exists(f"{ROOT}/{path}") and read(path) == text:
            continue
        if sys.argv[1:]:
            wrong.append(f"{path} isn't what docs/texts.toml says: run packaging/put_texts.py")
            continue
        with open(f"{ROOT}/{path}", "w", encoding="utf-8") as it:
            it.write(text)
        print(path)
    if wrong:
        sys.exit("\n".join(wrong))


if __name__ == "__main__":
    main()
