#!/usr/bin/env python3
"""The texts of bindings/c/ptab_disk_text.c, compiled alone: what a reply is about, its number and its arguments choose the sentence and
what stands before it. A text is cut where there is no room, and the length that is given is that of the whole text; so it is with a name,
of which no character is cut in two. The keys of a table's text have one order in the library, its header, and the bindings. What
the sentences are is for docs/texts.toml to say.

usage: tests/callers/c_messages.py
"""
import ctypes as c
import os
import re
import subprocess
import sys
import tempfile

ROOT = os.path.dirname(os.path.dirname(os.path.dirname(os.path.abspath(__file__))))
sys.path.insert(0, os.path.join(ROOT, "tests", "shared"))
import compared
import replay
from compared import same

ARGUMENT, WORD, TABLE, FINDING, EDIT, PLAN, CHECK, REPAIR, ADOPT, OTHER_TABLE, TEXT, DISK, OTHER_DISK = (*range(1, 12), 64, 65)
NO, USAGE, REFUSED, NO_TABLE, DEVICE = 1, 2, 3, 4, 5
TWO = {"a": 2, "a_letter": ord("a"), "b": 3, "b_letter": ord("h")}
NONE = "no MBR, and neither copy of a GPT exists: the signature isn't EFI PART (primary); the array's CRC is wrong (backup)"
# of each thing that a reply is about its last number, or the last ones of what stands in its place, with the sentence
CASES = (
    (USAGE, {"about": ARGUMENT, "number": 6, "a": 7},
     "the plan's bytes aren't a whole sector for each write, or the phase of write 7 isn't in order"),
    (USAGE, {"about": ARGUMENT, "number": 9}, "the device's name or the table's text isn't UTF-8"),
    (USAGE, {"about": WORD, "number": 5, "a": 7}, "word 7: a code that isn't two or four hexadecimal digits"),
    (NO_TABLE, {"about": TABLE, "number": 1, "a": 1, "b": 9}, f"there is no table: {NONE}"),
    (NO_TABLE, {"about": TABLE, "number": 2, "a": 1, "b": 77}, "there is no table: the extended boot record at sector 77 lacks 55 AA"),
    (NO_TABLE, {"about": OTHER_TABLE, "number": 2, "a": 5}, "the other disk: the chain has more than 128 extended boot records"),
    (NO_TABLE, {"about": OTHER_TABLE, "number": 4}, "the other disk: no MBR, and fewer sectors than a GPT takes"),
    (NO, {"about": FINDING, "number": 3, "a": 6}, "the backup copy of the GPT doesn't exist: the array isn't beside the header"),
    (NO, {"about": FINDING, "number": 5, "a": 1}, "the primary header doesn't name the backup's sector"),
    (NO, {"about": FINDING, "number": 5, "a": 2}, "the backup header doesn't name the primary's sector"),
    (NO, {"about": FINDING, "number": 8, **TWO}, "2.a and 3.h share a sector"),
    (NO, {"about": FINDING, "number": 11, "a": 2 ** 64 - 1}, f"the second sector of slice {2 ** 64 - 1} holds a foreign label"),
    (REFUSED, {"about": EDIT, "number": 14}, "out of memory"),
    (REFUSED, {"about": EDIT, "number": 15}, "the offset doesn't fit a label that counts sectors of the disk"),
    (REFUSED, {"about": PLAN, "number": 4}, "the new layout isn't sound"),
    (NO, {"about": CHECK, "number": 8, "a": 7}, "the finished disk isn't healthy: finding 7"),
    (REFUSED, {"about": CHECK, "number": 1}, "the plan is refused: more than 4096 writes"),
    (REFUSED, {"about": REPAIR, "number": 2, "a": 7}, "a repair leaves it to you: finding 7"),
    (REFUSED, {"about": ADOPT, "number": 1}, "the other disk has another number of sectors"),
    (DEVICE, {"about": DISK, "number": 2, "a": 0, "b": 5}, "this is no file or block device"),
    (DEVICE, {"about": OTHER_DISK, "number": 2, "a": 6}, "the other disk: this is a socket"),
    (DEVICE, {"about": DISK, "number": 3, "sector": 5, "b": 5}, f"sector 5 can't be read: {os.strerror(5)}"),
    (DEVICE, {"about": DISK, "number": 13}, "the disk was opened by another process"),
    (-1, {"sector": 12}, "sector 12 is wanted"), (-2, {"count": 67}, "a buffer is too small: it takes 67 rows, writes or bytes"),
    (-3, {"sector": 0}, "sector 0 of the other disk is wanted"), (99, {}, "no status of this library"))


def read(path):
    with open(f"{ROOT}/{path}", encoding="utf-8") as it:
        return it.read()


class Texts:
    """ptab_disk_text.c, compiled alone."""

    def __init__(self, folder):
        library = f"{folder}/texts.so"
        subprocess.run(["cc", "-std=c11", "-Wall", "-Wextra", "-Werror", "-pedantic", "-O2", "-fPIC", "-shared", f"-I{ROOT}/include",
                        f"{ROOT}/bindings/c/ptab_disk_text.c", "-o", library], check=True)
        self.lib = c.CDLL(library)
        self.lib.ptab_message.argtypes = [c.c_int32, c.c_void_p, c.c_void_p, c.c_size_t]
        self.lib.ptab_name_text.argtypes = [c.c_void_p, c.c_void_p, c.c_size_t]
        self.lib.ptab_message.restype = self.lib.ptab_name_text.restype = c.c_size_t

    def cut(self, call, *arguments):
        """A text, which is the same for each length, but cut."""
        room = c.create_string_buffer(b"\x5a" * 600, 600)
        whole = call(*arguments, room, len(room))
        text = room.raw[:whole]
        same("its end", room.raw[whole:whole + 2], b"\0\x5a")
        for length in {0, 1, 2, whole - 1, whole, whole + 1} & set(range(600)):
            room = c.create_string_buffer(b"\x5a" * 600, 600)
            same("its length", call(*arguments, room, length), whole)
            kept = room.raw.index(b"\0") if length else 0
            same(f"of {length} bytes", (text.startswith(room.raw[:kept]), room.raw[max(length, 0):].strip(b"\x5a")), (True, b""))
            same("it is cut by a character at most", length == 0 or kept == whole or length - 1 - kept < 4, True)
        return text.decode("utf-8")

    def message(self, status, **fields):
        reply = replay.Reply(**fields)
        return self.cut(self.lib.ptab_message, status, c.byref(reply))

    def name(self, units):
        row = replay.Member(name=(c.c_uint16 * 36)(*units))
        return self.cut(self.lib.ptab_name_text, c.byref(row))


def messages(texts):
    for status, fields, text in CASES:
        same(f"{status} {fields}", texts.message(status, **fields), text)
    lists = {name: max(map(int, re.findall(r"^    \[(\d+)\]", of, re.MULTILINE)))
             for name, of in re.findall(r"(\w+)\[\] = \{\n(    \[.*?)\};", read("bindings/c/ptab_disk_texts.h"), re.DOTALL)}
    last = {globals()[about]: lists[name]
            for about, name in re.findall(r"\[PTAB_ABOUT_(\w+)\] = \{(\w+),", read("bindings/c/ptab_disk_text.c"))}
    same("each has a list", set(last) | {TEXT}, {fields["about"] for _, fields, _ in CASES if "about" in fields} | {TEXT})
    for about in (*last, 0, 12, 63, 66, 2 ** 32 - 1):
        for number in (0, last.get(about, 0) + 1, 63, 65, 2 ** 32 - 1):
            same(f"{about} has no number {number}", texts.message(REFUSED, about=about, number=number, a=1), "it is refused")


def keys(texts):
    """The names at which a table's text has a fault."""
    found = re.findall(r'Key::(\w+) => "([^"]+)"', read("crates/pt_drafts/src/fault.rt"))
    same("their numbers", re.findall(r"Key::(\w+) => (\d+)", read("crates/pt_replay/src/refusals.rt")),
         [(variant, str(number)) for number, (variant, _) in enumerate(found, 1)])
    names = [name for _, name in found]
    header = re.findall(r"PTAB_KEY_(\w+) = (\d+),? +/\* `([^`]+)`", read("include/ptab.h"))
    same("the header's", header, [(name.upper().replace("-", "_"), str(number), name) for number, name in enumerate(names, 1)])
    python = re.search(r"\nKEYS = \(([^)]*)\)", read("bindings/python/ptab.py")).group(1)
    same("Python's", re.findall(r'"([^"]+)"', python), names)
    same("Rust's", re.findall(r'\(Key::\w+, "([^"]+)"\)', read("bindings/rust/src/text.rs")), names)
    for number, name in enumerate(names, 1):
        same(f"key {number}", (texts.message(3, about=TEXT, number=number), texts.message(3, about=TEXT, number=number, a=7)),
             (f"the table's text has a fault at `{name}`", f"object 7 of `partitions` has a fault at `{name}`"))
    for number in (0, len(names) + 1, 2 ** 32 - 1):
        same("no such key", texts.message(3, about=TEXT, number=number), "it is refused")


def names(texts):
    """Names, as `ptab show` prints them."""
    for units, wanted in (([], ""), ([0, 65], ""), (list(b"root"), "root"), ([0xE9, 0xD834, 0xDD1E], "é𝄞"),
                          ([0xD834, 65, 0xDD1E], "?A?"),
                          ([9, 0x7F, 0x80, 0x800, 0xFFFF], "??\x80\u0800\uffff"), ([65] * 35 + [0xD834], "A" * 35 + "?"),
                          ([0x20AC] * 36, "€" * 36), ([0xD834, 0xDD1E] * 18, "𝄞" * 18)):
        same(f"the name {units}", texts.name(units), wanted)


def main():
    with tempfile.TemporaryDirectory() as folder:
        texts = Texts(folder)
        messages(texts)
        keys(texts)
        names(texts)
    print(f"C's texts: {compared.count} passed, 0 failed")


main()
