#!/usr/bin/env python3
"""Gives the command what it can't take: each answer and status by its name, and no byte of any file changed.

usage: tests/failures/bad_input.py PTAB
"""
import os
import shutil
import subprocess
import sys

sys.path.insert(0, os.path.join(os.path.dirname(os.path.abspath(__file__)), "..", "shared"))
from images import one_partition, room

MOST = 8 * 1024 * 1024
TABLE = b'{"partitiontable": {"id": "00000000-0000-4000-8000-000000000009"}}'
IN_USE_ALONE = "error: the argument '--in-use' needs '--device'\n\nFor more information, try '--help'.\n"
checked = 0


def content(path):
    if not os.path.isfile(path):
        return None
    with open(path, "rb") as it:
        return it.read()


def expect(ptab, words, image, out, err, status):
    global checked
    before = content(image)
    done = subprocess.run([ptab, *words], capture_output=True, text=True)
    if err is None and not done.stderr:
        sys.exit(f"ptab {' '.join(words)} says nothing on standard error")
    found = (done.stdout, done.stderr if err is not None else None, done.returncode)
    if found != (out, err, status):
        sys.exit(f"ptab {' '.join(words)}:\n  found  {found}\n  wanted {(out, err, status)}\n{done.stderr}")
    if content(image) != before:
        sys.exit(f"ptab {' '.join(words)} changed {image}")
    checked += 1


def file_of(folder, name, content):
    path = f"{folder}/{name}"
    with open(path, "wb") as it:
        it.write(content)
    return path


def gpt(folder):
    path = file_of(folder, "gpt.img", bytes(4096 * 512))
    subprocess.run(["sgdisk", "-n", "1:2048:4000", "-c", "1:data", path], check=True, capture_output=True)
    return path


def not_images(ptab, folder):
    missing = f"{folder}/missing"
    plan, table = file_of(folder, "no_plan", b""), file_of(folder, "table", TABLE)
    for path in (missing, folder, "/dev/null", f"{folder}/a/b"):
        for words in ([], ["--plan"], ["--by-table"], ["--no-lock"], ["--fresh", ""]):
            expect(ptab, ["set", *words, path, table], path, "", "device\n", 5)
        for command in (["show", path], ["show", "--json", path], ["verify", path], ["locate", path, "1", "0"], ["free", path],
                        ["edit", path, "c:1:x"], ["plan", path, "c:1:x"], ["check", path, plan], ["apply", path, plan], ["repair", path]):
            expect(ptab, command, path, "", "device\n", 5)
    for command in ("edit", "plan"):
        expect(ptab, [command, missing, "--fresh", "0", "x"], missing, "", "bad fresh\n", 2)
        expect(ptab, [command, missing, "x"], missing, "", "bad word x\n", 2)
    expect(ptab, ["locate", missing, "x", "x"], missing, "", "bad path\n", 2)
    expect(ptab, ["locate", missing, "1", "x"], missing, "", "bad number\n", 2)
    for name, content in (("empty", b""), ("short", bytes(511)), ("zeros", bytes(512)), ("text", b"no table here\n" * 40)):
        path = file_of(folder, name, content)
        expect(ptab, ["show", path], path, "", "no table: too small\n", 4)
        expect(ptab, ["verify", path], path, "no 1 no table\n", "", 1)
        for command in (["show", "--json", path], ["free", path], ["edit", path, "c:1:x"], ["plan", path, "c:1:x"], ["repair", path]):
            expect(ptab, command, path, "", "no table: too small\n", 4)
        expect(ptab, ["check", path, plan], path, "no 8 1\n", "", 1)
        expect(ptab, ["apply", path, plan], path, "no 8 1\n", "", 1)
        for words in ([], ["--plan"]):
            expect(ptab, ["set", *words, path, table], path, "", "refused: plan 1\n", 3)
    text = file_of(folder, "long_text", b"no table here either, but more of it\n" * 4000)
    expect(ptab, ["show", text], text, "", "no table: copies 1 1\n", 4)
    expect(ptab, ["edit", text, "c:1:x"], text, "", "no table: copies 1 1\n", 4)
    expect(ptab, ["repair", text], text, "", "no table: copies 1 1\n", 4)


# (a text, what is told of it): no tables
NO_TEXT, NO_TABLE, TOO_LONG = "refused: table text", "refused: table partitiontable", "table: too long"
NO_TABLES = ((b"", NO_TEXT), (b"\0", NO_TEXT), (TABLE[:-1], NO_TEXT), (b"\xff", "table: not text"), (TABLE + b"\x80", "table: not text"),
             (b"null", NO_TABLE), (b'{"partitiontable": {"unit": 1}}', "refused: table unit"),
             (b'{"partitiontable": {"partitions": [{}, {"size": "1"}]}}', "refused: table size 2"))
LONG_ONES = ((bytes(MOST), NO_TEXT), (bytes(MOST + 1), TOO_LONG), (b"\xff" * MOST, "table: not text"), (b"\xff" * (MOST + 1), TOO_LONG),
             (b"[" * MOST, NO_TEXT), (b'{"":' * 20_000, NO_TEXT), (b"9" * MOST, NO_TEXT), (b" " * MOST, NO_TEXT),
             (b'"' + b"x" * (MOST - 2) + b'"', NO_TABLE), (b"[" + b"0," * 20_000 + b"0]", NO_TABLE),
             (b'{"partitiontable": {"partitions": [' + b"{}," * 20_000 + b"7]}}", "refused: table partitions 20001"),
             (b'{"partitiontable": {' + b'"partitions": 7, ' * 20_000 + b'"entries": "x"}}', "refused: table entries"))


def tables(ptab, folder):
    """Files that hold no table, before an image that is missing: each is told before the image is opened."""
    missing, image, table = f"{folder}/missing", file_of(folder, "for_tables", one_partition()), file_of(folder, "table", TABLE)
    for words in ([], ["--plan"], ["--by-table"], ["--device"], ["--device", "--in-use"]):
        for path in (missing, folder, f"{folder}/a/b", "", f"{table}/"):
            expect(ptab, ["set", *words, missing, path], missing, "", "table: device\n", 5)
            expect(ptab, ["set", *words, image, path], image, "", "table: device\n", 5)
            expect(ptab, ["set", *words, "--fresh", "0", missing, path], missing, "", "bad fresh\n", 2)
        for text, told in (*NO_TABLES, *(() if words else LONG_ONES)):
            path, status = file_of(folder, "text", text), 3 if told.startswith("refused") else 2
            expect(ptab, ["set", *words, missing, path], missing, "", f"{told}\n", status)
            expect(ptab, ["set", *words, image, path], image, "", f"{told}\n", status)
    os.truncate(file_of(folder, "text", b""), 2 ** 40)
    expect(ptab, ["set", image, f"{folder}/text"], image, "", f"{TOO_LONG}\n", 2)
    expect(ptab, ["set", image, "/dev/null"], image, "", f"{NO_TEXT}\n", 3)
    expect(ptab, ["set", image, "/dev/zero"], image, "", f"{TOO_LONG}\n", 2)
    many = b'{"partitiontable": {"partitions": [' + b"{}," * 20_000 + b"{}]}}"
    expect(ptab, ["set", image, file_of(folder, "text", many)], image, "", "refused: table partitions\n", 3)


WORDS = ("", "x", "z:1:x", "cc:1:x", "N:1:0:0",
         "a", "a:", "a:0", "a:65537", "a:01", "a:1:1", "a:18446744073709551616",
         "n", "n:1:0", "n:01:0:0", "n:1:x:0", "n:1:0:x", "n:1:0:+0", "n:1:0:+", "n:1:00:0", "n:1:0:0:", "n:1:0:0:8", "n:1:0:0:830",
         "n:1:0:0:83000", "n:1:0:0:G3", "n:1:0:0:83:1", "n:0.a:0:0", "n:1.A:0:0", "n:1.i:0:0", "n:1.:0:0", "n:-1:0:0", "n: 1:0:0",
         "n:18446744073709551616:0:0", "n:1:0:18446744073709551616", "n:1:0:+18446744073709551616",
         "d", "d:", "d:0", "d:01", "d:1.i", "d:1.A", "d:1:2", "d:+1", "t:1", "t:0:83", "t:1:", "t:1:8", "t:1:ABC", "t:1:83:83", "t:1:0x83",
         "c", "c:1", "c:0:x", "c:01:x", "c:-1:x", "c:1a:x", "c:1.a:x", "c:18446744073709551616:x",
         "u:1", "u:0:00000000-0000-4000-8000-000000000000", "u:1.a:00000000-0000-4000-8000-000000000000",
         "u:1:00000000000040008000000000000000",
         "u:1:{00000000-0000-4000-8000-000000000000}", "u:1:00000000-0000-4000-8000-00000000000", "U", "U:", "U:x",
         "A:1:1", "A:0:1:1", "A:1:64:1", "A:1:01:1", "A:1:1:2", "A:1:1:", "A:1.a:1:1", "A:1:1:1:1", "e:", "e:1", "g:", "o:", "o:1")


def no_devices(ptab, folder):
    """With `--device` what is no block device; and `--in-use` without it."""
    image, plan = file_of(folder, "plain.img", one_partition()), file_of(folder, "no_plan", b"")
    table = file_of(folder, "table", TABLE)
    for command, *words in (["show"], ["show", "--after", plan], ["show", "--json"], ["verify"], ["locate", "1", "0"], ["free"],
                            ["edit", "c:1:x"], ["plan", "c:1:x"], ["check", plan], ["apply", plan], ["repair"], ["adopt", image],
                            ["adopt", "--plan", image], ["set", table], ["set", "--plan", table]):
        for size in ([], ["--sector-size", "512"], ["--sector-size=4096"]):
            for path in (image, folder, "/dev/null"):
                expect(ptab, [command, "--device", *size, path, *words], image, "", "device: not a block device\n", 5)
            expect(ptab, [command, *size, "--device", f"{folder}/missing", *words], image, "", "device\n", 5)
        alone = None if command in ("show", "verify", "locate", "free", "plan", "check") else IN_USE_ALONE
        expect(ptab, [command, "--in-use", image, *words], image, "", alone, 2)
        expect(ptab, [command, "--device", "--device", image, *words], image, "", None, 2)
    expect(ptab, ["edit", "--in-use", "--fresh", "0", image, "x"], image, "", IN_USE_ALONE, 2)
    expect(ptab, ["edit", "--device", "--in-use", image, "x"], image, "", "bad word x\n", 2)
    expect(ptab, ["edit", "--device", "--in-use", image, "c:1:x"], image, "", "device: not a block device\n", 5)
    for path, told in ((image, "device: not a block device"), ("/dev/null", "device: not a block device"), (f"{folder}/missing", "device")):
        for option in ([], ["--plan"], ["--device"]):
            expect(ptab, ["adopt", *option, "--other-device", image, path], image, "", f"other: {told}\n", 5)


def bad_words(ptab, image):
    for word in WORDS:
        for command in ("edit", "plan"):
            expect(ptab, [command, image, "c:1:fine", word], image, "", f"bad word {word}\n", 2)
    expect(ptab, ["edit", image, "d:1", "x", "y"], image, "", "bad word x\n", 2)
    expect(ptab, ["edit", image, "--fresh", "0", "c:1:x"], image, "", "bad fresh\n", 2)
    expect(ptab, ["edit", image, "--fresh", "g" * 32, "c:1:x"], image, "", "bad fresh\n", 2)


def refusals(ptab, image):
    expect(ptab, ["edit", image, "c:2:x"], image, "", "refused: edit 1\n", 3)
    expect(ptab, ["edit", image, "c:129:x"], image, "", "refused: edit 1\n", 3)
    expect(ptab, ["edit", image, "c:1:" + "x" * 37], image, "", "refused: edit 7\n", 3)
    expect(ptab, ["edit", image, "c:1:" + "x" * 35 + "\U0001F4BE"], image, "", "refused: edit 7\n", 3)
    expect(ptab, ["edit", image, "c:1:fine", "c:9:x"], image, "", "refused: edit 1\n", 3)


def write_of(lba, size=512, digit="0", end="\n"):
    return f"W {lba} {digit * (2 * size)}{end}".encode()


def bad_texts():
    """Texts that are no plan's, each with the line that is told."""
    good = write_of(1) + b"F\n"
    yield from ((text, 0) for text in (
        b"\xff", b"\xff\n", good + b"\x80", b"W 1 \xe9\n", b"\xed\xa0\x80\n", b"F\n" * (MOST // 2) + b"F", b"\xff" * (MOST + 1)))
    for line in (write_of(1, 511), write_of(1, 513), write_of(1, 256), write_of(1, 4096), write_of(1, 512, "g"),
                 write_of("+1"), write_of("-1"), write_of("01"), write_of("00"), write_of(""), write_of("1 "),
                 write_of(" 1"), write_of("\t1"), write_of("0x1"), write_of("1.0"), write_of("\u0661"),
                 write_of(2 ** 64), write_of(10 ** 40), write_of(1, end="\r\n"), write_of(1, end=" \n"), write_of(1, end=""),
                 write_of(1)[1:],
                 b" " + write_of(1), b"w" + write_of(1)[1:], b"W\t" + write_of(1)[2:], b"WW" + write_of(1)[1:], b"W\n", b"W 1\n", b"W 1 \n",
                 b"f\n", b" F\n", b"F \n", b"FF\n", b"F\r\n", b"F\0\n", b"\n", b"\0", b"\0\n", b"#\n", b"x", "\ufeff".encode()):
        yield line, 1
        yield good + line, 3
        yield write_of(1) + line, 2
    for text in (b"F\n", b"F", "\ufeff".encode() + good, bytes(MOST), b"\n" * MOST):
        yield text, 1
    yield good + b"F\n", 3
    for text, line in ((write_of(1), 1), (good + write_of(1), 3), (write_of(1) + write_of(2), 2), (good + write_of(1) + write_of(2), 4)):
        yield text, line
    whole = good * (MOST // len(good))
    yield whole + bytes(MOST - len(whole)), 2 * (MOST // len(good)) + 1
    yield whole + b"\n" * (MOST - len(whole) + 1), 0


def plans(ptab, folder):
    """Plan files that can't be read or hold no plan, before an image that is missing; and plans that the checker refuses."""
    missing = f"{folder}/missing"
    image = file_of(folder, "healthy", one_partition())
    for command, *option in (("check",), ("apply",), ("show", "--after"), ("show", "--json", "--after")):
        for path in (missing, folder, "/dev/null", f"{folder}/a/b", ""):
            expect(ptab, [command, missing, *option, path], missing, "", "device\n", 5)
            expect(ptab, [command, image, *option, path], image, "", "device\n", 5)
        for text, line in bad_texts():
            path = file_of(folder, "plan", text)
            expect(ptab, [command, image, *option, path], image, "", f"refused: plan text {line}\n", 3)
            expect(ptab, [command, missing, *option, path], missing, "", f"refused: plan text {line}\n", 3)
        one = file_of(folder, "plan", write_of(1) + b"F\n")
        expect(ptab, [command, missing, *option, one], missing, "", "device\n", 5)
        expect(ptab, [command, "--sector-size", "4096", image, *option, one], image, "", "refused: plan text 1\n", 3)
        for writes, answer in ((write_of(4096), "no 2 1"), (write_of(2 ** 64 - 1), "no 2 1"), (write_of(0), "no 8 6"),
                               (write_of(100, 512, "A"), "no 6 100"),
                               (write_of(100, 512, "a") + write_of(101, 512, "B"), "no 6 100"),
                               (write_of(1) * (MOST // 1030), "no 1")):
            expect(ptab, [command, image, *option, file_of(folder, "plan", writes + b"F\n")], image, f"{answer}\n", "", 1)
        large = file_of(folder, "plan", write_of(512, 4096) + b"F\n")
        expect(ptab, [command, "--sector-size", "4096", image, *option, large], image, "no 2 1\n", "", 1)
    none = file_of(folder, "plan", b"")
    expect(ptab, ["check", image, none], image, "yes 0\n", "", 0)
    expect(ptab, ["apply", image, none], image, "done\n", "", 0)
    header = one_partition()[512:1024].hex()
    for digits in (header, header.upper(), header[:500].upper() + header[500:]):
        same = file_of(folder, "plan", f"W 1 {digits}\nF\n".encode())
        expect(ptab, ["check", image, same], image, "yes 0\n", "", 0)
        expect(ptab, ["apply", image, same], image, "done\n", "", 0)
    os.truncate(file_of(folder, "plan", b""), 2 ** 40)
    expect(ptab, ["check", image, f"{folder}/plan"], image, "", "refused: plan text 0\n", 3)


def usage(ptab, image):
    commands = (["show", image], ["show", "--json", image], ["verify", image], ["locate", image, "1", "0"], ["free", image],
                ["edit", image, "c:1:x"], ["plan", image, "c:1:x"], ["check", image, image], ["apply", image, image], ["repair", image],
                ["set", image, image], ["set", "--plan", image, image])
    for words in ([], ["show"], ["verify"], ["locate", image], ["locate", image, "1"], ["locate", image, "1", "0", "0"],
                  ["free"], ["free", image, image], ["free", "--no-lock", image], ["edit", image], ["nothing"], ["nothing", image],
                  ["show", image, image], ["show", "--depth", image],
                  ["plan"], ["plan", image], ["check"], ["check", image], ["check", image, image, image],
                  ["check", "--fresh", "", image, image],
                  ["apply", image], ["apply", image, image, "c:1:x"], ["plan", image, "--fresh"], ["edit", image, "--fresh"],
                  ["edit", image, "--fresh", "", "--fresh", "", "c:1:x"], ["show", "--fresh", "", image],
                  ["repair"], ["repair", image, image], ["repair", image, "c:1:x"], ["repair", "--fresh", "", image],
                  ["repair", "--force", image], ["edit", "--no-lock", "--no-lock", image, "c:1:x"],
                  ["edit", "--no-lock=1", image, "c:1:x"], ["show", "--no-lock", image],
                  ["plan", "--no-lock", image, "c:1:x"], ["check", "--no-lock", image, image],
                  ["--no-lock", "repair", image], ["show", image, "--after"], ["show", "--after", "", "--after", "", image],
                  ["verify", "--after", image, image], ["check", "--after", image, image, image],
                  ["show", "--json"], ["show", "--json", image, image], ["show", "--json", "--json", image], ["show", "--json=1", image],
                  ["show", "--jso", image], ["--json", "show", image], ["verify", "--json", image], ["free", "--jso", image],
                  ["locate", "--json", image, "1", "0"], ["plan", "--json", image, "c:1:x"], ["types", image], ["types", "gpt"],
                  ["types", ""], ["types", "--json"], ["types", "--device"], ["types", "--sector-size", "512"], ["types", "--no-lock"],
                  ["types", "types"], ["types", "--after", image], ["type"], ["Types"], ["--types"],
                  ["set"], ["set", image], ["set", image, image, image], ["set", "--plan", "--plan", image, image],
                  ["set", "--fresh", image],
                  ["set", image, image, "--fresh"], ["set", "--keep-primary", image, image], ["set", "--other-device", image, image],
                  ["set", "--json", image, image], ["set", "--after", image, image], ["set", "--table", image, image],
                  ["set", "--by-table", "--by-table", image, image], ["set", "--no-lock=1", image, image], ["Set", image, image],
                  ["sets", image, image], ["set", "--fresh", "", "--fresh", "", image, image]):
        expect(ptab, words, image, "", None, 2)
    for words in commands:
        for size in ("1024", "0512", "0", "", "8192", "512 "):
            expect(ptab, [words[0], "--sector-size", size, *words[1:]], image, "", None, 2)
            expect(ptab, [*words, f"--sector-size={size}"], image, "", None, 2)
        expect(ptab, [*words, "--sector-size", "512", "--sector-size", "512"], image, "", None, 2)


def not_text(ptab, folder):
    """An argument that isn't UTF-8, in each place, also of a file that is there: a fault of usage, told before all others. Nothing is
    opened."""
    global checked
    bad = os.fsencode(folder) + b"/\xff.img"
    with open(bad, "wb") as it:
        it.write(one_partition())
    image, log = file_of(folder, "text.img", one_partition()), f"{folder}/log"
    plan = file_of(folder, "no_plan", b"")
    lines = [[b"show", bad], [b"verify", bad], [b"locate", bad, b"1", b"0"], [b"free", bad], [b"edit", bad, b"c:1:x"],
             [b"plan", bad, b"c:1:x"], [b"check", bad, plan], [b"check", image, bad], [b"show", image, b"--after", bad],
             [b"apply", bad, plan], [b"apply", image, bad], [b"repair", bad],
             [b"edit", image, b"c:1:\xe9t\xe9"], [b"edit", image, b"d:1", b"\xed\xa0\x80"], [b"edit", image, b"x", b"\xc0\x80"],
             [b"edit", image, b"--fresh", b"\x80", b"c:1:x"], [b"locate", image, b"\xf5", b"x"],
             [b"show", image, b"--sector-size", b"\xfe"], [b"show", image, b"--\xff"], [b"\xff"], [b"--help", b"\xff"],
             [b"repair", image, b"--no-lock", b"\xff"], [b"show", b"--json", bad], [b"types", b"\xff"], [b"types", bad],
             [b"set", bad, plan], [b"set", image, bad], [b"set", b"--plan", image, bad], [b"set", image, b"--fresh", b"\x80", plan]]
    for words in lines:
        done = subprocess.run(["strace", "-qq", "-e", "trace=file,flock", "-o", log, ptab, *words], capture_output=True)
        found = done.stdout, done.stderr, done.returncode
        if found != (b"", b"error: an argument isn't UTF-8\n\nFor more information, try '--help'.\n", 2):
            sys.exit(f"ptab {words}: {found}")
        opened = [line for line in content(log).splitlines() if b".img" in line and not line.startswith(b"execve(")]
        if opened or content(image) != one_partition() or content(bad) != one_partition():
            sys.exit(f"ptab {words} opened or changed an image: {opened}")
        checked += 1


def read_only(ptab, folder):
    """An image that may be read and not written: `edit`, `apply` and `repair` can't open it, also where they would write nothing. Root may
    write every file, so what root tests is run as nobody, who has to reach the program and the image."""
    global checked
    image = file_of(folder, "read_only", one_partition())
    plan, table = file_of(folder, "no_plan", b""), file_of(folder, "table", TABLE)
    program, who = ptab, {}
    if os.geteuid() == 0:
        program, who = shutil.copy(ptab, f"{folder}/ptab"), {"user": 65534, "group": 65534, "extra_groups": []}
        os.chmod(folder, 0o755)
    os.chmod(plan, 0o444)
    os.chmod(table, 0o444)
    for mode, status in ((0o444, 0), (0o000, 5)):
        os.chmod(image, mode)
        for words, refused in ((["show", image], False), (["show", "--json", image], False), (["verify", image], False),
                               (["locate", image, "1", "0"], False), (["free", image], False),
                               (["plan", image, "c:1:x"], False), (["check", image, plan], False),
                               (["edit", image, "c:1:x"], True), (["edit", image, "a:1"], True), (["apply", image, plan], True),
                               (["repair", image], True), (["set", "--plan", image, table], False), (["set", image, table], True)):
            done = subprocess.run([program, *words], capture_output=True, text=True, **who)
            if done.returncode != (5 if refused else status) or done.returncode == 5 and (done.stdout, done.stderr) != ("", "device\n"):
                sys.exit(f"ptab {' '.join(words)} of an image with mode {mode:o}: {done.stdout}{done.stderr}status {done.returncode}")
            checked += 1
    os.chmod(image, 0o600)
    if content(image) != one_partition():
        sys.exit("an image that is for reading was changed")


def main():
    ptab = os.path.abspath(sys.argv[1])
    with room() as folder:
        read_only(ptab, folder)
        not_images(ptab, folder)
        no_devices(ptab, folder)
        image = gpt(folder)
        bad_words(ptab, image)
        refusals(ptab, image)
        plans(ptab, folder)
        tables(ptab, folder)
        usage(ptab, image)
        not_text(ptab, folder)
    print(f"bad input: {checked} passed, 0 failed")


main()
