#!/usr/bin/env python3
"""Runs install.sh into a folder of its own, with and without DESTDIR, and checks the files, their modes, that the installed program
runs, and what bash, zsh and fish complete: each line the same, of a command each option that its `-h` has and no other, with its sentence.

With the archive of the library for callers in C it installs that too, and compiles a program with it.

usage: tests/callers/install.py PTAB [ARCHIVE]
"""
import contextlib
import filecmp
import glob
import os
import re
import shlex
import shutil
import stat
import subprocess
import sys
import tempfile

TOP = os.path.abspath(os.path.join(os.path.dirname(os.path.abspath(__file__)), "..", ".."))
sys.path.insert(0, os.path.join(TOP, "tests", "shared"))
import compared
from commands import COMMANDS
from compared import same
MODULES = [name for name in os.listdir(f"{TOP}/tools/ptab_run") if name.endswith(".py")]
SAFE = ("cfdisk", "cgpt", "fdisk", "gdisk", "growpart", "parted", "sfdisk", "sgdisk")
PLACES = {"bin/ptab": (None, 0o755), "bin/ptab-run": ("tools/ptab-run", 0o755), "share/man/man8/ptab.8": ("man/ptab.8", 0o644),
          "share/man/man8/ptab-run.8": ("man/ptab-run.8", 0o644),
          "share/bash-completion/completions/ptab": ("completion/ptab.bash", 0o644),
          "share/zsh/site-functions/_ptab": ("completion/ptab.zsh", 0o644),
          "share/fish/vendor_completions.d/ptab.fish": ("completion/ptab.fish", 0o644),
          "share/bash-completion/completions/ptab-run": ("completion/ptab-run.bash", 0o644),
          "share/zsh/site-functions/_ptab-run": ("completion/ptab-run.zsh", 0o644),
          "share/fish/vendor_completions.d/ptab-run.fish": ("completion/ptab-run.fish", 0o644),
          **{f"lib/ptab/ptab_run/{name}": (f"tools/ptab_run/{name}", 0o644) for name in MODULES},
          **{f"lib/ptab/safe/{name}": ("tools/safe/tool", 0o755) for name in SAFE}}
# the headers and the modules for Python, and what is made of the archive
SOURCES = {**{f"include/{os.path.basename(it)}": it for it in glob.glob(f"{TOP}/include/*.h")},
           **{f"lib/python3/dist-packages/{os.path.basename(it)}": it for it in glob.glob(f"{TOP}/bindings/python/*.py")}}
LIBRARY = (*SOURCES, "lib/libptab.a", "lib/libptab.so.2", "lib/libptab.so", "lib/pkgconfig/ptab.pc")
WORDS = ["a:", "o", "n:", "d:", "t:", "c:", "u:", "U:", "A:", "e", "g"]
IMAGES = ["folder", "a.img", "b.raw"]
# what stands before the cursor, and what is completed
COMPLETIONS = (
    ("ptab ", [*COMMANDS, "help"]), ("ptab re", ["repair"]), ("ptab --h", ["--help"]), ("ptab help ch", ["check"]),
    ("ptab help check ", []), ("ptab show ", IMAGES), ("ptab show a", ["a.img"]), ("ptab show n", ["notes"]),
    ("ptab show folder/", ["folder/c.img"]), ("ptab show a.img ", []), ("ptab verify --in", []), ("ptab adopt --o", ["--other-device"]),
    ("ptab repair --in", ["--in-use"]), ("ptab show --after n", ["notes"]), ("ptab show --after notes ", IMAGES),
    ("ptab check --n", []), ("ptab apply --n", ["--no-lock"]), ("ptab repair --no-lock ", IMAGES), ("ptab show --device ", IMAGES),
    ("ptab edit --sector-size ", ["512", "4096"]), ("ptab edit --sector-size=4", ["4096"]), ("ptab edit --sector-size=", ["512", "4096"]),
    ("ptab edit --sector-size 4096 ", IMAGES), ("ptab edit --fresh ", []), ("ptab edit a.img ", WORDS),
    ("ptab edit a.img --fresh 00 u", ["u:"]), ("ptab plan --sector-size=512 a.img e", ["e"]), ("ptab edit a.img n:", []),
    ("ptab edit a.img n:1:0:0 c", ["c:"]), ("ptab check a.img n", ["notes"]), ("ptab apply a.img no", ["notes"]),
    ("ptab check a.img notes ", []), ("ptab locate a.img 1 ", []), ("ptab fr", ["free"]), ("ptab free ", IMAGES),
    ("ptab free a.img ", []), ("ptab nonsense ", []), ("ptab adopt a.img ", IMAGES), ("ptab adopt --p", ["--plan"]),
    ("ptab show --j", ["--json"]), ("ptab show --json ", IMAGES), ("ptab show --json a.img ", []), ("ptab ty", ["types"]),
    ("ptab help ty", ["types"]), ("ptab types ", []), ("ptab types --h", ["--help"]), ("ptab types --d", []), ("ptab verify --j", []),
    ("ptab se", ["set"]), ("ptab set ", IMAGES), ("ptab set a.img n", ["notes"]), ("ptab set a.img notes ", []),
    ("ptab-run --as", ["--as-itself"]), ("ptab-run --sector-size ", ["512", "4096"]), ("ptab-run --sector-size=4", ["4096"]),
    ("ptab-run --in", ["--in-use"]), ("ptab-run --lossy ", IMAGES), ("ptab-run --device --q", ["--quiet"]),
    ("ptab-run --save n", ["notes"]), ("ptab-run --data-l", ["--data-limit"]), ("ptab-run --data --data-limit 1G ", IMAGES),
    ("ptab set --f", ["--fresh"]), ("ptab set --fresh 00 --plan ", IMAGES), ("ptab free --j", ["--json"]), ("ptab free --json ", IMAGES),
)


def files(folder):
    return sorted(os.path.relpath(os.path.join(at, name), folder) for at, _, names in os.walk(folder) for name in names)


def install(folder, words, wanted, **more):
    """What install.sh says; its files stand in `wanted`, which holds no others, each with its bytes and its mode."""
    done = subprocess.run([f"{TOP}/install.sh", *words], cwd=folder, capture_output=True, text=True, env={**os.environ, **more})
    same(f"install.sh {words}", (done.returncode, done.stderr), (0, ""))
    same("a line a file", sorted(done.stdout.splitlines()), sorted(f"installed {wanted}/{place}" for place in PLACES))
    same("the files", files(wanted), sorted(PLACES))
    for place, (source, mode) in PLACES.items():
        path = f"{wanted}/{place}"
        same(f"the mode of {place}", stat.S_IMODE(os.stat(path).st_mode), mode)
        same(f"the mode of its folder, {place}", stat.S_IMODE(os.stat(os.path.dirname(path)).st_mode), 0o755)
        same(f"the bytes of {place}", filecmp.cmp(path, more["PTAB"] if source is None else f"{TOP}/{source}", shallow=False), True)


def runs(folder, prefix):
    """The installed program makes a table, and man finds its page."""
    path = f"{folder}/made.img"
    with open(path, "wb") as it:
        it.truncate(1 << 20)
    done = subprocess.run([f"{prefix}/bin/ptab", "edit", path, "--fresh", "0" * 32, "o"], capture_output=True, text=True)
    same("the installed program", (done.returncode, done.stdout, done.stderr), (0, "done\n", ""))
    done = subprocess.run([f"{prefix}/bin/ptab-run", path, "true", "@"], capture_output=True, text=True,
                          env={key: value for key, value in os.environ.items() if key != "PTAB"})
    same("ptab-run beside it", (done.returncode, done.stdout, done.stderr), (0, "", "ptab-run: true changed nothing\n"))
    where = {key: value for key, value in os.environ.items() if key != "PTAB"} | {"PATH": f"{prefix}/lib/ptab/safe:{os.environ['PATH']}"}
    done = subprocess.run(["sgdisk", "-Z", path], capture_output=True, text=True, env=where)
    same(f"sgdisk of the folder safe: {done.stdout}", (done.returncode, "the tool left no table" in done.stderr), (4, True))
    same("nothing more is beside them", files(prefix), sorted(PLACES))
    if shutil.which("man"):
        where = {key: value for key, value in os.environ.items() if key != "MANPATH"}
        for name in ("ptab", "ptab-run"):
            done = subprocess.run(["man", "-M", f"{prefix}/share/man", "-w", "8", name], capture_output=True, text=True, env=where)
            same("man -w", done.stdout.strip(), f"{prefix}/share/man/man8/{name}.8")


def which_program(folder, ptab):
    """Without PTAB packaging/build.py is asked, here one that writes down its words and tells this program's path; a fault of it is kept.
    What packaging/release.sh links of that program is installed, and the program itself where it can't."""
    top = f"{folder}/top"
    os.makedirs(f"{top}/packaging")
    for name in ("install.sh", "man", "completion", "tools"):
        (shutil.copytree if os.path.isdir(f"{TOP}/{name}") else shutil.copy)(f"{TOP}/{name}", f"{top}/{name}")
    where = {key: value for key, value in os.environ.items() if key not in ("PTAB", "DESTDIR")} | {"LIBRARY": ""}
    linked = f"{folder}/linked"
    with open(linked, "w", encoding="ascii") as it:
        it.write("the linked program")
    for name, does, links, status, wanted in (("linked", f"print({ptab!r})", f"echo {linked}", 0, linked),
                                              ("not_linked", f"print({ptab!r})", "exit 1", 0, ptab),
                                              ("not_proved", "sys.exit('not proved')", f"echo {linked}", 1, None)):
        with open(f"{top}/packaging/build.py", "w", encoding="utf-8") as it:
            it.write(f"import sys\nopen({folder + '/asked'!r}, 'a').write(' '.join(sys.argv[1:]) + '\\n')\n{does}\n")
        with open(f"{top}/packaging/release.sh", "w", encoding="utf-8") as it:
            it.write(f"#!/bin/sh\n[ \"$PTAB\" = {shlex.quote(ptab)} ] || exit 1\n{links}\n")
        os.chmod(f"{top}/packaging/release.sh", 0o755)
        done = subprocess.run([f"{top}/install.sh", f"{folder}/{name}_under"], capture_output=True, text=True, env=where)
        same(f"install.sh without PTAB, {name}: {done.stderr}", (done.returncode, bool(done.stderr)), (status, name != "linked"))
        same("whether something is installed", os.path.exists(f"{folder}/{name}_under"), status == 0)
        if wanted:
            same("the program that it takes", filecmp.cmp(f"{folder}/{name}_under/bin/ptab", wanted, shallow=False), True)
    with open(f"{folder}/asked", encoding="utf-8") as it:
        same("what is asked for", it.read().splitlines(), ["ptab"] * 3)


def library(folder, ptab, archive):
    """The files of the library; what a C program does that is compiled as pkg-config has it, and the module for Python, without a word on
    where the library is. All have one version."""
    prefix = f"{folder}/with"
    done = subprocess.run([f"{TOP}/install.sh", prefix], capture_output=True, text=True,
                          env={**os.environ, "PTAB": ptab, "LIBRARY": archive, "DESTDIR": ""})
    same("install.sh with a library", (done.returncode, done.stderr), (0, ""))
    same("its lines", sorted(done.stdout.splitlines()), sorted(f"installed {prefix}/{place}" for place in (*PLACES, *LIBRARY)))
    same("the headers and the module are among them", {"include/ptab.h", "include/ptab_disk.h", "lib/python3/dist-packages/ptab.py"}
         <= set(SOURCES), True)
    same("its files", files(prefix), sorted((*PLACES, *LIBRARY)))
    for place, source in SOURCES.items():
        same(f"{place}", filecmp.cmp(f"{prefix}/{place}", source, shallow=False), True)
    with open(f"{prefix}/lib/pkgconfig/ptab.pc", encoding="utf-8") as it:
        told = it.read().replace("${includedir}", f"{prefix}/include").replace("${libdir}", f"{prefix}/lib")
    flags = [line.partition(": ")[2].split() for line in told.splitlines() if line.startswith(("Cflags: ", "Libs: "))]
    subprocess.run(["cc", f"{TOP}/examples/c/rename.c", *flags[0], *flags[1], "-o", f"{folder}/rename"], check=True)
    where = {key: value for key, value in os.environ.items() if key not in ("LD_LIBRARY_PATH", "PTAB_LIBRARY")}
    where["PYTHONPATH"] = f"{prefix}/lib/python3/dist-packages"
    for program in ([f"{folder}/rename"], [sys.executable, "-B", f"{TOP}/examples/python/rename.py"]):
        with open(f"{folder}/disk.img", "wb") as it:
            it.truncate(1 << 20)
        words = ("--fresh", "0" * 64, "o", "a:1", "n:1:40:0", "c:1:root")
        subprocess.run([ptab, "edit", f"{folder}/disk.img", *words], check=True, capture_output=True)
        done = subprocess.run(program, capture_output=True, text=True, cwd=folder, env=where)
        same(f"{program}", (done.stdout, done.stderr, done.returncode), ("1 root\ndone\n", "", 0))
        shown = subprocess.run([ptab, "show", f"{folder}/disk.img"], capture_output=True, text=True, check=True).stdout
        same("the name", shown.split()[-1], "archive")
    version = subprocess.run([f"{TOP}/packaging/version.sh"], capture_output=True, text=True).stdout
    same("the version for pkg-config", f"\nVersion: {version}" in told, True)


def versions(ptab):
    """The one version number, wherever it stands."""
    done = subprocess.run([f"{TOP}/packaging/version.sh"], capture_output=True, text=True)
    version = done.stdout.strip()
    done = subprocess.run([ptab, "--version"], capture_output=True, text=True)
    same("the version of the command", done.stdout, f"ptab {version}\n")
    page, line = f'"Jawefon {version}"', f'version = "{version}"\n'
    for place, head in (("man/ptab.8", page), ("man/ptab-run.8", page), ("CHANGELOG.md", f"## {version}"),
                        ("bindings/python/pyproject.toml", line), ("bindings/rust/Cargo.toml", line)):
        with open(f"{TOP}/{place}", encoding="utf-8") as it:
            same(f"the version in {place}", head in it.read(), True)


def refused(folder, ptab):
    for words, status in (([], 2), ([""], 2), (["--help"], 2), (["/a", "/b"], 2)):
        done = subprocess.run([f"{TOP}/install.sh", *words], cwd=folder, capture_output=True, text=True, env={**os.environ, "PTAB": ptab})
        same(f"install.sh {words}", (done.returncode, done.stdout), (status, ""))
    done = subprocess.run([f"{TOP}/install.sh", f"{folder}/x"], capture_output=True, text=True,
                          env={**os.environ, "PTAB": f"{folder}/none"})
    same("a program that isn't there", (done.returncode, done.stdout, os.path.exists(f"{folder}/x")), (1, "", False))


def by_bash(prefix, line):
    # a colon or an equals sign is a word of its own there
    words = re.findall(r"[:=]|[^\s:=]+", line) + ([""] if line.endswith(" ") else [])
    name = line.split(" ")[0] or "ptab"
    call = (f'source "$1"; shift; COMP_WORDS=("$@"); COMP_CWORD=$(($# - 1)); _{name.replace("-", "_")}; '
            '[ ${#COMPREPLY[@]} = 0 ] || printf "%s\\n" "${COMPREPLY[@]}"')
    return ["bash", "-c", call, "bash", f"{prefix}/share/bash-completion/completions/{name}", *words]


def by_zsh(prefix, line):
    return ["zsh", "-f", f"{TOP}/tests/callers/completions.zsh", f"{prefix}/share/zsh/site-functions", line]


def by_fish(prefix, line):
    place = f"{prefix}/share/fish/vendor_completions.d"
    return ["fish", "--no-config", "-c", f"for it in {place}/*; source $it; end; complete -C '{line}'"]


def run_again(words, folder):
    """What a shell did. zsh completes behind a pseudo-terminal, where now and then, under load, it waits for a key for ever: it is begun
    again then, twice at the most."""
    for _ in range(2):
        with contextlib.suppress(subprocess.TimeoutExpired):
            return subprocess.run(words, cwd=folder, stdin=subprocess.DEVNULL, capture_output=True, text=True, timeout=300)
    return subprocess.run(words, cwd=folder, stdin=subprocess.DEVNULL, capture_output=True, text=True, timeout=300)


def completed(words, line, folder):
    """{what a shell completes: its sentence, where the shell shows one}. An option is left out where none is begun, and one of a letter;
    fish completes capital letters too, where small ones were begun."""
    done = run_again(words, folder)
    same(f"{words[0]} on {line!r}", (done.returncode, done.stderr), (0, ""))
    last = line.split(" ")[-1]
    found = dict(it.partition("\t")[::2] for it in done.stdout.splitlines())
    found = {re.sub(r"^--[\w-]+=(?=.)|/$", "", key): value for key, value in found.items() if key != last or ":" not in key}
    found = {key: value for key, value in found.items() if key.startswith(last.split("=")[-1])}
    return {key: value for key, value in found.items() if not re.match(r"-\w$|--" if not last.startswith("-") else r"-\w$", key)}


def told_by(ptab, name):
    """{option: its sentence} of the help of a command, and of all {command: its sentence} too."""
    text = subprocess.run([ptab, *([name] if name else []), "-h"], capture_output=True, text=True, check=True).stdout
    before, _, behind = text.partition("Options:\n")
    found = dict(re.findall(r"^ +(?:-\w, )?(--[\w-]+)(?: <\w+>)? +(.*)$", behind.split("\n\n")[0], re.MULTILINE))
    commands = dict(re.findall(r"^  (\w+)  +(.*)$", before, re.MULTILINE)) if name == "" else {}
    return {key: value.split(" (see")[0] for key, value in {**found, **commands}.items()}


def completions(folder, prefix, ptab):
    """How many shells complete each line, and as the help has it."""
    os.makedirs(f"{folder}/images/folder")
    for name in ("a.img", "b.raw", "notes", "folder/c.img"):
        with open(f"{folder}/images/{name}", "wb"):
            pass
    with open(f"{TOP}/completion/ptab.zsh", encoding="utf-8") as it:
        by_hand = it.read()
    shells = [shell for shell in (by_bash, by_zsh, by_fish) if shutil.which(shell(prefix, "")[0])]
    for shell in shells:
        for line, wanted in COMPLETIONS:
            found = completed(shell(prefix, line), line, f"{folder}/images")
            same(f"{shell.__name__} {line!r}", sorted(found), sorted(wanted))
        usage = subprocess.run([f"{prefix}/bin/ptab-run", "--help"], capture_output=True, text=True).stdout
        same(f"{shell.__name__}: the options of ptab-run", sorted(completed(shell(prefix, "ptab-run --"), "--", f"{folder}/images")),
             sorted(["--help", "--version", *re.findall(r"^  (--[a-z-]+)", usage, re.MULTILINE)]))
        for name in ("", *COMMANDS):
            told = told_by(ptab, name)
            found = completed(shell(prefix, f"ptab {name} --".replace("  ", " ")), "--", f"{folder}/images")
            found |= {} if name else completed(shell(prefix, "ptab "), "ptab ", f"{folder}/images")
            same(f"{shell.__name__}: the options of {name}", sorted(found), sorted(told))
            if shell is by_fish:
                same(f"the sentences that fish shows of {name}", found, told)
            if shell is by_zsh:
                for option, sentence in told.items():
                    shown = (f"{option}[{sentence}]", f"{option}=[{sentence}]", f"{option}}}'[{sentence}]", f"{option}:{sentence}")
                    same(f"the sentence that zsh has of {option}", any(it in by_hand for it in shown), True)
    for name, call in (("ptab", "_ptab"), ("ptab-run", "_ptab_run")):
        line, path = f'source "$1"; complete -p {name}', f"{prefix}/share/bash-completion/completions/{name}"
        same("complete -p", subprocess.run(["bash", "-c", line, "bash", path], capture_output=True, text=True).stdout,
             f"complete -F {call} {name}\n")
    return len(shells)


def main():
    ptab = os.path.abspath(sys.argv[1])
    os.umask(0o077)
    with tempfile.TemporaryDirectory() as folder:
        install(folder, [f"{folder}/own"], f"{folder}/own", PTAB=ptab, DESTDIR="")
        install(folder, ["near/by/"], f"{folder}/near/by", PTAB=ptab, DESTDIR="")
        install(folder, ["/usr"], f"{folder}/stage/usr", PTAB=ptab, DESTDIR=f"{folder}/stage")
        install(folder, [f"{folder}/own"], f"{folder}/own", PTAB=ptab, DESTDIR="")
        runs(folder, f"{folder}/own")
        which_program(folder, ptab)
        if len(sys.argv) > 2:
            library(folder, ptab, os.path.abspath(sys.argv[2]))
        versions(ptab)
        refused(folder, ptab)
        shells = completions(folder, f"{folder}/own", ptab)
    print(f"installing: {compared.count} passed, 0 failed; {shells} shells of 3 complete as the help says")


main()
