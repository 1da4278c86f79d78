#!/usr/bin/env python3
"""Links the program that is packed twice, in other folders, with other masks, time zones and languages, and compares the bytes: it needs no
library and no loader, runs in an empty root, and answers as the program with shared libraries does. Builds the Debian package of it twice
in the same way; then looks at what it holds with `dpkg-deb -c` and `-I`, and runs the program and the recipes that it unpacks. The pages in
it name no file of theirs that it lacks, and their links lead to what is there. A package of a program with shared libraries names these.

With the archive of the library for callers in C it does the same with the package of that: it has each file that docs/c.md names, and an
example that it unpacks is compiled and run over the library beside it.

usage: tests/callers/package.py PTAB [ARCHIVE]
"""
import gzip
import hashlib
import os
import re
import shutil
import subprocess
import sys
import tempfile
import time

TOP = os.path.abspath(os.path.join(os.path.dirname(os.path.abspath(__file__)), "..", ".."))
sys.path.insert(0, os.path.join(TOP, "tests", "shared"))
import compared
from compared import content, same
from tools import must

KIT = "kit-of-the-test logic 0123456789abcdef"
LINKED = "glibc 2.36-9+deb12u14; a compiler; a linker"
# a time to come: dpkg-deb itself turns later times into this one, and not earlier ones
EPOCH = 4_000_000_000
LINK = re.compile(r"\]\((?!https?:)([^)#]*)(?:#([^)]*))?\)")


def led_to(pages):
    """Pages, and all files of the repository to which their links lead."""
    found, left = set(), list(pages)
    while left:
        page = left.pop()
        if page not in found and os.path.isfile(f"{TOP}/{page}"):
            found.add(page)
            links_of = LINK.findall(content(f"{TOP}/{page}").decode()) if page.endswith(".md") else []
            left += [os.path.normpath(f"{os.path.dirname(page)}/{path}") for path, _ in links_of if path]
    return found


# the pages and the recipes, each at its path in the repository
PAGES = sorted(led_to(["docs/commands.md", "docs/other_tools.md", "docs/readers.md", "docs/sgdisk.md"]))
RECIPES = tuple(f"examples/recipes/{name}" for name in sorted(os.listdir(f"{TOP}/examples/recipes")))
FOLDERS = ("", "usr/", "usr/bin/", "usr/lib/", "usr/lib/ptab/", "usr/lib/ptab/ptab_run/", "usr/lib/ptab/safe/",
           "usr/share/", "usr/share/bash-completion/", "usr/share/bash-completion/completions/", "usr/share/doc/",
           "usr/share/doc/ptab/", "usr/share/doc/ptab/docs/", "usr/share/doc/ptab/examples/", "usr/share/doc/ptab/examples/recipes/",
           "usr/share/fish/", "usr/share/fish/vendor_completions.d/", "usr/share/man/", "usr/share/man/man8/",
           "usr/share/zsh/", "usr/share/zsh/vendor-completions/")
# the completions for bash, zsh and fish
COMPLETIONS = {place: f"{name}.{shell}" for name in ("ptab", "ptab-run") for shell, place in (
    ("bash", f"usr/share/bash-completion/completions/{name}"), ("zsh", f"usr/share/zsh/vendor-completions/_{name}"),
    ("fish", f"usr/share/fish/vendor_completions.d/{name}.fish"))}
# the modules of ptab-run, and the tools under their own names
MODULES = {f"usr/lib/ptab/ptab_run/{name}": f"ptab_run/{name}" for name in os.listdir(f"{TOP}/tools/ptab_run")
           if name.endswith(".py")}
SAFE = [f"usr/lib/ptab/safe/{name}" for name in ("cfdisk", "cgpt", "fdisk", "gdisk", "growpart", "parted", "sfdisk", "sgdisk")]
FILES = {"usr/bin/ptab": "-rwxr-xr-x", "usr/bin/ptab-run": "-rwxr-xr-x", "usr/share/man/man8/ptab-run.8.gz": "-rw-r--r--",
         **{place: "-rw-r--r--" for place in (*COMPLETIONS, *MODULES)}, **{place: "-rwxr-xr-x" for place in SAFE},
         **{f"usr/share/doc/ptab/{page}": "-rw-r--r--" for page in PAGES},
         **{f"usr/share/doc/ptab/{recipe}": "-rwxr-xr-x" for recipe in RECIPES},
         "usr/share/doc/ptab/BUILD": "-rw-r--r--", "usr/share/doc/ptab/changelog.gz": "-rw-r--r--",
         "usr/share/doc/ptab/copyright": "-rw-r--r--", "usr/share/man/man8/ptab.8.gz": "-rw-r--r--"}
DEV = {"include/ptab.h": "include/ptab.h", "include/ptab_disk.h": "include/ptab_disk.h", "lib/libptab.a": None, "lib/libptab.so": None,
       "lib/libptab.so.2": None, "lib/pkgconfig/ptab.pc": None, "lib/python3/dist-packages/ptab.py": "bindings/python/ptab.py"}
FOLDERS_OF_DEV = ("bindings/", "examples/c/", "examples/python/", "examples/recipes/")


def build(ptab, out, cwd, mask=0o022, **more):
    """The package's path, as debian.sh tells it."""
    told = must(f"{TOP}/packaging/debian.sh", out, cwd=cwd, preexec_fn=lambda: os.umask(mask),
                env={**os.environ, "PTAB": ptab, "KIT": KIT, "LINKED": LINKED, "SOURCE_DATE_EPOCH": str(EPOCH), **more})
    return os.path.join(cwd, told.strip())


def listed(deb):
    """What it holds: owners, modes and times are fixed."""
    found = {}
    for line in must("dpkg-deb", "-c", deb, env={**os.environ, "TZ": "UTC"}).splitlines():
        mode, owner, _, day, hour, path = line.split()
        same(f"the owner of {path}", owner, "root/root")
        same(f"the time of {path}", (day, hour), tuple(time.strftime("%Y-%m-%d %H:%M", time.gmtime(EPOCH)).split()))
        found[path.removeprefix("./")] = mode
    same("what the package holds", found, {**FILES, **{folder: "drwxr-xr-x" for folder in FOLDERS}})


def linked(ptab, folder):
    """The program that is packed, linked twice."""
    paths = []
    other = {"TZ": "Asia/Tokyo", "LC_ALL": "C.UTF-8", "HOME": folder}
    for place, mask, more in (("linked", 0o022, {}), ("elsewhere/once more", 0o077, other)):
        told = must(f"{TOP}/packaging/release.sh", f"{place}/ptab", cwd=folder, preexec_fn=lambda: os.umask(mask),
                    env={**os.environ, "PTAB": ptab, **more})
        paths.append(told.strip())
        same("where it stands", paths[-1], os.path.realpath(f"{folder}/{place}/ptab"))
        time.sleep(1.1)
    same("the bytes of both programs", content(paths[0]) == content(paths[1]), True)
    segments, sections = must("readelf", "-lW", paths[0]), must("readelf", "-dW", paths[0])
    same("it wants no loader and no library", ("INTERP" in segments, "(NEEDED)" in sections), (False, False))
    same("its place is any, and what is relocated is read-only", ("PIE" in sections, "GNU_RELRO" in segments), (True, True))
    same("no stack is run", re.search(r"GNU_STACK .* (\S+) +0x", segments).group(1), "RW")
    return paths[0]


def runs_alone(release, folder):
    """In a root that holds nothing else, where root may make one."""
    root = f"{folder}/root"
    os.mkdir(root)
    shutil.copy(release, f"{root}/ptab")
    if os.geteuid() == 0:
        same("in an empty root", must("/ptab", "--version", preexec_fn=lambda: os.chroot(root)), must(release, "--version"))


def answers_alike(ptab, release, folder):
    """What both programs answer, and what they leave, on a GPT, an MBR and no table."""
    image, fresh = f"{folder}/alike.img", ["--fresh", "0123456789abcdef" * 16]
    makes = (["o", "a:1", "n:1:40:0:EF00", "c:1:Grüße"], [])
    lines = (["show", image], ["show", "--json", image], ["show", "--human", image], ["verify", image], ["free", image], ["types"],
             ["locate", image, "1", "0"], ["plan", image, *fresh, "c:1:x"], ["edit", image, *fresh, "o"], ["repair", image], ["help"],
             ["show", f"{folder}/none"], ["show", folder], ["edit", image, "c:9:x"], ["show", "--device", image], ["nonsense"])
    for words in makes:
        for line in lines:
            found = []
            for program in (ptab, release):
                with open(image, "wb") as it:
                    it.truncate(1 << 20)
                if words:
                    must(ptab, "edit", image, *fresh, *words)
                done = subprocess.run([program, *line], capture_output=True)
                found.append((done.returncode, done.stdout, done.stderr, content(image)))
            same(f"{line}", found[1], found[0])


def told(deb, sum_of):
    """What it says of itself."""
    text = must("dpkg-deb", "-I", deb)
    fields = {name: must("dpkg-deb", "-f", deb, name).strip() for name in (
        "Package", "Version", "Architecture", "Depends", "Built-Using", "Section", "Priority", "Maintainer", "Description",
        "Installed-Size")}
    head = must("git", "-C", TOP, "rev-parse", "HEAD").strip()
    same("its name", (fields["Package"], fields["Section"], fields["Priority"]), ("ptab", "admin", "optional"))
    same("its architecture", fields["Architecture"], must("dpkg", "--print-architecture").strip())
    version = re.escape(must(f"{TOP}/packaging/version.sh").strip())
    same("its version", bool(re.fullmatch(rf"{version}\+git\d{{14}}\.{head[:12]}(\.changed)?", fields["Version"])), True)
    same("its maintainer", bool(re.fullmatch(r"[^<>]+ <[^<>@ ]+@[^<>@ ]+>", fields["Maintainer"])), True)
    same("what it needs, and what is inside it", (fields["Depends"], fields["Built-Using"]), ("", "glibc (= 2.36-9+deb12u14)"))
    lines = fields["Description"].splitlines()
    commit = head + ("-changed" if fields["Version"].endswith(".changed") else "")
    same("its description's end", [line.strip() for line in lines[-3:]], [
        f"Commit: {commit}", f"Kit: {KIT}", f"SHA-256 of the program: {sum_of}"])
    same("dpkg-deb -I", (" new Debian package, version 2.0." in text, f"Kit: {KIT}" in text), (True, True))
    return commit, fields


def unpacked(ptab, deb, folder, commit, fields, sum_of):
    tree, control = f"{folder}/tree", f"{folder}/control"
    must("dpkg-deb", "-x", deb, tree)
    must("dpkg-deb", "-e", deb, control)
    same("the program", content(f"{tree}/usr/bin/ptab") == content(ptab), True)
    same("the program runs", must(f"{tree}/usr/bin/ptab", "--help"), must(ptab, "--help"))
    for name in ("ptab", "ptab-run"):
        same("the man page", gzip.decompress(content(f"{tree}/usr/share/man/man8/{name}.8.gz")) == content(f"{TOP}/man/{name}.8"), True)
    same("ptab-run", content(f"{tree}/usr/bin/ptab-run") == content(f"{TOP}/tools/ptab-run"), True)
    for place, source in {**MODULES, **{place: "safe/tool" for place in SAFE}}.items():
        same(place, content(f"{tree}/{place}") == content(f"{TOP}/tools/{source}"), True)
    for place, source in COMPLETIONS.items():
        same(place, content(f"{tree}/{place}") == content(f"{TOP}/completion/{source}"), True)
    built = content(f"{tree}/usr/share/doc/ptab/BUILD").decode()
    same("BUILD", built.splitlines()[:6],
         ["program: /usr/bin/ptab", f"sha256: {sum_of}", f"commit: {commit}", f"kit: {KIT}", f"time: {EPOCH}", f"linked: {LINKED}"])
    changes = gzip.decompress(content(f"{tree}/usr/share/doc/ptab/changelog.gz")).decode().splitlines()
    same("the changelog's first line", changes[0], f"ptab ({fields['Version']}) unstable; urgency=medium")
    author = must("git", "-C", TOP, "log", "-1", "--format=%an <%ae>").strip()
    hour = time.strftime("%a, %d %b %Y %H:%M:%S +0000", time.gmtime(EPOCH))
    same("the changelog's last line", changes[-1], f" -- {author}  {hour}")
    same("the changelog tells the commit", f"(commit {commit.removesuffix('-changed')})" in " ".join(changes), True)
    same("the copyright file", content(f"{tree}/usr/share/doc/ptab/copyright").decode().splitlines()[0],
         "Format: https://www.debian.org/doc/packaging-manuals/copyright-format/1.0/")
    sums = dict(reversed(line.split("  ")) for line in content(f"{control}/md5sums").decode().splitlines())
    same("md5sums", sums, {path: hashlib.md5(content(f"{tree}/{path}")).hexdigest() for path in FILES})
    same("its size", int(fields["Installed-Size"]), sum((os.path.getsize(f"{tree}/{path}") + 1023) // 1024 for path in FILES))
    # as BUILD says: the package again, from the installed program
    line = re.search(r"^    PTAB=/usr/bin/ptab (.*) packaging/debian.sh ptab.deb$", built, re.MULTILINE).group(1)
    done = must("sh", "-c", f"{line} PTAB={tree}/usr/bin/ptab {TOP}/packaging/debian.sh {folder}/again.deb")
    same("the package again", (done, content(f"{folder}/again.deb") == content(deb)), (f"{folder}/again.deb\n", True))


def links(folder):
    """Each link of the pages below a folder leads to a file there, or to a heading of the same page; and each page and each recipe that
    they name is there."""
    for at, _, names in os.walk(folder):
        for page in (f"{at}/{name}" for name in names if name.endswith(".md")):
            text = content(page).decode()
            headings = {re.sub(r"[^\w -]", "", it).strip().lower().replace(" ", "-") for it in re.findall(r"^#+ (.*)$", text, re.MULTILINE)}
            for path, anchor in LINK.findall(text):
                same(f"{page} leads to {path or anchor}", os.path.isfile(f"{at}/{path}") if path else anchor in headings, True)
            for path in re.findall(r"\b(?:docs/\w+\.md|examples/recipes/\w+\.sh)\b", text):
                same(f"{page} names {path}", os.path.isfile(f"{folder}/{path}"), True)


def recipes(tree, folder):
    """The pages and the recipes are the repository's, and a recipe runs where it is unpacked."""
    doc = f"{tree}/usr/share/doc/ptab"
    for path in (*PAGES, *RECIPES):
        same(path, content(f"{doc}/{path}") == content(f"{TOP}/{path}"), True)
    links(doc)
    image, where = f"{folder}/recipe.img", {**os.environ, "PTAB": f"{tree}/usr/bin/ptab"}
    with open(image, "wb") as it:
        it.truncate(1 << 20)
    must(where["PTAB"], "edit", image, "--fresh", "01" * 16, "o")
    same("dump.sh", must(f"{doc}/examples/recipes/dump.sh", image, env=where).splitlines()[2:],
         ["o", "U:01010101-0101-4101-8101-010101010101", "a:1"])


def named():
    """The files that docs/c.md names, the folders of the examples and of the layers, and all to which pages of these lead."""
    words = {word.removeprefix("./") for word in re.findall(r"[\w./-]+\w", content(f"{TOP}/docs/c.md").decode())}
    files = must("git", "-C", TOP, "ls-files", "-z").split("\0")
    return led_to(it for it in files if it in {*words, "docs/c.md"} or it.startswith(FOLDERS_OF_DEV))


def example(tree, folder, ptab):
    """An example of the package, over its library."""
    doc = f"{tree}/usr/share/doc/libptab-dev"
    must("cc", f"{doc}/examples/c/rename.c", f"-I{tree}/usr/include", f"-L{tree}/usr/lib", f"-Wl,-rpath,{tree}/usr/lib", "-lptab",
         "-o", f"{folder}/rename")
    with open(f"{folder}/disk.img", "wb") as it:
        it.truncate(1 << 20)
    must(ptab, "edit", f"{folder}/disk.img", "--fresh", "0" * 64, "o", "a:1", "n:1:40:0", "c:1:root")
    same("examples/c/rename.c", must(f"{folder}/rename", cwd=folder), "1 root\ndone\n")
    same("the name", must(ptab, "show", f"{folder}/disk.img").split()[-1], "archive")


def library(archive, folder, ptab):
    """The package of the library, built twice; what it holds."""
    def built(out, mask, **more):
        return must(f"{TOP}/packaging/debian_dev.sh", out, preexec_fn=lambda: os.umask(mask),
                   env={**os.environ, "LIBRARY": archive, "KIT": KIT, "SOURCE_DATE_EPOCH": str(EPOCH), **more}).strip()
    os.mkdir(f"{folder}/dev")
    deb, again = built(f"{folder}/dev", 0o022), built(f"{folder}/dev.deb", 0o077, TZ="Asia/Tokyo", HOME=folder)
    same("the bytes of both packages of the library", content(deb) == content(again), True)
    found = {line.split()[5].removeprefix("./usr/"): line[:10] for line in must("dpkg-deb", "-c", deb).splitlines() if line[0] != "d"}
    wanted = {**DEV, **{f"share/doc/libptab-dev/{path}": path for path in named()}}
    same("the examples and the crate are among them", {f"share/doc/libptab-dev/{it}" for it in (
        "docs/commands.md", "examples/c/ptab.c", "examples/python/rename.py", "bindings/rust/Cargo.toml", "bindings/rust/src/lib.rs",
        "bindings/c/memory.c", "crates/pt_c/src/lib.rt", "crates/pt_replay/specs/Claims.antt")} <= set(wanted), True)
    same("what the library's package holds", sorted(found), sorted(wanted))
    must("dpkg-deb", "-x", deb, f"{folder}/devtree")
    for place, source in wanted.items():
        if source:
            path = f"{TOP}/{source}"
            same(f"its {place}", content(f"{folder}/devtree/usr/{place}") == content(path), True)
            same(f"the mode of {place}", found[place], "-rwxr-xr-x" if os.access(path, os.X_OK) and "share/doc" in place else "-rw-r--r--")
    links(f"{folder}/devtree/usr/share/doc/libptab-dev")
    example(f"{folder}/devtree", folder, ptab)
    with open(f"{folder}/devtree/usr/lib/pkgconfig/ptab.pc", encoding="utf-8") as it:
        same("no path that the loader knows", "rpath" in it.read(), False)
    sum_of = hashlib.sha256(content(archive)).hexdigest()
    same("its description's end", must("dpkg-deb", "-f", deb, "Description").splitlines()[-1].strip(),
         f"SHA-256 of the proved archive: {sum_of}")


def refused(ptab, folder):
    for words, more, status in (([], {}, 2), (["-x"], {}, 2), (["a", "b"], {}, 2), ([f"{folder}/no.deb"], {"PTAB": f"{folder}/none"}, 1)):
        done = subprocess.run([f"{TOP}/packaging/debian.sh", *words], capture_output=True, text=True,
                              env={**os.environ, "PTAB": ptab, "KIT": KIT, **more})
        same(f"debian.sh {words}", (done.stdout, done.returncode), ("", status))
    same("no package", os.path.exists(f"{folder}/no.deb"), False)


def with_libraries(ptab, folder):
    """A package of the program with shared libraries."""
    deb = build(ptab, f"{folder}/shared.deb", folder)
    needs = [must("dpkg-deb", "-f", deb, field).strip() for field in ("Depends", "Built-Using")]
    same("what the program with shared libraries needs", (bool(re.fullmatch(r"libc6 \(>= 2\.\d+\)", needs[0])), needs[1]), (True, ""))
    same("its BUILD", b"\nlinked: with shared libraries\n" in subprocess.run(
        f"dpkg-deb --fsys-tarfile {deb} | tar -xO ./usr/share/doc/ptab/BUILD", shell=True, capture_output=True).stdout, True)


def main():
    built = os.path.abspath(sys.argv[1])
    with tempfile.TemporaryDirectory() as folder:
        ptab = linked(built, folder)
        runs_alone(ptab, folder)
        answers_alike(built, ptab, folder)
        with_libraries(built, folder)
        sum_of = hashlib.sha256(content(ptab)).hexdigest()
        os.mkdir(f"{folder}/out")
        other = f"{folder}/the same program"
        with open(other, "wb") as it:
            it.write(content(ptab))
        deb = build(ptab, f"{folder}/out", folder)
        time.sleep(1.1)
        again = build(other, "again.deb", f"{folder}/out", mask=0o077, TZ="Asia/Tokyo", LC_ALL="C.UTF-8", HOME=folder)
        same("where it stands", (os.path.dirname(deb), again), (f"{folder}/out", f"{folder}/out/again.deb"))
        same("the bytes of both", content(deb) == content(again), True)
        later = build(ptab, f"{folder}/later.deb", folder, SOURCE_DATE_EPOCH=str(EPOCH + 1))
        same("another time, other bytes", content(deb) == content(later), False)
        listed(deb)
        commit, fields = told(deb, sum_of)
        same("its file name", os.path.basename(deb), f"ptab_{fields['Version']}_{fields['Architecture']}.deb")
        unpacked(ptab, deb, folder, commit, fields, sum_of)
        recipes(f"{folder}/tree", folder)
        refused(ptab, folder)
        if len(sys.argv) > 2:
            library(os.path.abspath(sys.argv[2]), folder, ptab)
    print(f"the package: {compared.count} passed, 0 failed; {sum_of[:16]}")


main()
