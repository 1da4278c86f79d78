"""The crates of the repository, as crates.txt lists them (`rt help` tells its form), and where what is made of each stands."""
import os
import re

# NAME: the libraries that it names. Between the name and the colon, `staticlib` is a static library's
LINE = re.compile(r"(\w+)((?: +\S+)*?): *(.*)")
PARTS = ("src", "specs", "proofs")


class Crate:
    """A crate: a program where it has src/main.rt, else a static library or a library."""

    def __init__(self, root, line):
        self.line = line
        self.name, words, names = LINE.fullmatch(line).groups()
        self.folder = f"{root}/crates/{self.name}"
        self.named, self.is_static = names.split(), "staticlib" in words.split()
        self.is_program = os.path.isfile(f"{self.folder}/src/main.rt")
        self.rlib = f"{self.folder}/out/rlib/{self.name}.rlib"

    def join(self, crates):
        """Finds the crates that it names. What isn't one of the repository's is a library of the kit; std is always named."""
        self.deps = [crates[it] for it in self.named if it in crates]
        self.of_kit = ["std", *(it for it in self.named if it not in crates)]

    def below(self):
        """The crates that it stands on, each behind those that it stands on itself."""
        return list(dict.fromkeys(it for dep in self.deps for it in (*dep.below(), dep)))

    def makes_rlib(self):
        return not (self.is_program or self.is_static)

    def place(self):
        """Where a program, an archive, or a library for the crates above it stands once it is proved."""
        built = self.name if self.is_program else f"lib{self.name}.a"
        return self.rlib if self.makes_rlib() else f"{self.folder}/out/{built}"

    def files(self):
        """Its sources, definitions and proofs."""
        walks = (os.walk(f"{self.folder}/{part}") for part in PARTS)
        return sorted(f"{folder}/{name}" for walk in walks for folder, _, names in walk for name in names)


def crates_of(root):
    """The crates by their names, in the order of crates.txt."""
    with open(f"{root}/crates.txt", encoding="utf-8") as it:
        lines = [line.partition("#")[0].strip() for line in it]
    crates = {it.name: it for it in (Crate(root, line) for line in lines if line)}
    for crate in crates.values():
        crate.join(crates)
    return crates
