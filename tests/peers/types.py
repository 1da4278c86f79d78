#!/usr/bin/env python3
"""Holds the list of partition types against sfdisk and sgdisk: each GUID and each OSType is one that they have, sgdisk writes that GUID
where it is given the code, and the names of root and /usr partitions stand for the architectures that sfdisk names.

usage: tests/peers/types.py PTAB [FILE]     FILE has the lines in place of what `PTAB types` prints
"""
import collections
import json
import os
import re
import sys
import tempfile

sys.path.insert(0, os.path.join(os.path.dirname(os.path.abspath(__file__)), "..", "shared"))
from tools import must

ENTRY = re.compile(r"gpt ([0-9A-F]{4}|-) ([0-9a-f]{8}(?:-[0-9a-f]{4}){3}-[0-9a-f]{12}) ([a-z0-9-]{3,})")
RECORD = re.compile(r"mbr ([0-9A-F]{2}) ([a-z0-9-]{3,})")
DIGITS = re.compile(r"[0-9a-f]{1,4}")
Entry = collections.namedtuple("Entry", "code guid name")
# sfdisk's names of root and /usr partitions, and of the architectures in them where systemd has another one than in lower case
OF_SYSTEM = re.compile(r"Linux (root|/usr)( verity| verity sign\.)? \((.*)\)")
SUFFIXES = {None: "", " verity": "-verity", " verity sign.": "-verity-sig"}
ARCHITECTURES = {"ARM-64": "arm64", "IA-64": "ia64", "LoongArch-64": "loongarch64", "MIPS-32 LE": "mips-le", "MIPS-64 LE": "mips64-le",
                 "PPC64LE": "ppc64-le", "RISC-V-32": "riscv32", "RISC-V-64": "riscv64", "TILE-Gx": "tilegx"}
# other names that both have: sfdisk's name of the same GUID
SAME = {"esp": "EFI System", "bios-boot": "BIOS boot", "xbootldr": "Linux extended boot", "linux-generic": "Linux filesystem",
        "swap": "Linux swap", "home": "Linux home", "srv": "Linux server data", "var": "Linux variable data", "tmp": "Linux temporary data",
        "user-home": "Linux user's home", "raid": "Linux RAID", "lvm": "Linux LVM", "microsoft-basic": "Microsoft basic data",
        "microsoft-reserved": "Microsoft reserved", "windows-recovery": "Windows recovery environment", "freebsd": "FreeBSD data"}
LEAST = 100  # rows that the list has at least


def fail(line, why):
    sys.exit(f"types: {line}: {why}")


def rows(text):
    """The rows of the list: those of GPTs, then those of MBRs as (number, name)."""
    entries, records = [], []
    for line in text.splitlines():
        if it := ENTRY.fullmatch(line):
            entries.append(Entry(*it.groups()))
            if records:
                fail(line, "a row of a GPT behind one of an MBR")
        elif it := RECORD.fullmatch(line):
            records.append((it[1], it[2]))
        else:
            fail(line, "no row")
    for names in ([it.name for it in entries], [name for _, name in records]):
        for name, count in collections.Counter(names).items():
            if count > 1 or DIGITS.fullmatch(name):
                fail(name, "stands twice, or is digits")
    return entries, records


def by_sfdisk(label):
    """sfdisk's types of a kind of table: its names by the type's text."""
    lines = must("sfdisk", "--label", label, "-T").splitlines()[2:]
    return {kind.lower(): name.strip() for kind, name in (line.split(None, 1) for line in lines if line.strip())}


def by_sgdisk(codes):
    """The GUID that sgdisk writes for each code."""
    found = {}
    with tempfile.TemporaryDirectory() as folder:
        for at in range(0, len(codes), 100):
            part, image = codes[at:at + 100], f"{folder}/{at}"
            with open(image, "wb") as it:
                it.truncate(16 << 20)
            words = [word for k, code in enumerate(part, 1)
                     for word in ("-n", f"{k}:{2048 + k}:{2048 + k}", "-t", f"{k}:{code.lower()}")]
            must("sgdisk", "-a", "1", *words, image)
            table = json.loads(must("sfdisk", "--json", image))["partitiontable"]
            for it in table["partitions"]:
                found[part[int(it["node"].removeprefix(image).removeprefix("p")) - 1]] = it["type"].lower()
    return found


def systemd_name(name):
    """systemd's name of the type that sfdisk gives this one, where it is a root or /usr partition."""
    it = OF_SYSTEM.fullmatch(name)
    return it and f"{it[1].strip('/')}-{ARCHITECTURES.get(it[3], it[3].lower())}{SUFFIXES[it[2]]}"


def main(ptab, *file):
    if file:
        with open(file[0], encoding="ascii") as it:
            text = it.read()
    else:
        text = must(ptab, "types")
    entries, records = rows(text)
    gpt, dos = by_sfdisk("gpt"), by_sfdisk("dos")
    written = by_sgdisk([it.code for it in entries if it.code != "-"])
    for it in entries:
        if it.code != "-" and written[it.code] != it.guid:
            fail(it, f"sgdisk writes {written[it.code]} for the code")
        if it.guid not in gpt and it.guid not in written.values():
            fail(it, "a GUID that neither sfdisk nor sgdisk has")
    names = {it.name: it.guid for it in entries}
    for guid, name in gpt.items():
        if (wanted := systemd_name(name)) and names.get(wanted) != guid:
            fail(wanted, f"sfdisk has {guid}, {name}")
    for name, other in SAME.items():
        if gpt.get(names.get(name)) != other:
            fail(name, f"not sfdisk's {other}")
    for number, name in records:
        if number in ("00", "EE") or number.lower().lstrip("0") not in dos:
            fail(name, f"{number} isn't a type of sfdisk's")
    if len(entries) + len(records) < LEAST:
        fail(len(entries), "few rows")
    print(f"types: {len(entries) + len(records)} passed, 0 failed")


if len(sys.argv) not in (2, 3):
    sys.exit(__doc__)
main(*sys.argv[1:])
