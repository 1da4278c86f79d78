"""The words of partition tools: which of them are options, and whether a call only reads."""
import collections
import re

# What a tool is told: options, each with its value and the place of that, and the places of its other words.
Told = collections.namedtuple("Told", "flags places")
# The short options of each that take a value, and the long ones that take the next word for it.
VALUED = {
    "sfdisk": ("NOowWXYu", {"--partno", "--backup-file", "--output", "--wipe", "--wipe-partitions", "--label", "--label-nested", "--unit",
                             "--sector-size"}),
    "fdisk": ("botwWCHS", {"--sector-size", "--output", "--type", "--wipe", "--wipe-partitions", "--cylinders", "--heads", "--sectors"}),
    "cfdisk": ("", set()),
    "gdisk": ("", set()),
    "parted": ("a", {"--align"}),
    "sgdisk": ("AaBbcdhijklmnNrRStTuU", {
        f"--{it}" for it in (
            "attributes set-alignment byte-swap-name backup change-name delete hybrid info move-main-table move-backup-table load-backup "
            "gpttombr new largest-new transpose replicate resize-table typecode transform-bsd partition-guid disk-guid").split()}),
}
# The short options whose value, if any, stands in the same word.
OWN_VALUED = {"fdisk": "cuL", "cfdisk": "L"}
# the tools whose disk is their last word
DISK_LAST = ("sgdisk", "cgpt")
# how each says that it failed
FAILING = {"sfdisk": 1, "fdisk": 1, "cfdisk": 1, "gdisk": 1, "parted": 1, "sgdisk": 4, "cgpt": 1}
SFDISK_READS = {*("-d -J -B -g -G -l -F -s -T -V -n -h -v".split()), *(
    f"--{it}" for it in "dump json backup-pt-sectors show-geometry show-pt-geometry list list-free show-size list-types verify no-act help "
                        "version".split())}
SFDISK_ACTS = {"-A", "--activate", "-r", "--reorder", "--delete", "--relocate", "-a", "--append", "-N", "--partno", "--move-data"}
# which print, with so many words, what they change with more
SFDISK_ASKS = {"--part-label": 2, "--part-type": 2, "--part-uuid": 2, "--part-attrs": 2, "--disk-id": 1, "-A": 1, "--activate": 1}
SGDISK_READS = {*("-p -i -v -b -V -D -E -F -f -O -a -L -?".split()), *(
    f"--{it}" for it in "print info verify backup version display-alignment end-of-largest first-aligned-in-largest first-in-largest "
                        "print-mbr set-alignment list-types help usage".split())}
READS = {
    "fdisk": {"-l", "--list", "-x", "--list-details", "-s", "--getsz", "-h", "--help", "-V", "--version"},
    "cfdisk": {"-r", "--read-only", "-h", "--help", "-V", "--version"},
    "gdisk": {"-l"},
    "parted": {"-l", "--list", "-h", "--help", "-v", "--version"},
}
PARTED_READS = re.compile(r"p(rint)?|devices|free|list|all|\d+|u(nit)?|s|B|[kMGT]i?B|%|cyl|chs|compact|align-check|min(imal)?|opt(imal)?|"
                          r"h(elp)?|version|q(uit)?")


def told(name, words):
    """The words of a call, as its tool takes them. Those of cgpt are a command, its options, and the disk."""
    if name == "cgpt":
        return Told([(it, "", at) for at, it in enumerate(words) if it.startswith("-")], [len(words) - 1] * bool(words))
    flags, places, at = [], [], 0
    while at < len(words):
        word = words[at]
        if word == "--":
            places += range(at + 1, len(words))
            break
        if word.startswith("--"):
            flag, has_value, value = word.partition("=")
            if flag in VALUED[name][1] and not has_value and at + 1 < len(words):
                at, value = at + 1, words[at + 1]
            flags.append((flag, value, at))
        elif word.startswith("-") and word != "-":
            at = letters(name, words, at, flags)
        else:
            places.append(at)
        at += 1
    return Told(flags, places)


def letters(name, words, at, flags):
    """Adds the options of a word with one dash; the last place that it takes."""
    word = words[at]
    for k, letter in enumerate(word[1:], 2):
        rest = word[k:]
        if letter in VALUED[name][0] and not rest and at + 1 < len(words):
            at, rest = at + 1, words[at + 1]
        flags.append((f"-{letter}", rest, at))
        if letter in VALUED[name][0] + OWN_VALUED.get(name, ""):
            break
    return at


def reads(name, words, is_asked):
    """Whether a call only reads. `is_asked` is whether its input is a terminal, at which it may ask."""
    flags, places = told(name, words)
    names = [flag for flag, _, _ in flags]
    if name == "sfdisk":
        acts = [it for it in names if it in SFDISK_ACTS or it in SFDISK_ASKS]
        if acts and not {"-n", "--no-act"} & {*names}:
            return all(len(places) == SFDISK_ASKS.get(it) for it in acts)
        return any(it in SFDISK_READS for it in names)
    if name == "sgdisk":
        return bool({"-P", "--pretend"} & {*names}) or bool(names) and all(sgdisk_reads(*it[:2]) for it in flags)
    if name == "cgpt":
        return not words or words[0] in ("show", "find", "help") or "-h" in names
    if name == "parted" and not READS[name] & {*names}:
        commands = [words[at] for at in places[1:]]
        is_fixed = {"-f", "--fix"} & {*names} or is_asked and not {"-s", "--script"} & {*names}
        return bool(commands) and not is_fixed and all(PARTED_READS.fullmatch(it) for it in commands)
    return bool(READS[name] & {*names})


def sgdisk_reads(flag, value):
    return flag in SGDISK_READS or flag in ("-A", "--attributes") and bool(re.fullmatch(r"list|\d+:(show|get.*)", value))


def moves_data(name, words):
    """Whether partitions' data would have to move with the table."""
    return name == "sfdisk" and any(flag.startswith("--move-d") for flag, _, _ in told(name, words).flags)
