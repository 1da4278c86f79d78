"""Runs any partition tool on a disk image, or on a disk, so that a power cut can't break the table.

The tool works on a sparse copy, which holds what such tools read. The table that it made there then becomes the image's: a stop at any
moment leaves the old table or the new one. Where that can't be done, the image isn't touched and the reason is printed.

usage: ptab-run [OPTION..] IMAGE TOOL WORD...                  `@` as a WORD, or behind the `=` of one, stands for the copy
       ptab-run --as-itself [OPTION..] IMAGE PROGRAM WORD...   the copy stands where IMAGE is
       ptab-run --save COPY [--sector-size N] [--device] [--no-lock] IMAGE

  --as-itself      PROGRAM, also a script or a shell, finds the copy under IMAGE's own path, in a mount namespace of its own; of a device
                   with its partitions. That needs root; for an image a user namespace serves too
  --plan           print the plan of the writes, and write nothing; the tool's output goes to standard error
  --lossy          go on also where something that no table carries isn't taken over: boot code, an MBR's disk signature, a hybrid MBR,
                   an array that stands elsewhere, data outside of tables, a file system that begins in sector 0
  --data           take over also what the tool wrote to sectors that no partition of the old table owns, as a file system in a new
                   partition: it is written, and compared, before the table changes. So a stop leaves the old table, or the new one
                   with all of the data
  --data-limit SIZE
                   data of SIZE bytes at most, or of so many K, M, G or T: 1G by default. The copies' folder must have twice that much room
  --by-table       zero the primary GPT header meanwhile, as `ptab adopt --by-table` does; else readers of the primary copy alone,
                   as Linux and GRUB, find the old table or the new one throughout
  --sector-size N  512 (the default) or 4096; a device has its own
  --device         IMAGE is a block device, which nobody may use. The kernel is told of the new table. Where sectors have 4096 bytes,
                   the copy is a loop device, but for `ptab`
  --in-use         take a device also where it is in use; what its partitions' users write next to a table, or to data, may be lost
  --no-lock        take no lock: the caller holds the image's. One that a caller is seen to hold is no hindrance without this
  --quiet          say nothing of a run that ends well, or as its tool did
  --save COPY      write the sparse copy as a backup of the table; `ptab adopt IMAGE COPY` brings the table back
  --               ends the options: IMAGE may begin with `-`
  -h, --help       print this; -V, --version: print the version of the `ptab` that is run

Where TOOL is `ptab`, `--sector-size N` is put in. In a script, `ptab COMMAND $PTAB_OPTIONS "$1"` takes the copy that is `$1`.

Exit status: the tool's own where that isn't 0 (the image isn't touched); else 0 done, 122 usage, 123 refused (the image isn't touched),
125 the image or a copy can't be read or written (where the image was being written, which the line says, it has the old table or the
new one), 126 or 127 the tool can't be run or found; 129, 130 or 143 ended by SIGHUP, SIGINT or SIGTERM: the line says whether the image
isn't touched or has the new table. `ptab` is the one in $PTAB, else the one beside this file, else the one in the path. Copies stand in
$TMPDIR, else in /tmp; where no file there can be as long as the disk, in /dev/shm, in the current folder, or in the image's.
"""
import os
import signal
import sys

from .disks import Image
from .ends import FAILED, SIGNALS, UNTOUCHED, USAGE, End, Stopped, print_out, say, stop
from .folders import in_folder
from .programs import BESIDE, call_ptab
from .runs import run

UNITS = {"K": 10, "M": 20, "G": 30, "T": 40}
FLAGS = ("as-itself", "plan", "lossy", "data", "by-table", "device", "in-use", "no-lock", "quiet")


def read_options(words):
    options = {**dict.fromkeys(FLAGS, False), "sector-size": None, "save": None, "data-limit": None}
    while words and words[0].startswith("-"):
        word = words.pop(0)
        if word == "--":
            break
        name, has_value, value = word[2:].partition("=") if word.startswith("--") else (None, "", "")
        if word in ("-h", "--help", "-V", "--version"):
            print_out(f"{__doc__.rstrip()}\n" if word in ("-h", "--help") else f"ptab-run, with {call_ptab(['--version'])[1]}")
            sys.exit(0)
        if name not in options:
            raise End(USAGE, f"{word}: no such option; ptab-run --help lists them")
        if isinstance(options[name], bool):
            if has_value:
                raise End(USAGE, f"--{name} takes no value")
            options[name] = True
        elif value or (words and not has_value):
            options[name] = value or words.pop(0)
        else:
            raise End(USAGE, f"--{name} takes a value")
    if options["sector-size"] not in (None, "512", "4096"):
        raise End(USAGE, "--sector-size takes 512 or 4096")
    options["sector-size"] = options["sector-size"] and int(options["sector-size"])
    if options["in-use"] and not options["device"]:
        raise End(USAGE, "--in-use is for a --device")
    if options["data-limit"] and not options["data"]:
        raise End(USAGE, "--data-limit is for --data")
    options["data-limit"] = size_in(options["data-limit"] or "1G") if options["data"] else 0
    if options["data"] and options["plan"]:
        raise End(USAGE, "--data can't go with --plan, which has the table's writes alone")
    if options["save"]:
        if len(words) != 1 or any(options[it] for it in FLAGS if it not in ("device", "no-lock")):
            raise End(USAGE, "--save takes COPY and IMAGE alone")
    elif len(words) < 2:
        raise End(USAGE, "IMAGE and TOOL are wanted; ptab-run --help says more")
    elif not options["as-itself"] and not any(it == "@" or it.endswith("=@") for it in words[2:]):
        raise End(USAGE, "`@` is wanted among the words of TOOL, for the copy of IMAGE")
    return options, words[0], words[1:]


def size_in(text):
    """The bytes that a SIZE comes to."""
    number, unit = (text[:-1], text[-1:]) if text[-1:] in UNITS else (text, "")
    if not (number.isascii() and number.isdecimal()):
        raise End(USAGE, "--data-limit takes bytes, or a number and K, M, G or T")
    return int(number) << UNITS.get(unit, 0)


def fill_streams():
    """Streams that were closed lead nowhere, so that no file takes their numbers."""
    file = 0
    while file < 3:
        file = os.open(os.devnull, os.O_RDWR)
        os.set_inheritable(file, file < 3)
    sys.stdout, sys.stderr = (it or open(os.devnull, "w", encoding="utf-8") for it in (sys.stdout, sys.stderr))


def main(folder, words):
    """The exit status of a run. A `ptab` in that folder goes before others in the path."""
    BESIDE.append(folder)
    fill_streams()
    for it in SIGNALS:
        if signal.getsignal(it) != signal.SIG_IGN:
            signal.signal(it, stop)
    path, image = "the image", None
    try:
        options, path, words = read_options(words)
        if options["as-itself"]:
            # what a plain run doesn't need isn't loaded
            from .namespaces import must_go
            options["way in"] = must_go(path, options["device"])
        image = Image(path, options, not options["plan"] and not options["save"])
        if options["save"]:
            from .backups import save
            return save(options["save"], image)
        # the program's copy, and the one that is kept when it has ended
        return in_folder(image, 2 * options["data-limit"], lambda folder: run(options, image, words, folder))
    except End as end:
        say(end.line)
        return end.status
    except OSError as error:
        say(f"{error.filename or path}: {error.strerror}")
        return FAILED
    except Stopped as end:
        say(f"ended by {signal.Signals(end.args[0]).name}: {path} {image.fate if image else UNTOUCHED}")
        return 128 + end.args[0]
