#!/usr/bin/env bash
# Prints what `ptab show` prints as JSON, in the form of `sfdisk --json`. Label partitions, which sfdisk doesn't show, are left
# out, and so are the fields that sfdisk has for tables unlike most: grain (images of a few MiB) and table-length.
#
# usage: examples/recipes/json.sh IMAGE     environment: PTAB (ptab), SECTOR_SIZE (512)
set -euo pipefail
if [ $# != 1 ]; then
  sed -n 's/^# usage: /usage: /p' "$0" >&2
  exit 2
fi
size=${SECTOR_SIZE:-512}
table=$("${PTAB:-ptab}" show --sector-size "$size" "$1")
printf '%s\n' "$table" | python3 /dev/fd/3 "$1" "$size" 3<<'END'
import json
import signal
import sys

TYPES = {"EF00": "C12A7328-F81F-11D2-BA4B-00A0C93EC93B", "8300": "0FC63DAF-8483-4772-8E79-3D69D8477DE4",
         "8200": "0657FD6D-A4AB-43C4-84E5-0933C84B4F4F", "0700": "EBD0A0A2-B9E5-4433-87C0-68B6B72699C7",
         "A500": "516E7CB4-6ECF-11D6-8FF8-00022D09712B", "A503": "516E7CB6-6ECF-11D6-8FF8-00022D09712B"}
BITS = ("RequiredPartition", "NoBlockIOProtocol", "LegacyBIOSBootable")


def attributes(value):
    """Their names and numbers; the bits 3 to 47, which mean nothing, aren't shown."""
    own = ",".join(str(bit) for bit in range(48, 64) if value >> bit & 1)
    return " ".join([name for bit, name in enumerate(BITS) if value >> bit & 1] + (["GUID:" + own] if own else []))


def partition(device, is_gpt, line):
    number, first, last, kind, *rest = line.split(" ", 6)
    start, end = int(first), int(last)
    told = {"node": device + ("p" if device[-1].isdigit() else "") + number, "start": start, "size": end - start + 1}
    if not is_gpt:
        return {**told, "type": f"{int(kind, 16):x}", **({"bootable": True} if rest[0] == "80" else {})}
    named = {"name": rest[2]} if len(rest) == 3 else {}
    marks = attributes(int(rest[0], 16))
    if len(kind) == 4 and kind not in TYPES:
        sys.exit(f"json.sh: no GUID for the type code {kind} here")
    return {**told, "type": TYPES.get(kind, kind.upper()), "uuid": rest[1].upper(), **named, **({"attrs": marks} if marks else {})}


def lines_of(table):
    """The text of the table, laid out as sfdisk does."""
    fields = [f'      {json.dumps(key)}: {json.dumps(value, ensure_ascii=False)}' for key, value in table.items() if key != "partitions"]
    parts = ["         {\n" + ",\n".join(f"            {json.dumps(key)}: {json.dumps(value, ensure_ascii=False)}"
                                          for key, value in part.items()) + "\n         }" for part in table["partitions"]]
    if parts:
        fields.append('      "partitions": [\n' + ",".join([parts[0]] + [part.lstrip() for part in parts[1:]]) + "\n      ]")
    return '{\n   "partitiontable": {\n' + ",\n".join(fields) + "\n   }\n}"


def main():
    # where nobody reads the output any more, that ends it
    signal.signal(signal.SIGPIPE, signal.SIG_DFL)
    device, size = sys.argv[1], int(sys.argv[2])
    sys.stdin.reconfigure(encoding="utf-8", newline="\n")
    sys.stdout.reconfigure(encoding="utf-8")
    first, *lines = sys.stdin.read().split("\n")[:-1]
    is_gpt = first.startswith("gpt ")
    table = {"label": "gpt" if is_gpt else "dos"}
    if is_gpt:
        _, _, usable, last, disk = first.split(" ")
        table |= {"id": disk.upper(), "device": device, "unit": "sectors", "firstlba": int(usable), "lastlba": int(last)}
    else:
        with open(device, "rb") as it:
            it.seek(440)
            table |= {"id": f"0x{int.from_bytes(it.read(4), 'little'):08x}", "device": device, "unit": "sectors"}
    table["sectorsize"] = size
    table["partitions"] = [partition(device, is_gpt, line) for line in lines if "." not in line.split(" ")[0]]
    print(lines_of(table))


main()
END
