#!/usr/bin/env bash
# Builds the command as it is installed and the archive for callers in C, and measures, in instructions: show, verify, rename and repair
# beside sgdisk, sfdisk, parted and cgpt, and beside a program in C that does nothing else; devices; new tables beside sgdisk and sfdisk;
# edits of MBR disks beside sfdisk and parted; plans, the check of long ones, the worst of these, tables with labels; sgdisk through
# ptab-run; the calls of the library for C, and a list by it beside libfdisk; the sum beside the same loop in C. Ends with status 1 where a
# bound that one of them states doesn't hold.
set -euo pipefail
cd "$(dirname "$0")/.."
export PATH="$PATH:/usr/sbin:/sbin"
tests/install.sh bench
ptab=$(packaging/release.sh)
archive=$(packaging/build.py pt_c)
held=0
for name in tools floor device edits records checks worst_plans other_tools; do
  python3 "bench/$name.py" "$ptab" || held=1
done
for name in c_calls lists; do
  python3 "bench/$name.py" "$archive" || held=1
done
bench/crc.sh || held=1
exit $held
