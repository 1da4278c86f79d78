#!/usr/bin/env bash
# Renames a partition of a GPT as soon as nobody else holds the image's lock. ptab takes that lock itself, and doesn't wait for it; this
# waits by flock, and tells ptab that the lock is held. All who write the image have to take it; `sfdisk --lock` and udev take the same one.
#
# usage: examples/recipes/rename.sh IMAGE NUM NAME     environment: PTAB (ptab), SECTOR_SIZE (512), WAIT (seconds, 10)
set -euo pipefail
if [ $# != 3 ]; then
  sed -n 's/^# usage: /usage: /p' "$0" >&2
  exit 2
fi
ptab=${PTAB:-ptab}
# opened for reading: a lock needs no more, and no file is made where there is none
exec 9<"$1"
if ! flock -x -w "${WAIT:-10}" 9; then
  echo "rename.sh: another program holds the lock of $1" >&2
  exit 1
fi
"$ptab" edit --no-lock --sector-size "${SECTOR_SIZE:-512}" "$1" "c:$2:$3"
