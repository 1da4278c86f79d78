#!/usr/bin/env bash
# Makes the table that dump.sh printed again, on an image that lost it, as when both copies of a GPT were overwritten. It is one change:
# a power cut leaves no table or the whole one. No partition's data is touched, but the second sector of each slice, where its label goes.
#
# usage: examples/recipes/restore.sh [-f] IMAGE TABLE     environment: PTAB (ptab), SECTOR_SIZE (512)
#
# An image that has a table is refused; -f replaces that table.
set -euo pipefail
force=no
if [ "${1:-}" = -f ]; then
  force=yes
  shift
fi
if [ $# != 2 ]; then
  sed -n 's/^# usage: /usage: /p' "$0" >&2
  exit 2
fi
image=$1
file=$2
ptab=${PTAB:-ptab}
size=${SECTOR_SIZE:-512}
wanted=$(sed -n 's/^# show //p' "$file")
mapfile -t words < <(grep -v '^#' "$file")
read -r _ sectors _ <<<"$wanted"
length=$(stat -Lc %s "$image")
if [ "$sectors" != $((length / size)) ]; then
  echo "restore.sh: $image has $((length / size)) sectors of $size bytes, and the table is one for ${sectors:-none}" >&2
  exit 1
fi
if [ "$force" = no ] && "$ptab" show --sector-size "$size" "$image" >/dev/null 2>&1; then
  echo "restore.sh: $image has a table; look at it with ptab show, and replace it with restore.sh -f" >&2
  exit 1
fi
# a GUID for the disk and for each partition; the words u and U put the old ones in their place
fresh=$(head -c $((16 * (1 + ${#words[@]}))) /dev/urandom | od -An -v -tx1 | tr -d ' \n')
"$ptab" edit --sector-size "$size" --fresh "$fresh" "$image" -- "${words[@]}"
found=$("$ptab" show --sector-size "$size" "$image")
if [ "$found" != "$wanted" ]; then
  echo "restore.sh: restored, with differences from the old table:" >&2
  diff <(printf '%s\n' "$wanted") <(printf '%s\n' "$found") >&2 || true
fi
