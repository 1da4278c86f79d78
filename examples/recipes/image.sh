#!/usr/bin/env bash
# Builds a disk image with an EFI system partition and a root partition, as an image builder does, without root and without mounting:
# the table first, and then each filesystem written at the sectors that ptab tells.
#
# usage: examples/recipes/image.sh OUT ROOT [ESP]     environment: PTAB (ptab), LENGTH (64M), ESP_SECTORS (65536), FRESH (96 digits)
#
# ROOT is a folder, which mke2fs puts into an ext4 filesystem, or a file that holds a filesystem. ESP is a file that holds a FAT
# filesystem; without it mkfs.fat makes an empty one.
set -euo pipefail
export PATH="$PATH:/usr/sbin:/sbin"
if [ $# -lt 2 ] || [ $# -gt 3 ]; then
  sed -n 's/^# usage: /usage: /p' "$0" >&2
  exit 2
fi
out=$1
root=$2
esp=${3:-}
ptab=${PTAB:-ptab}
fresh=${FRESH:-$(head -c 48 /dev/urandom | od -An -v -tx1 | tr -d ' \n')}
fail() {
  echo "image.sh: $1" >&2
  exit 1
}
rm -f "$out"
truncate -s "${LENGTH:-64M}" "$out"
"$ptab" edit "$out" --fresh "$fresh" o "n:1:0:+${ESP_SECTORS:-65536}:EF00" c:1:esp n:2:0:0:8300 c:2:root >/dev/null

# How many sectors partition $1 has.
length_of() { "$ptab" show "$out" | awk -v number="$1" 'NR > 1 && $1 == number { print $3 - $2 + 1 }'; }

# Writes the file $2 to partition $1.
put() {
  if [ "$(stat -Lc %s "$2")" -gt $(($(length_of "$1") * 512)) ]; then fail "$2 doesn't fit into partition $1"; fi
  dd if="$2" of="$out" bs=1M oflag=seek_bytes seek=$(($("$ptab" locate "$out" "$1" 0) * 512)) conv=notrunc status=none
}

if [ -n "$esp" ]; then
  put 1 "$esp"
elif command -v mkfs.fat >/dev/null; then
  start=$("$ptab" locate "$out" 1 0)
  # it warns that the file is longer than the filesystem
  if ! said=$(mkfs.fat -n ESP -h "$start" --offset "$start" "$out" $(($(length_of 1) / 2)) 2>&1); then fail "$said"; fi
else
  fail "no mkfs.fat here: give a file with a FAT filesystem as ESP"
fi
if [ -d "$root" ]; then
  command -v mke2fs >/dev/null || fail "no mke2fs here: give a file with a filesystem as ROOT"
  start=$(($("$ptab" locate "$out" 2 0) * 512))
  mke2fs -q -F -t ext4 -L root -E "offset=$start,root_owner=0:0" -d "$root" "$out" $(($(length_of 2) / 2))k
else
  put 2 "$root"
fi
for number in 1 2; do
  echo "$number $("$ptab" locate "$out" "$number" 0) $("$ptab" locate "$out" "$number" $(($(length_of "$number") - 1)))"
done
"$ptab" verify "$out"
