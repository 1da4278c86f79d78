#!/usr/bin/env bash
# Makes of the proved archive what a C program links: OUT/libptab.a (the archive, its memory, and the calls of ptab_disk.h) and
# OUT/libptab.so.2 with its link.
#
# usage: bindings/c/build.sh ARCHIVE OUT     ARCHIVE is crates/pt_c/out/libpt_c.a, by packaging/build.py pt_c
#   MEMORY=FILE.c   the three functions of memory; else bindings/c/memory.c, over malloc
set -euo pipefail
if [ $# != 2 ]; then
  sed -n 's/^# usage: /usage: /p' "$0" >&2
  exit 2
fi
here=$(cd "$(dirname "$0")" && pwd)
archive=$1
out=$2
folder=$(mktemp -d)
trap 'rm -rf "$folder"' EXIT
mkdir -p "$out"
flags="-O2 -std=c11 -Wall -Wextra -pedantic -Werror -fPIC -I$here/../../include"
sources="ptab_disk ptab_disk_open ptab_disk_io ptab_disk_mbr ptab_disk_text ptab_disk_list"
${CC:-cc} $flags -c "${MEMORY:-$here/memory.c}" -o "$folder/ptab_memory.o"
for source in $sources; do
  ${CC:-cc} $flags -c "$here/$source.c" -o "$folder/$source.o"
done
cp "$archive" "$folder/libptab.a"
chmod u+w "$folder/libptab.a"
(cd "$folder" && ar rDs libptab.a ptab_memory.o $(printf '%s.o ' $sources)) 2>"$folder/said"
{
  echo 'PTAB_2 {'
  echo '  global: ptab_wanted; ptab_members; ptab_verify; ptab_locate; ptab_plan; ptab_repair; ptab_adopt_plan; ptab_check;'
  echo '  ptab_table_text; ptab_set_plan; ptab_free;'
  echo '  ptab_guid_text; ptab_type_code; ptab_version;'
  echo '  ptab_disk_open; ptab_disk_take; ptab_disk_close; ptab_disk_size; ptab_disk_members; ptab_disk_verify; ptab_disk_locate;'
  echo '  ptab_disk_edit; ptab_disk_repair; ptab_disk_adopt; ptab_disk_apply;'
  echo '  ptab_disk_plan; ptab_disk_repair_plan; ptab_disk_adopt_plan; ptab_disk_check;'
  echo '  ptab_disk_table; ptab_disk_set; ptab_disk_set_plan; ptab_disk_free;'
  echo '  ptab_disk_list; ptab_message; ptab_name_text; ptab_must;'
  echo '  local: *;'
  echo '};'
} >"$folder/exports"
${CC:-cc} -shared -Wl,-soname,libptab.so.2 -Wl,-z,defs -Wl,--version-script="$folder/exports" -Wl,--whole-archive "$folder/libptab.a" \
  -Wl,--no-whole-archive -o "$folder/libptab.so.2"
install -m 644 "$folder/libptab.a" "$out/libptab.a"
install -m 644 "$folder/libptab.so.2" "$out/libptab.so.2"
ln -sf libptab.so.2 "$out/libptab.so"
