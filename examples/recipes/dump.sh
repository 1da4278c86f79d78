#!/usr/bin/env bash
# Prints the GPT of an image as the words that make it again, with the partitions of BSD labels: for restore.sh, or to read and to change.
# Keep the output on another disk. A partition's data is not part of it.
#
# usage: examples/recipes/dump.sh IMAGE >TABLE     environment: PTAB (ptab), SECTOR_SIZE (512)
#
# It refuses what words can't make again: an MBR, a type without a code, a slice without a label, a table with a finding of 7 to 11.
# Of a label it keeps the partitions alone, and a table with fewer than 128 entries gets 128.
set -euo pipefail
if [ $# != 1 ]; then
  sed -n 's/^# usage: /usage: /p' "$0" >&2
  exit 2
fi
image=$1
ptab=${PTAB:-ptab}
size=${SECTOR_SIZE:-512}
fail() {
  echo "dump.sh: $1" >&2
  exit 1
}
finding=$("$ptab" verify --sector-size "$size" "$image" 2>/dev/null) || true
case $finding in
  'no 1 no table') "$ptab" show --sector-size "$size" "$image"; exit ;;
  'no 7 '* | 'no 8 '* | 'no 9 '* | 'no 10 '* | 'no 11 '*) fail "the table isn't sound: $finding" ;;
esac
table=$("$ptab" show --sector-size "$size" "$image")
read -r kind sectors first last disk <<<"$table"
if [ "$kind" != gpt ]; then fail "no word makes an MBR: keep its sectors with dd"; fi
array=$((16384 / size))
if [ "$first" != $((array + 2)) ] || [ "$last" != $((sectors - array - 2)) ]; then
  echo "dump.sh: the usable sectors $first to $last aren't kept: a new table has all, $((array + 2)) to $((sectors - array - 2))" >&2
fi

# The words, one a line; what can't be made again ends it.
words_of() {
  printf '%s\n' "$table" | tail -n +2 | while IFS= read -r line; do
    read -r path first last type attributes unique _ <<<"$line"
    echo "n:$path:$first:$last:$type"
    case $path in
      *.*)
        if [ "$type" = 00 ]; then fail "no word makes the type of partition $path, 00"; fi
        continue
        ;;
    esac
    if [ ${#type} != 4 ]; then fail "no word makes the type of partition $path, $type"; fi
    # asked for entry h of its label, ptab says 13 where there is no label
    if [ "$("$ptab" plan --sector-size "$size" "$image" "d:$path.h" 2>&1 >/dev/null)" = 'refused: edit 13' ]; then
      fail "slice $path has no label, and a new one gets one"
    fi
    echo "u:$path:$unique"
    name=${line#"$path $first $last $type $attributes $unique"}
    name=${name# }
    if [ -n "$name" ]; then echo "c:$path:$name"; fi
    case $name in *\?*) echo "dump.sh: a ? in the name of partition $path may stand for another character" >&2 ;; esac
    for ((bit = 0; bit < 64; bit++)); do
      if [ $((0x$attributes >> bit & 1)) = 1 ]; then echo "A:$path:$bit:1"; fi
    done
  done
}
words=$(words_of)
echo "# the table of $sectors sectors of $size bytes, as words; and as ptab show prints it:"
printf '%s\n' "$table" | sed 's/^/# show /'
printf '%s\n' o "U:$disk" a:1
if [ -n "$words" ]; then printf '%s\n' "$words"; fi
