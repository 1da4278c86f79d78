#!/usr/bin/env bash
# `ptab edit` with sizes and drawn GUIDs: K, M, G and T (powers of 1024) stand for sectors in `a:SIZE` and in START and +SIZE of `n`,
# and --fresh comes from /dev/urandom. So `n:0:0:+16M:EF00` is `n:0:0:+32768:EF00` with sectors of 512 bytes.
#
# usage: examples/recipes/sizes.sh IMAGE WORD...     environment: PTAB (ptab), SECTOR_SIZE (512), SIZES_ONLY (prints the words)
set -euo pipefail
if [ $# -lt 2 ]; then
  sed -n 's/^# usage: /usage: /p' "$0" >&2
  exit 2
fi
image=$1
shift
size=${SECTOR_SIZE:-512}

# The field $1 in sectors: a number with K, M, G or T is turned into sectors, all else stays.
sectors() {
  local unit number
  case $1 in
    *K) unit=10 ;;
    *M) unit=20 ;;
    *G) unit=30 ;;
    *T) unit=40 ;;
    *) printf '%s' "$1"; return ;;
  esac
  number=${1%?}
  case $number in
    '' | 0* | *[!0-9]* | ????????*) echo "sizes.sh: bad size $1" >&2; return 1 ;;
  esac
  if [ $(((number << unit) % size)) != 0 ]; then
    echo "sizes.sh: $1 isn't a number of sectors of $size bytes" >&2
    return 1
  fi
  printf '%s' $(((number << unit) / size))
}

words=()
for word in "$@"; do
  case $word in
    a:*)
      field=$(sectors "${word#a:}")
      word=a:$field
      ;;
    n:*:*:*)
      IFS=: read -r _ number start end rest <<<"$word"
      start=$(sectors "$start")
      # an end is a sector unless it is +SIZE: "up to 16M" would leave open whether that sector is the last one
      case $end in +*) end=+$(sectors "${end#+}") ;; esac
      word=n:$number:$start:$end${rest:+:$rest}
      ;;
  esac
  words+=("$word")
done
if [ -n "${SIZES_ONLY:-}" ]; then
  printf '%s\n' "${words[@]}"
  exit
fi
# enough for a disk and 159 partitions
fresh=$(head -c 2560 /dev/urandom | od -An -v -tx1 | tr -d ' \n')
"${PTAB:-ptab}" edit --sector-size "$size" --fresh "$fresh" "$image" -- "${words[@]}"
