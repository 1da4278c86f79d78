#!/usr/bin/env bash
# Puts files of the repository below a folder, each where it stands in the repository, so that what one says of another is found there
# too; and with a page each file of the repository to which its links lead. Takes those that git has, and says nothing.
#
# usage: packaging/put_docs.sh FOLDER PATH...     a PATH is a file or a folder of the repository
set -euo pipefail
if [ $# -lt 2 ]; then
  sed -n 's/^# usage: /usage: /p' "$0" >&2
  exit 2
fi
export LC_ALL=C
folder=$(mkdir -p "$1" && cd "$1" && pwd)
shift
cd "$(dirname "$0")/.."
led_to() { # PAGE...: the files to which the pages' links lead
  for page in "$@"; do
    { grep -oE '\]\([^)#:]+' "$page" || true; } | cut -c 3- | while read -r link; do
      realpath -m --relative-to=. "$(dirname "$page")/$link"
    done
  done | sort -u | xargs -r git ls-files --
}
wanted=$(git ls-files --error-unmatch -- "$@" | sort -u)
until
  mapfile -t pages < <(grep '\.md$' <<<"$wanted")
  before=$wanted
  wanted=$( { echo "$wanted"; led_to "${pages[@]}"; } | sort -u)
  [ "$wanted" = "$before" ]
do :; done
xargs cp --parents -t "$folder" <<<"$wanted"
