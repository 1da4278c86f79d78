#!/usr/bin/env bash
# Links the program that is installed and packed, and prints where it stands: of the object that was proved, with the kit's archives and
# with the C library of this machine inside it, position-independent. packaging/build.py proves the object first, links it with shared
# libraries, and has the kit hold what it calls of the system to HANDLES; that program stays, for tests that load libraries before others.
# The same object, kit, C library, compiler and linker give the same program, byte by byte, wherever they stand.
#
# usage: packaging/release.sh [OUT]      OUT is the file; else crates/ptab/out/release/ptab, which is linked where it isn't yet
#        packaging/release.sh --with     prints what of this machine is linked into it, and by what
#   PTAB=FILE    the program that the kit linked, with its object beside it; else packaging/build.py proves and builds it
#   CC=COMPILER  links; else cc. It needs the static libraries of a C library, as Debian's libc6-dev has them
set -euo pipefail
here=$(cd "$(dirname "$0")/.." && pwd)
cc=${CC:-cc}
asked=${1:-}
if [ "$asked" = --with ]; then
  libc=$(dpkg-query -W -f '${source:Package} ${source:Version}' libc6-dev 2>/dev/null || ldd --version | sed -n 1p)
  echo "$libc; $("$cc" --version | sed -n 1p); $(ld --version | sed -n 1p)"
  exit
fi
if [ $# -gt 1 ] || [ "${asked#-}" != "$asked" ]; then
  sed -n 's/^# usage: /usage: /p' "$0" >&2
  exit 2
fi
proved=$(realpath "${PTAB:-$(python3 "$here/packaging/build.py" ptab)}")
out=${asked:-$(dirname "$proved")/release/ptab}
if [ -z "$asked" ] && [ "$out" -nt "$proved" ] && [ "$out" -nt "$0" ]; then
  echo "$out"
  exit
fi
kit=$(dirname "$(dirname "$(realpath "$(command -v rt)")")")
mkdir -p "$(dirname "$out")"
out=$(realpath "$out")
work=$(mktemp -d)
trap 'rm -rf "$work"' EXIT
cp "$proved.o" "$work/ptab.o"
cp "$kit/c/libos_c.a" "$kit/c/liblibc_c.a" "$work"
cd "$work"
# what is relocated at each start is packed, and can't be written after it
"$cc" -static-pie -s -Wl,-z,relro,-z,now,-z,noexecstack,-z,pack-relative-relocs -Wl,--gc-sections,--fatal-warnings,--build-id=sha1 \
  -o ptab ptab.o libos_c.a liblibc_c.a
if [ "$(./ptab --version)" != "$("$proved" --version)" ]; then
  echo "release.sh: what was linked doesn't run" >&2
  exit 1
fi
install -m 755 ptab "$out"
echo "$out"
