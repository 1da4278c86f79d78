#!/usr/bin/env bash
# Installs the program and ptab-run, partition tools under their own names that go through it (lib/ptab/safe), their man pages and
# completion for bash, zsh and fish under PREFIX, and the library for callers in C (headers, archive, shared object and a pkg-config file)
# with its module for Python, and says so in one line a file.
# It needs no root for a PREFIX of one's own.
#
# usage: ./install.sh PREFIX
#   PTAB=FILE     installs this program, and no library without LIBRARY; else the built one, which packaging/build.py proves and builds
#                 where that wasn't done yet or a source has changed, and packaging/release.sh links with the C library inside it. Where
#                 that can't be linked here, the one with shared libraries
#   LIBRARY=FILE  the proved archive, for a C compiler to link; else the built one, proved and built in the same way. LIBRARY= installs
#                 no library
#   DESTDIR=DIR   puts all of it below DIR, as packagers do; the program is to run with PREFIX
set -euo pipefail
if [ $# != 1 ] || [ -z "$1" ] || [ "${1#-}" != "$1" ]; then
  echo "usage: [PTAB=FILE] [LIBRARY=FILE] [DESTDIR=DIR] ./install.sh PREFIX" >&2
  exit 2
fi
here=$(cd "$(dirname "$0")" && pwd)
prefix=${1%/}
if [ -n "$prefix" ] && [ "${prefix#/}" = "$prefix" ]; then prefix=$PWD/$prefix; fi
ptab=${PTAB:-}
library=${LIBRARY-}
if [ -z "$ptab" ]; then
  wanted=(ptab)
  if [ -z "${LIBRARY+given}" ]; then
    if command -v cc >/dev/null; then
      wanted+=(pt_c)
    else
      echo "install.sh: no C compiler (cc), so the library for callers in C is left out" >&2
    fi
  fi
  # both at once, since they stand on the same crates
  built=$(python3 "$here/packaging/build.py" "${wanted[@]}")
  ptab=$(printf '%s\n' "$built" | sed -n 1p)
  library=${library:-$(printf '%s\n' "$built" | sed -n 2p)}
  if linked=$(PTAB=$ptab "$here/packaging/release.sh"); then
    ptab=$linked
  else
    echo "install.sh: no C library can be linked into the program here (the lines above), so it needs that of this machine" >&2
  fi
fi
if [ ! -f "$ptab" ]; then
  echo "install.sh: no program at $ptab" >&2
  exit 1
fi
put() { # MODE FILE PLACE
  install -d -m 755 "$(dirname "${DESTDIR:-}$prefix/$3")"
  install -m "$1" "$2" "${DESTDIR:-}$prefix/$3"
  echo "installed ${DESTDIR:-}$prefix/$3"
}
put 755 "$ptab" bin/ptab
put 755 "$here/tools/ptab-run" bin/ptab-run
for module in "$here"/tools/ptab_run/*.py; do put 644 "$module" "lib/ptab/ptab_run/$(basename "$module")"; done
for tool in cfdisk cgpt fdisk gdisk growpart parted sfdisk sgdisk; do put 755 "$here/tools/safe/tool" "lib/ptab/safe/$tool"; done
put 644 "$here/man/ptab.8" share/man/man8/ptab.8
put 644 "$here/man/ptab-run.8" share/man/man8/ptab-run.8
put 644 "$here/completion/ptab.bash" share/bash-completion/completions/ptab
put 644 "$here/completion/ptab.zsh" share/zsh/site-functions/_ptab
put 644 "$here/completion/ptab.fish" share/fish/vendor_completions.d/ptab.fish
put 644 "$here/completion/ptab-run.bash" share/bash-completion/completions/ptab-run
put 644 "$here/completion/ptab-run.zsh" share/zsh/site-functions/_ptab-run
put 644 "$here/completion/ptab-run.fish" share/fish/vendor_completions.d/ptab-run.fish
if [ -n "$library" ]; then
  made=$(mktemp -d)
  trap 'rm -rf "$made"' EXIT
  "$here/bindings/c/build.sh" "$library" "$made"
  # under a PREFIX of one's own no loader looks for the library, so a program that links it is told where it is
  case $prefix in
    '' | /usr | /usr/local) where= ;;
    *) where=' -Wl,-rpath,${libdir}' ;;
  esac
  {
    echo "prefix=$prefix"
    echo 'includedir=${prefix}/include'
    echo 'libdir=${prefix}/lib'
    echo
    echo 'Name: ptab'
    echo 'Description: partition tables: what they say, and checked plans of edits and repairs'
    echo "Version: $("$here/packaging/version.sh")"
    echo 'Cflags: -I${includedir}'
    echo 'Libs: -L${libdir}'"$where"' -lptab'
  } >"$made/ptab.pc"
  for header in "$here"/include/*.h; do put 644 "$header" "include/$(basename "$header")"; done
  put 644 "$made/libptab.a" lib/libptab.a
  put 644 "$made/libptab.so.2" lib/libptab.so.2
  ln -sf libptab.so.2 "${DESTDIR:-}$prefix/lib/libptab.so"
  echo "installed ${DESTDIR:-}$prefix/lib/libptab.so"
  put 644 "$made/ptab.pc" lib/pkgconfig/ptab.pc
  for module in "$here"/bindings/python/*.py; do put 644 "$module" "lib/python3/dist-packages/$(basename "$module")"; done
fi
