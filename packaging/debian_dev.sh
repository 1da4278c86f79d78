#!/usr/bin/env bash
# Makes a Debian package of the library for callers in C: headers, archive, shared object, pkg-config file, the module for Python; and in
# its folder of documents docs/c.md with all files that it names, the examples, and the layers with their sources: the crate for Rust, for
# one. The same archive, commit and kit give the same package, byte by byte. It needs no root.
#
# usage: LIBRARY=FILE packaging/debian_dev.sh OUT     OUT is the .deb, or a folder for it; FILE is crates/pt_c/out/libpt_c.a
#   KIT=LINE             the kit that proved it; else what `rt version` prints
#   SOURCE_DATE_EPOCH=S  the time of everything in it; else that of the commit
set -euo pipefail
if [ $# != 1 ] || [ -z "$1" ] || [ ! -f "${LIBRARY:-}" ]; then
  sed -n 's/^# usage: /usage: /p' "$0" >&2
  exit 2
fi
export LC_ALL=C TZ=UTC
umask 022
here=$(cd "$(dirname "$0")/.." && pwd)
out=$1
git() { command git -C "$here" "$@"; }
kit=$(printf '%s' "${KIT:-$(rt version)}" | tr -s '\n\t ' ' ')
commit=$(git rev-parse HEAD)
taken=(crates include bindings bench docs examples tests install.sh packaging)
if [ -n "$(git status --porcelain -- "${taken[@]}")" ]; then commit=$commit-changed; fi
epoch=${SOURCE_DATE_EPOCH:-$(git log -1 --format=%ct)}
version=$("$here/packaging/version.sh")+git$(git log -1 --format=%cd --date=format-local:%Y%m%d%H%M%S).${commit:0:12}
case $commit in *-changed) version=$version.changed ;; esac
architecture=$(dpkg --print-architecture)
author=$(git log -1 --format='%an <%ae>')
sum=$(sha256sum <"$LIBRARY")

folder=$(mktemp -d)
trap 'rm -rf "$folder"' EXIT
tree=$folder/tree
PTAB=/bin/true LIBRARY=$LIBRARY DESTDIR=$tree "$here/install.sh" /usr >"$folder/installed"
rm -r "$tree/usr/bin" "$tree/usr/share" "$tree/usr/lib/ptab"
install -d -m 755 "$tree/DEBIAN"
# the files that docs/c.md names
grep -oE '[[:alnum:]_./-]+[[:alnum:]]' "$here/docs/c.md" | sed 's,^\./,,' | sort -u >"$folder/words"
git ls-files | grep -Fx -f "$folder/words" >"$folder/named"
mapfile -t named <"$folder/named"
"$here/packaging/put_docs.sh" "$tree/usr/share/doc/libptab-dev" "${named[@]}" docs/c.md bindings examples/c examples/python \
  examples/recipes
bytes=$(find "$tree/usr" -type f -printf '%s\n' | awk '{ sum += int(($1 + 1023) / 1024) } END { print sum }')
cat >"$tree/DEBIAN/control" <<END
Package: libptab-dev
Version: $version
Section: libdevel
Priority: optional
Architecture: $architecture
Depends: libc6-dev
Suggests: ptab, python3
Installed-Size: $bytes
Maintainer: ${MAINTAINER:-$author}
Description: partition tables in one's own program: checked plans of edits
 Headers, archive, shared object, pkg-config file and Python module of the
 library that the command ptab stands on. Its calls work on an image or a
 block device, each in one call; or without any I/O, on sectors that the
 caller has read.
 .
 Commit: $commit
 Kit: $kit
 SHA-256 of the proved archive: ${sum%% *}
END
(cd "$tree" && find usr -type f -print0 | sort -z | xargs -0 md5sum) >"$tree/DEBIAN/md5sums"
find "$tree" -type d -exec chmod 755 {} +
find "$tree" -type f -exec chmod u=rwX,go=rX {} +
find "$tree" -exec touch -h -d "@$epoch" {} +
if [ -d "$out" ]; then out=$out/libptab-dev_${version}_$architecture.deb; fi
dpkg-deb --root-owner-group -Zgzip -z9 --build "$tree" "$folder/dev.deb" >"$folder/built"
install -m 644 "$folder/dev.deb" "$out"
echo "$out"
