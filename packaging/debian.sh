#!/usr/bin/env bash
# Makes a Debian package of what was proved: the program, which needs no other package's libraries, with ptab-run, their man pages,
# completion, the pages on both and the recipes, and notes on where it comes from.
# The same program, commit and kit give the same package, byte by byte. It needs no root.
#
# usage: packaging/debian.sh OUT     OUT is the .deb, or a folder for it
#   PTAB=FILE            the program; else the one that packaging/release.sh links, where that wasn't done yet
#   KIT=LINE             the kit that proved it; else what `rt version` prints
#   LINKED=LINE          what is linked into it, and by what; else what `packaging/release.sh --with` prints
#   SOURCE_DATE_EPOCH=S  the time of everything in it; else that of the commit
#   COPYRIGHT=FILE       a copyright file in place of the one that says where to ask
set -euo pipefail
if [ $# != 1 ] || [ -z "$1" ] || [ "${1#-}" != "$1" ]; then
  sed -n 's/^# usage: /usage: /p' "$0" >&2
  exit 2
fi
export LC_ALL=C TZ=UTC
umask 022
here=$(cd "$(dirname "$0")/.." && pwd)
out=$1
ptab=${PTAB:-}
if [ -z "$ptab" ]; then
  ptab=$("$here/packaging/release.sh")
fi
if [ ! -f "$ptab" ]; then
  echo "debian.sh: no program at $ptab" >&2
  exit 1
fi
kit=${KIT:-$(rt version)}
kit=$(printf '%s' "$kit" | tr -s '\n\t ' ' ')
git() { command git -C "$here" "$@"; }
commit=$(git rev-parse HEAD)
# what the package takes from the repository, and what the program was made of
taken=(crates man completion tools docs examples/recipes install.sh packaging)
if [ -n "$(git status --porcelain -- "${taken[@]}")" ]; then commit=$commit-changed; fi
epoch=${SOURCE_DATE_EPOCH:-$(git log -1 --format=%ct)}
export SOURCE_DATE_EPOCH=$epoch
version=$("$here/packaging/version.sh")+git$(git log -1 --format=%cd --date=format-local:%Y%m%d%H%M%S).${commit:0:12}
case $commit in *-changed) version=$version.changed ;; esac
architecture=$(dpkg --print-architecture)
author=$(git log -1 --format='%an <%ae>')
sum=$(sha256sum <"$ptab")
sum=${sum%% *}
# the newest of the C library's versions that the program names; none where that library is inside it
libc=$({ grep -ao 'GLIBC_2\.[0-9]*' "$ptab" || true; } | sort -uV | tail -n 1)
linked=
needs="Depends: libc6 (>= ${libc#GLIBC_})"
if [ -z "$libc" ]; then
  linked=${LINKED:-$("$here/packaging/release.sh" --with)}
  needs="Built-Using: $(sed 's/^\([^ ;]*\) \([^ ;]*\);.*/\1 (= \2)/' <<<"$linked")"
fi

folder=$(mktemp -d)
trap 'rm -rf "$folder"' EXIT
tree=$folder/tree
doc=$tree/usr/share/doc/ptab
PTAB=$ptab DESTDIR=$tree "$here/install.sh" /usr >"$folder/installed"
# where Debian's zsh looks for what packages bring
mv "$tree/usr/share/zsh/site-functions" "$tree/usr/share/zsh/vendor-completions"
gzip -9n "$tree/usr/share/man/man8/ptab.8" "$tree/usr/share/man/man8/ptab-run.8"
install -d -m 755 "$tree/DEBIAN" "$doc"
"$here/packaging/put_docs.sh" "$doc" docs/commands.md docs/other_tools.md docs/readers.md docs/sgdisk.md examples/recipes

cat >"$doc/BUILD" <<END
program: /usr/bin/ptab
sha256: $sum
commit: $commit
kit: $kit
time: $epoch
linked: ${linked:-with shared libraries}

Commit, kit and what it is linked with are as the maker of this package gave them. To check them, prove and build that commit with that kit
and link it with the same (packaging/release.sh; with shared libraries ./build.sh), and compare the program's sum with the one above. To
make this package again, byte by byte, from a program with that sum:

    PTAB=/usr/bin/ptab KIT='$kit' LINKED='$linked' SOURCE_DATE_EPOCH=$epoch packaging/debian.sh ptab.deb
END
if [ -n "${COPYRIGHT:-}" ]; then
  install -m 644 "$COPYRIGHT" "$doc/copyright"
else
  cat >"$doc/copyright" <<END
Format: https://www.debian.org/doc/packaging-manuals/copyright-format/1.0/
Upstream-Name: Jawefon
Upstream-Contact: $author
Comment: where BUILD says that a C library is linked into /usr/bin/ptab, parts of
 that library are inside it. Those of the GNU C Library are under
 LGPL-2.1-or-later (/usr/share/common-licenses/LGPL-2.1), and BUILD says how the
 program is linked again, with another one too.

Files: *
Copyright: the authors of Jawefon
License: not-stated
 The repository states no licence at this commit. Ask the authors before you
 pass this package on.
END
fi
{
  printf 'ptab (%s) unstable; urgency=medium\n\n' "$version"
  git log -1 --format='%s%n(commit %H)' | fold -s -w 72 | sed -e 's/ *$//' -e '1s/^/  * /' -e '1!s/^/    /'
  printf '\n -- %s  %s\n' "$author" "$(date -R -u -d "@$epoch")"
} | gzip -9n >"$doc/changelog.gz"

bytes=$(find "$tree/usr" -type f -printf '%s\n' | awk '{ sum += int(($1 + 1023) / 1024) } END { print sum }')
cat >"$tree/DEBIAN/control" <<END
Package: ptab
Version: $version
Section: admin
Priority: optional
Architecture: $architecture
$needs
Recommends: python3 (>= 3.8)
Suggests: dosfstools, fdisk, gdisk, parted, testdisk
Installed-Size: $bytes
Maintainer: ${MAINTAINER:-$author}
Description: show, verify, edit and repair partition tables of disk images
 Works on GPT, MBR with extended partitions, and BSD labels in slices. A power
 cut at any moment of an edit leaves the old table or the new one: the library
 that does this is proved to, under the conditions in ptab(8). With ptab-run,
 for which Python is needed, the edits of other partition tools are as safe.
 .
 Commit: $commit
 Kit: $kit
 SHA-256 of the program: $sum
END
(cd "$tree" && find usr -type f -print0 | sort -z | xargs -0 md5sum) >"$tree/DEBIAN/md5sums"
find "$tree" -type d -exec chmod 755 {} +
find "$tree" -type f -exec chmod u=rwX,go=rX {} +
find "$tree" -exec touch -h -d "@$epoch" {} +
if [ -d "$out" ]; then out=$out/ptab_${version}_$architecture.deb; fi
dpkg-deb --root-owner-group -Zgzip -z9 --build "$tree" "$folder/ptab.deb" >"$folder/built"
install -m 644 "$folder/ptab.deb" "$out"
echo "$out"
