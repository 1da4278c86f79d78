#!/usr/bin/env bash
# Builds the command and shows it at work: a GPT made on an empty image, and one that sgdisk made, shown, renamed, located in, and,
# with its primary copy damaged, shown from the backup and renamed, which mends it; then with its backup copy lost, repaired.
set -euo pipefail
cd "$(dirname "$0")/.."
export PATH="$PATH:/usr/sbin:/sbin"
tests/install.sh
ptab=$(./build.sh)
folder=$(mktemp -d)
trap 'rm -rf "$folder"' EXIT
cd "$folder"
ptab() {
  echo "\$ ptab $*"
  "$ptab" "$@" || echo "(status $?)"
}
truncate -s 64M new.img
fresh=$(head -c 1024 /dev/urandom | od -An -v -tx1 | tr -d ' \n')
echo "\$ ptab edit new.img --fresh RANDOM o n:0:0:+32768:EF00 c:1:boot n:0:0:0 c:2:root"
"$ptab" edit new.img --fresh "$fresh" o n:0:0:+32768:EF00 c:1:boot n:0:0:0 c:2:root
ptab show new.img
ptab verify new.img
truncate -s 64M disk.img
sgdisk -n 1:2048:+16M -t 1:ef00 -c 1:boot -n 2:0:0 -t 2:8300 -c 2:data disk.img >/dev/null
ptab show disk.img
ptab edit disk.img c:2:archive
ptab show disk.img
ptab verify disk.img
ptab locate disk.img 2 1000
echo "\$ # the primary header is overwritten with zeros"
dd if=/dev/zero of=disk.img bs=512 seek=1 count=1 conv=notrunc status=none
ptab verify disk.img
ptab show disk.img
ptab edit disk.img c:2:"rescued archive"
ptab show disk.img
ptab verify disk.img
echo "\$ # the backup header is overwritten with zeros"
dd if=/dev/zero of=disk.img bs=512 seek=131071 count=1 conv=notrunc status=none
ptab verify disk.img
ptab repair disk.img
ptab verify disk.img
echo "\$ sgdisk -v disk.img"
sgdisk -v disk.img | grep -v '^$'
