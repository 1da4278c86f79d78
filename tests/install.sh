#!/usr/bin/env bash
# Installs what the tests, the example and the benchmark call of Debian's packages, where it is missing.
set -euo pipefail
missing=()
need() { command -v "$1" >/dev/null 2>&1 || [ -x "/usr/sbin/$1" ] || [ -x "/sbin/$1" ] || missing+=("$2"); }
need python3 python3
need sgdisk gdisk
need sfdisk fdisk
need parted parted
need cgpt cgpt
need mkfs.fat dosfstools
need xorriso xorriso
need strace strace
need gcc gcc
need c++ g++
need grub-fstest grub-common
need kpartx kpartx
need growpart cloud-guest-utils
need udevadm udev
need cfdisk fdisk
need genimage genimage
if [ "$(uname -m)" = x86_64 ]; then
  need grub-install grub2-common
  [ -e /usr/lib/grub/i386-pc ] || missing+=(grub-pc-bin)
fi
need systemd-repart systemd
[ -e /usr/lib/python3/dist-packages/parted ] || missing+=(python3-parted)
need valgrind valgrind
need jq jq
need zsh zsh
need fish fish
[ -e /usr/include/stdlib.h ] || missing+=(libc6-dev)
[ -e /usr/include/fuse3/fuse.h ] || missing+=(libfuse3-dev)
for word in "$@"; do
  case "$word" in
    bench)
      [ -e /usr/include/zlib.h ] || missing+=(zlib1g-dev)
      [ -e /usr/include/libfdisk/libfdisk.h ] || missing+=(libfdisk-dev)
      ;;
    *) echo "usage: tests/install.sh [bench]" >&2; exit 2 ;;
  esac
done
[ ${#missing[@]} = 0 ] && exit 0
as_root=()
[ "$(id -u)" = 0 ] || as_root=(sudo)
"${as_root[@]}" apt-get update -qq
"${as_root[@]}" env DEBIAN_FRONTEND=noninteractive apt-get install -y -qq "${missing[@]}" >/dev/null
