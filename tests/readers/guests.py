"""What readers that are booted find on images: Linux's kernel, EDK2 and U-Boot under QEMU, by emulation, with many images as disks of one
machine. The tables have the form that finders.py tells; of EDK2 a partition's GUID stands in the place of its name."""
import glob
import gzip
import lzma
import os
import re
import select
import shutil
import struct
import subprocess
import sys
import time
from contextlib import contextmanager
from dataclasses import dataclass

from tools import must

HERE = os.path.dirname(os.path.abspath(__file__))
QEMU = ("qemu-system-x86_64", "-accel", "tcg", "-cpu", "max", "-m", "512", "-nographic", "-no-reboot", "-nodefaults", "-serial", "stdio")
OVMF = "/usr/share/ovmf/OVMF.fd"
U_BOOT = "/usr/lib/u-boot/qemu-x86_64/u-boot.rom"
MODULES = ("virtio/virtio_ring", "virtio/virtio", "virtio/virtio_pci_legacy_dev", "virtio/virtio_pci_modern_dev", "virtio/virtio_pci",
           "block/virtio_blk")
# seconds until a machine counts as hung
HUNG = 1500


def disks(paths, size, more=""):
    """QEMU's words for a disk of each path: 8 functions a slot, from slot 4 on."""
    for k, path in enumerate(paths):
        yield from ("-drive", f"if=none,id=d{k},file={path},format=raw,cache=unsafe{more}", "-device",
                    f"virtio-blk-pci,drive=d{k},serial=i{k},addr={4 + k // 8:x}.{k % 8},multifunction=on,num-queues=1,"
                    f"logical_block_size={size},physical_block_size={size}")


class Console:
    """A running machine's console."""

    def __init__(self, process):
        self.process, self.text = process, ""

    def until(self, mark):
        """All that it prints until the mark."""
        end = time.monotonic() + HUNG
        while mark not in self.text and time.monotonic() < end:
            if select.select([self.process.stdout], [], [], 1)[0]:
                got = os.read(self.process.stdout.fileno(), 65536)
                self.text += re.sub(r"\x1b\[[0-9;=?]*[A-Za-z]|\r", "", got.decode("utf-8", "replace"))
                if not got:
                    break
        if mark not in self.text:
            sys.exit(f"machines: it printed no {mark!r}: {self.text[-2000:]}")
        found, self.text = self.text.split(mark, 1)
        return found

    def type(self, line):
        self.process.stdin.write(line.encode())
        self.process.stdin.flush()


@contextmanager
def machine(*words):
    process = subprocess.Popen([*QEMU, *words], stdin=subprocess.PIPE, stdout=subprocess.PIPE, stderr=subprocess.STDOUT)
    try:
        yield Console(process)
    finally:
        process.kill()
        process.communicate()


# ---- Linux


def kernel():
    """(vmlinuz, its modules) of the newest of Debian's kernels here that has them."""
    found = [(it, f"/lib/modules/{os.path.basename(it)[8:]}/kernel/drivers") for it in sorted(glob.glob("/boot/vmlinuz-*"))]
    found = [it for it in found if glob.glob(f"{it[1]}/{MODULES[-1]}.ko*")]
    if not found:
        sys.exit("machines: no kernel in /boot with its modules: apt-get install linux-image-amd64")
    return found[-1]


def archive(files):
    """An initial ramdisk with these files {name: (mode, bytes)}."""
    made = b""
    for number, (name, (mode, content)) in enumerate([*files.items(), ("TRAILER!!!", (0, b""))]):
        fields = (number, mode, 0, 0, 1, 0, len(content), 0, 0, 0, 0, len(name) + 1, 0)
        made += b"070701" + b"".join(b"%08X" % it for it in fields) + name.encode() + b"\0"
        made += bytes(-len(made) % 4) + content
        made += bytes(-len(made) % 4)
    return gzip.compress(made, 1)


def ramdisk(folder, modules):
    must("gcc", "-O1", "-static", "-o", f"{folder}/init", f"{HERE}/guest.c")
    files, names = {}, []
    for module in MODULES:
        path = glob.glob(f"{modules}/{module}.ko*")[0]
        with open(path, "rb") as it:
            content = it.read()
        files[f"m{len(names)}"] = (0o100644, lzma.decompress(content) if path.endswith(".xz") else content)
        names.append(f"/m{len(names)}\n")
    with open(f"{folder}/init", "rb") as it:
        files["init"] = (0o100755, it.read())
    files["modules"] = (0o100644, "".join(names).encode())
    with open(f"{folder}/initrd", "wb") as it:
        it.write(archive(files))
    return f"{folder}/initrd"


def linux(paths, size, folder, words=""):
    vmlinuz, modules = kernel()
    line = f"console=ttyS0 quiet loglevel=1 panic=-1 want={len(paths)} {words}"
    with machine("-kernel", vmlinuz, "-initrd", ramdisk(folder, modules), "-append", line, *disks(paths, size, ",readonly=on")) as it:
        it.until(f"BEGIN {len(paths)}\n")
        found = {}
        for said in it.until("END\n").splitlines():
            word = said.split(" ", 4)
            if word[0] == "DISK":
                parts = found.setdefault(word[1], [])
            else:
                first, length = int(word[2]) * 512 // size, int(word[3]) * 512 // size
                parts.append((int(word[1]), first, first + length - 1, word[4] if len(word) > 4 else ""))
    return [tuple(sorted(found[f"i{k}"])) or None for k in range(len(paths))]


def linux_gpt(paths, size, folder):
    return linux(paths, size, folder, "gpt")


# ---- EDK2


def program_of(volume, at):
    """The program in a file of a firmware volume, whose head stands there; None where it has none."""
    size, head = int.from_bytes(volume[at + 20:at + 23], "little"), 24
    if volume[at + 19] & 1:
        size, head = struct.unpack_from("<Q", volume, at + 24)[0], 32
    end, at = min(at + size, len(volume)), at + head
    while at < end:
        size, head = int.from_bytes(volume[at:at + 3], "little"), 4
        if size == 0xFFFFFF:
            size, head = struct.unpack_from("<I", volume, at + 4)[0], 8
        if size < head:
            return None
        if volume[at + 3] == 0x10:
            return volume[at + head:at + size]
        at += (size + 3) & ~3
    return None


def shell():
    """EDK2's shell, as Debian's firmware has it: in the section that is packed by LZMA, in the file with this GUID."""
    with open(OVMF, "rb") as it:
        firmware = it.read()
    at = firmware.find(bytes.fromhex("98584eee143959429d6edc7bd79403cf"))
    start = at - (8 if firmware[at - 8:at - 5] == b"\xff\xff\xff" else 4)
    data = start + struct.unpack_from("<H", firmware, at + 16)[0]
    volume = lzma.LZMADecompressor(lzma.FORMAT_ALONE).decompress(firmware[data:]) if at >= 0 else b""
    places = re.finditer(re.escape(bytes.fromhex("83a5047c3e9e1c4fad65e05268d0b4d1")), volume)
    programs = [program for program in (program_of(volume, it.start()) for it in places) if program and program[:2] == b"MZ"]
    if not programs:
        sys.exit(f"machines: {OVMF} has no shell")
    return programs[0]


def edk2(paths, size, folder):
    """It may write, so it gets copies, which stay beside the images. The shell begins with a list of all partitions; it runs as a kernel,
    before boot options are made, which takes minutes with many disks."""
    with open(f"{folder}/shell.efi", "wb") as it:
        it.write(shell())
    for path in paths:
        shutil.copy(path, f"{path}.edk2")
    with machine("-bios", OVMF, "-kernel", f"{folder}/shell.efi", *disks([f"{path}.edk2" for path in paths], size)) as it:
        said = it.until("Shell> ")
        it.type("reset -s\r")
        it.process.wait(HUNG)
    found = [[] for _ in paths]
    for slot, function, nodes in re.findall(r"PciRoot\(0x0\)/Pci\(0x([0-9A-F]+),0x(\d)\)((?:/HD\([^)]*\))+)", said):
        parts = re.findall(r"HD\((\d+),\w+,([^,]*),0x([0-9A-F]+),0x([0-9A-F]+)\)", nodes)
        number, guid, first, length = parts[-1]
        found[(int(slot, 16) - 4) * 8 + int(function)].append(
            (int(number) if len(parts) == 1 else int(parts[0][0]) * 1000 + int(number), int(first, 16),
             int(first, 16) + int(length, 16) - 1, guid))
    return [tuple(sorted(set(it))) or None for it in found]


# ---- U-Boot


def u_boot(paths, size, _):
    views = []
    with machine("-bios", U_BOOT, *disks(paths, size, ",snapshot=on")) as it:
        it.until("stop autoboot")
        it.type("\n")
        it.until("=> ")
        it.type("virtio scan\n")
        it.until("\n=> ")
        for k in range(len(paths)):
            it.type(f"part list virtio {k:x}\n")
            said = it.until("\n=> ")
            parts = [(int(number), int(first, 16), int(last, 16), name) for number, first, last, name in
                     re.findall(r'^\s+(\d+)\t0x([0-9a-f]+)\t0x([0-9a-f]+)\t"(.*)"$', said, re.MULTILINE)]
            parts += [(int(number), int(first), int(first) + int(length) - 1, "") for number, first, length in
                      re.findall(r"^\s+(\d+)\t(\d+)\s*\t(\d+)\s*\t\S+\t\w\w", said, re.MULTILINE)]
            views.append(tuple(sorted(parts)) or None)
    return views


@dataclass
class Machine:
    """A reader that is booted: with how many disks at most, how many stops it is shown of a job that makes many partitions, whether it goes
    by the primary copy alone, and which sectors it reads."""
    boot: object
    disks: int
    of_many: int = 1000
    primary_alone: bool = False
    sizes: tuple = (512, 4096)

    def is_unread(self, job):
        return job.sectors.size not in self.sizes


# past 104 disks Linux has no interrupts left; EDK2 takes minutes for many disks with many partitions
MACHINES = {
    "Linux": Machine(linux, 96, primary_alone=True),
    "Linux with gpt": Machine(linux_gpt, 96),
    "EDK2": Machine(edk2, 24, 4),
    "U-Boot": Machine(u_boot, 48, sizes=(512,)),
}
