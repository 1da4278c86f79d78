"""The jobs of as_itself.py: what unchanged programs do to an image or a device that they name themselves."""
import collections
import os
import shutil

import other_tools_jobs
from other_tools_jobs import LVM

SEED = "6b4ad856-ec11-4444-b018-80b39d83996e"
REPARTS = f"systemd-repart --no-pager --definitions=FOLDER/repart.d --dry-run=no --empty=require --seed={SEED} DISK"
ROOT_TYPE, SWAP_TYPE = "4f68bce3-e8cd-4db1-96e7-fbcaf984b709", "0657fd6d-a4ab-43c4-84e5-0933c84b4f4f"
# what systemd-repart is to make: a partition of Linux that fills the disk, behind one of swap
REPART = {"10-swap.conf": f"[Partition]\nType={SWAP_TYPE}\nSizeMinBytes=10M\nSizeMaxBytes=10M\n",
          "20-root.conf": f"[Partition]\nType={ROOT_TYPE}\nLabel=root\n"}
# the same with file systems
REPART_DATA = {"10-esp.conf": "[Partition]\nType=esp\nFormat=vfat\nSizeMinBytes=40M\nSizeMaxBytes=40M\n",
               "20-root.conf": f"[Partition]\nType={ROOT_TYPE}\nLabel=root\nFormat=ext4\n"}
GENIMAGE = f"""image disk.img {{
  hdimage {{ partition-table-type = "gpt" disk-uuid = "{SEED}" }}
  size = 64M
  partition one {{ partition-type-uuid = "L" offset = 1M size = 4M partition-uuid = "{SEED[:-1]}f" image = "one" }}
}}
"""
PYTHON = """
import sys, parted
disk = parted.newDisk(parted.getDevice(sys.argv[1]))
place = parted.Geometry(device=disk.device, start=int(sys.argv[2]), length=int(sys.argv[3]))
disk.addPartition(parted.Partition(disk=disk, type=parted.PARTITION_NORMAL, geometry=place), parted.Constraint(exactGeom=place))
disk.commit()
"""
# The words of a job have DISK for the path that they are given, DIR for its folder, and FOLDER for one of the job's own. What a job with
# `keys` is asked it answers at a terminal. `how` it is run is by `flock`, `udevadm lock`, or with a partition of the device `mounted`.
# Every job with `cuts` is stopped at each of its writes. One with `data` is run with --data: its program writes some, the same bytes each
# time (`same`), or others (`drawn`), or also boot code (`lossy`).
Job = collections.namedtuple("Job", "kind image words lines keys size how cuts data")


def job(kind, image, words, *lines, keys=None, how=None, cuts=False, data=None):
    size = 4096 if image.endswith(" 4096") else 512
    words = words.split() if isinstance(words, str) else words
    return Job(kind, image, words, "".join(f"{it}\n" for it in lines), keys, size, how, cuts, data)


def on_images():
    yield job("image", "gpt", "sgdisk -t 1:ef02 -t 2:8e00 DISK", cuts=True)
    yield job("image", "gpt, unsorted", "sgdisk -s DISK")
    yield job("image", "gpt, grown", "sgdisk -e DISK")
    yield job("image", "gpt", "sgdisk -Z -o -n 1:2048:4095 -c 1:new DISK", cuts=True)
    yield job("image", "blank", ["sfdisk", "-q", "DISK"], "label: gpt", "size=1024,type=U,name=esp", f"type={LVM}", cuts=True)
    yield job("image", "mbr", "sfdisk -N 2 DISK", ",4096", cuts=True)
    yield job("image", "mbr", "sfdisk --append DISK", ",1M,82")
    yield job("image", "gpt", "sfdisk --delete DISK 2")
    yield job("image", "gpt", "growpart DISK 2", cuts=True)
    yield job("image", "gpt", "env GROWPART_RESIZER=sgdisk growpart DISK 2")
    yield job("image", "mbr", "growpart DISK 2")
    yield job("image", "gpt", "growpart DISK 1")
    yield job("image", "gpt", "parted -s DISK unit s mkpart home ext4 10240 12287 set 1 bios_grub on")
    yield job("image", "gpt", "cgpt add -i 3 -b 8192 -s 1024 -t rootfs -l ROOT-A DISK")
    yield job("image", "mbr", "fdisk DISK", "t", "2", "8e", "w")
    yield job("image", "gpt", "gdisk DISK", keys=("t\n", "2\n", "8e00\n", "w\n", "y\n"))
    yield job("image", "gpt", ["/usr/bin/python3", "-c", PYTHON, "DISK", "10240", "1024"])
    # as mkosi has its images made
    yield job("image", "blank", "sfdisk --color=never --no-reread --no-tell-kernel DISK", "label: gpt", "first-lba: 2048",
              f"size=1024, type={SWAP_TYPE}, attrs=GUID:60", f"type={ROOT_TYPE}, name=\"root\"")
    yield job("image", "large blank", REPARTS)
    yield job("image", "gpt 4096", "fdisk -b 4096 DISK", "t", "2", "30", "w")
    yield job("image", "gpt 4096", ["env", "PARTED_SECTOR_SIZE=4096", "parted", "-s", "DISK", "name", "2", "root"])
    yield job("image", "gpt", ["sh", "-c", 'sgdisk -c 1:one "$1" && parted -s "$1" set 2 lvm on && sfdisk --part-label "$1" 2 two', "sh",
                               "DISK"])


def on_devices():
    yield job("device", "gpt", "growpart DISK 2", cuts=True)
    yield job("device", "gpt, grown", "env GROWPART_RESIZER=sgdisk growpart DISK 2")
    yield job("device", "mbr", "growpart DISK 2", how="flock")
    yield job("device", "gpt", "growpart DISK 2", how="udevadm")
    yield job("device", "gpt", "growpart DISK 2", how="mounted")
    yield job("device", "large blank", REPARTS, cuts=True)
    yield job("device", "blank", ["sfdisk", "DISK"], "label: dos", "2048,12288,5", "4096,1024", "8192,1024")
    yield job("device", "gpt", "sfdisk -N 2 DISK", ", +", cuts=True)
    yield job("device", "gpt", "sfdisk --append DISK", f",2M,{LVM}")
    yield job("device", "logicals", "sfdisk --delete DISK 6", cuts=True)
    yield job("device", "gpt", "sgdisk -Z -o -n 1:0:0 -t 1:ef02 DISK")
    yield job("device", "gpt, grown", "sgdisk -e DISK", cuts=True)
    yield job("device", "gpt, unsorted", "sgdisk -s DISK")
    yield job("device", "gpt", "sgdisk -t 2:8e00 DISK")
    yield job("device", "gpt", "parted -s DISK rm 1")
    yield job("device", "gpt", "parted DISK", keys=("name 2 archive\n", "rm 1\n", "quit\n"))
    yield job("device", "gpt", "fdisk DISK", keys=("t\n", "2\n", "30\n", "w\n"))
    yield job("device", "mbr", "gdisk DISK", keys=("w\n", "y\n"))
    yield job("device", "gpt", "cfdisk DISK", keys=("d", "W", "yes\r", "q"))
    yield job("device", "gpt", "cgpt add -i 1 -t kernel -P 3 -S 1 DISK")
    yield job("device", "gpt", ["/usr/bin/python3", "-c", PYTHON, "DISK", "10240", "1024"])


def on_large_sectors():
    yield job("device", "gpt 4096", "growpart DISK 2", cuts=True)
    yield job("device", "gpt 4096", "sfdisk --delete DISK 1")
    yield job("device", "blank 4096", ["sfdisk", "DISK"], "label: gpt", "size=512", "type=U")
    yield job("device", "gpt 4096", "sgdisk -t 2:8e00 -c 2:x DISK", cuts=True)
    yield job("device", "gpt 4096", "parted -s DISK unit s resizepart 2 3000")
    yield job("device", "mbr 4096", "fdisk DISK", keys=("a\n", "2\n", "w\n"))
    yield job("device", "gpt 4096", "ptab edit --device DISK c:1:new")
    yield job("device", "large blank 4096", REPARTS)


def script(text):
    """A script of the shell, in which $1 is the disk, and E2FS and FAT make file systems that are the same each time."""
    text = text.replace("E2FS", f"E2FSPROGS_FAKE_TIME=1700000000 mke2fs -q -F -t ext4 -U {SEED} -E hash_seed={SEED}")
    return ["sh", "-ec", text.replace("FAT", "mkfs.fat --invariant -i 5ea5c0de"), "sh", "DISK"]


def data_on_images():
    yield job("image", "gpt", script('sfdisk -q --append "$1"; E2FS,offset=4194304 "$1" 2M'), ",2M", cuts=True, data="same")
    yield job("image", "blank", script('sfdisk -q "$1"; FAT --offset 2048 "$1" 2048'), "label: dos", "label-id: 0x5ea5c0de", "2048,4096,c",
              cuts=True, data="same")
    yield job("image", "gpt", script('sgdisk -a 1 -n 3:34:2047 -t 3:ef02 "$1"; dd if=FOLDER/loader of="$1" bs=512 seek=34 '
                                     'conv=notrunc status=none'),
              data="same")
    yield job("image", "mbr", script('sfdisk -A "$1" 2; dd if=FOLDER/loader of="$1" bs=512 seek=1 conv=notrunc status=none'),
              cuts=True, data="same")
    yield job("image", "gpt 4096", script('fdisk -b 4096 "$1"; FAT -S 4096 --offset 2304 "$1" 2048'), "n", "3", "2304", "2815", "w",
              data="same")
    yield job("image", "large blank", REPARTS.replace("repart.d ", "repart.data "), data="drawn")


def data_on_devices():
    node = 'partx --update "$1"; node=$(lsblk -lnpo NAME "$1" | sort -V | tail -1); '
    yield job("device", "gpt", script(f'sfdisk -q --append "$1"; {node}E2FS "$node"'), ",2M", cuts=True, data="same")
    yield job("device", "gpt 4096", script(f'sfdisk -q --append "$1"; {node}FAT "$node"'), ",2M", data="same")
    for size in ("", " 4096"):
        yield job("device", f"large blank{size}", REPARTS.replace("repart.d ", "repart.data "), data="drawn")
    loader = 'dd if=FOLDER/loader of="$1" bs=512 seek=34 status=none'
    yield job("device", "gpt", script(f'sgdisk -a 1 -n 3:34:2047 -t 3:ef02 "$1"; {loader}'), data="same")
    if shutil.which("grub-install") and os.path.exists("/usr/lib/grub/i386-pc"):
        files = ('mkdir -p FOLDER/boot; mount "$node" FOLDER/boot; '
                 'grub-install --target=i386-pc --boot-directory=FOLDER/boot "$1"; umount FOLDER/boot')
        yield job("device", "large blank", script(f'sgdisk -a 1 -n 1:34:2047 -t 1:ef02 -n 2:2048:0 "$1"; {node}E2FS "$node"; {files}'),
                  data="lossy")


def jobs(has_loops):
    """Those that can be run here; two of genimage, where that is."""
    found = [*on_images(), *data_on_images()]
    found += [it for more in (on_devices(), on_large_sectors(), data_on_devices()) for it in more if has_loops]
    if shutil.which("genimage"):
        words = "genimage --rootpath FOLDER/root --tmppath FOLDER/tmp --inputpath FOLDER/in --outputpath DIR --config FOLDER/config"
        found += [job("image", "large blank", words), job("image", "large blank", f"{words}.data", data="same")]
    return found


def files_for(folder):
    """What jobs read, in a folder of theirs."""
    for name in ("repart.d", "repart.data", "root", "in", "tmp"):
        os.makedirs(f"{folder}/{name}")
    files = {**{f"repart.d/{name}": text for name, text in REPART.items()}, "config": GENIMAGE, "in/one": "",
             **{f"repart.data/{name}": text for name, text in REPART_DATA.items()}, "config.data": GENIMAGE.replace('"one" }', '"data" }'),
             "in/data": "content of a partition\n" * 1000, "loader": "a boot loader\n" * 2000}
    for name, text in files.items():
        with open(f"{folder}/{name}", "w", encoding="ascii") as it:
            it.write(text)


def make(name, path):
    """Makes the image of that name. systemd-repart wants longer ones."""
    if name.startswith("large blank"):
        with open(path, "wb") as it:
            it.truncate(64 << 20)
    else:
        other_tools_jobs.make(name, path)
