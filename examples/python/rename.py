#!/usr/bin/env python3
"""Lists the partitions of disk.img and renames the first one."""
import ptab

with ptab.Disk("disk.img", write=True) as disk:
    for partition in disk.table().partitions:
        print(partition.path, partition.name)
    disk.edit("c:1:archive")
print("done")
