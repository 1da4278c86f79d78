#!/usr/bin/env python3
"""Mends disk.img, and renames its first partition. Wherever this stops, who reads the primary copy alone finds a table."""
import ptab

with ptab.Disk("disk.img", write=True, keep_primary=True) as disk:
    print(disk.repair(), "sectors mended")
    print(disk.edit("c:1:archive"), "sectors written")
