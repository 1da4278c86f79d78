#!/usr/bin/env python3
"""Gives disk.img a GPT, saves its table, makes its second partition a swap space, and takes the old table back."""
import ptab

with ptab.Disk("disk.img", write=True) as disk:
    disk.set({"partitiontable": {"label": "gpt", "partitions": [
        {"size": "16MiB", "type": "esp", "name": "EFI"}, {"name": "root", "type": "linux-generic"}]}})
    saved = disk.json()
    table = disk.json()
    table["partitiontable"]["partitions"][1]["type"] = "swap"
    disk.set(table)
    print(disk.table().partitions[1].type)
    disk.set(saved)
    print(disk.table().partitions[1].type)
    try:
        disk.set({"partitiontable": {"partitions": [{"nmae": "data"}]}})
    except ptab.TextFault as fault:
        print(fault, "/", fault.key, fault.part)
