"""What tools/ptab-run does, a subject each:

command_line    the options, and how the process ends
runs            a run: copies, the tool, what is lost, the way to the new table, the write
backups         --save
disks, locks    the image: open, locked, read by sectors
tables          where tables stand on a disk, and what is there where `ptab` reads none
folders, copies, loops
                where copies stand, how they are made and compared, and devices over them
lost            what the tool did that no table carries
data, progress  the data that is carried, and how far that is
programs        `ptab` and the tool, as processes
namespaces      the copy under the disk's own name
kernel          the kernel is told of a device's partitions
ends            statuses, lines and signals
shims, words    partition tools under their own names, and which of their calls only read
"""
