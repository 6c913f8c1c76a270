"""Partition tables beside sgdisk: it finds no problem on the disks that we write and reads their entries, and we read its own."""
from lib.disks import DISK, LENGTHS, blank, spoiled, table, written
from lib.frame import check, program, run, same, tool

FIELDS = {
    "Partition GUID code": lambda text: text.split()[0].lower(),
    "Partition unique GUID": str.lower,
    "First sector": lambda text: int(text.split()[0]),
    "Last sector": lambda text: int(text.split()[0]),
    "Partition name": lambda text: text.strip("'"),
}


def listed(theirs, disk, count):
    """What sgdisk reads."""
    guid = next(line.split()[-1] for line in run(theirs, "-p", disk).splitlines() if "(GUID)" in line)
    entries = []
    for number in range(1, count + 1):
        said = dict(line.split(": ", 1) for line in run(theirs, "-i", number, disk).splitlines() if ": " in line)
        entries.append(tuple(read(said[name]) for name, read in FIELDS.items()))
    return guid.lower(), entries


def body():
    _, theirs = program("test_formats"), tool("sgdisk")
    for lengths in LENGTHS:
        disk, entries = written(lengths)
        said = run(theirs, "-v", disk)
        same(f"sgdisk -v, {lengths}", "No problems found" in said, True)
        for copy in (disk, spoiled(disk)):
            same(f"what sgdisk reads of {copy}, {lengths}", (DISK, entries), listed(theirs, copy, 3))
    disk = blank("their", 16)
    run(theirs, "-n", "1:0:+1M", "-c", "1:apk", "-n", "2:0:+3M", "-c", "2:idsig", "-t", "2:ef00", "-A", "2:set:2", "-n", "3:0:0", disk)
    for copy in (disk, spoiled(disk)):
        same(f"what we read of sgdisk's {copy}", table(copy), listed(theirs, disk, 3))


check(body)
