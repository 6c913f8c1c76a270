"""Partition tables beside parted: it reads the entries of the disks that we write, and we read its own."""
from lib.disks import LENGTHS, blank, spoiled, table, written
from lib.frame import check, program, run, same, tool


def listed(theirs, disk):
    """What parted reads: first sector, last sector and name."""
    lines = run(theirs, "-sm", disk, "unit", "s", "print").split(";")
    rows = [line.strip().split(":") for line in lines]
    return [(int(row[1].rstrip("s")), int(row[2].rstrip("s")), row[5]) for row in rows if row[0].isdigit()]


def body():
    _, theirs = program("test_formats"), tool("parted")
    for lengths in LENGTHS:
        disk, entries = written(lengths)
        same(f"what parted reads, {lengths}", [it[2:] for it in entries], listed(theirs, disk))
    disk = blank("their", 16)
    run(theirs, "-s", disk, "mklabel", "gpt", "mkpart", "apk", "1MiB", "2MiB", "mkpart", "idsig", "2MiB", "5MiB")
    for copy in (disk, spoiled(disk)):
        _, entries = table(copy)
        same(f"what we read of parted's {copy}", [it[2:] for it in entries], listed(theirs, disk))


check(body)
