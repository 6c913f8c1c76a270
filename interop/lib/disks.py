"""Disk images for the checks of partition tables."""
from .frame import printed, read, write

SECTOR = 512

ENDS = 40 * SECTOR

DISK = "00000000-1111-4222-8333-444444444444"

LINUX = "0fc63daf-8483-4772-8e79-3d69d8477de4"

NAMES = ("apk", "idsig", "a-name-of-thirty-six-characters-long")

LENGTHS = ((2400, 40, 9), (1, 1, 1), (100_000, 7, 300_000))


def unique(index):
    return f"11111111-2222-4333-8444-55555555555{index}"


def written(lengths):
    """Assembles a disk of three partitions from the ends that we write: its name, and the entries that it should have."""
    words = [str(word) for i, sectors in enumerate(lengths) for word in (NAMES[i], unique(i), sectors)]
    printed([" ".join(["write_disk head tail", DISK, *words])])
    with open("disk", "wb") as disk:
        disk.write(read("head"))
        disk.seek(ENDS + sum(lengths) * SECTOR)
        disk.write(read("tail"))
    first, entries = 40, []
    for i, sectors in enumerate(lengths):
        entries.append((LINUX, unique(i), first, first + sectors - 1, NAMES[i]))
        first += sectors
    return "disk", entries


def table(disk):
    """What we read from a disk: its GUID, and kind, GUID, first sector, last sector and name of each used entry."""
    data = read(disk)
    write("head", data[:ENDS])
    write("tail", data[-ENDS:])
    first, *rest = printed([f"read_disk head tail {len(data) // SECTOR}"]).splitlines()
    entries = []
    for line in rest:
        _, _, kind, guid, first_sector, last_sector, _, name = line.split()
        name = bytes.fromhex(name).decode("utf-16-le").split("\0")[0]
        entries.append((kind, guid, int(first_sector), int(last_sector), name))
    return first.removeprefix("disk "), entries


def spoiled(disk):
    """The disk with zeros for its primary header, so that only the alternate copy is left."""
    data = read(disk)
    return write(f"{disk}-spoiled", data[:SECTOR] + bytes(SECTOR) + data[2 * SECTOR:])


def blank(name, mebibytes):
    with open(name, "wb") as disk:
        disk.truncate(mebibytes << 20)
    return name
