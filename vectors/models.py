"""Partition tables (UEFI 2.10, section 5.3), composite files and idsigs, as their formats define them; and cases."""
import struct
import uuid
import zlib

from lib.devices import TAPE, Device, number, told

SECTOR = 512

LINUX = uuid.UUID("0fc63daf-8483-4772-8e79-3d69d8477de4")


def counted(size, first=0):
    """Bytes of which byte j is j mod 251."""
    return bytes(j % 251 for j in range(first, first + size))


def request(item, offset, size):
    """The frame of a read of an item."""
    return struct.pack("<IBxxxIQI", 16, 1, item, offset, size)


def reply(code, data=b""):
    return struct.pack("<IBxxxI", 4 + len(data), 1, code) + data


def descriptor(size, root, salt=b""):
    """An fs-verity descriptor."""
    return (struct.pack("<BBBB4xQ", 1, 1, 12, len(salt), size) + root.ljust(64, b"\0") + salt).ljust(256, b"\0")


def stored_tree(device):
    """The levels of a tree from the top to the leaves."""
    return b"".join(page for level in reversed(device.levels[1:]) for page in level)


def idsig(device):
    """The idsig of a content, without signing info."""
    tree, salt = stored_tree(device), device.salt
    info = struct.pack("<iBi", 1, 12, len(salt)) + salt + struct.pack("<i", 32) + device.root
    return struct.pack("<ii", 2, len(info)) + info + struct.pack("<ii", 0, len(tree)) + tree


class Table:
    """The two ends of a disk: its head, its tail and its sectors, in parts that can be changed before they are sealed."""

    def __init__(self, disk, parts):
        """Parts are names, GUIDs and sectors."""
        self.spans, first = {}, 40
        entries = b""
        for name, unique, sectors in parts:
            self.spans[name] = (first, sectors)
            entries += LINUX.bytes_le + unique.bytes_le + struct.pack("<QQQ", first, first + sectors - 1, 0)
            entries += name.encode("utf-16-le").ljust(72, b"\0")
            first += sectors
        self.sectors = first + 40
        self.arrays = [bytearray(entries.ljust(16384, b"\0")) for _ in range(2)]
        places = ((1, self.sectors - 1, 2), (self.sectors - 1, 1, self.sectors - 33))
        self.headers = [
            bytearray(struct.pack("<8sIIIIQQQQ16sQIII", b"EFI PART", 0x10000, 92, 0, 0, own, other, 40, self.sectors - 41,
                                  disk.bytes_le, array, 128, 128, 0))
            for own, other, array in places]
        self.seal()

    def seal(self):
        """Makes the CRCs those of what stands there."""
        for header, array in zip(self.headers, self.arrays):
            header[88:92] = struct.pack("<I", zlib.crc32(array))
            header[16:20] = bytes(4)
            header[16:20] = struct.pack("<I", zlib.crc32(header))

    @property
    def head(self):
        size = min(self.sectors - 1, 0xFFFFFFFF)
        record = struct.pack("<B3sB3sII", 0, b"\0\2\0", 0xEE, b"\xff\xff\xff", 1, size)
        first = (bytes(446) + record).ljust(510, b"\0") + b"\x55\xaa"
        return first + bytes(self.headers[0]).ljust(SECTOR, b"\0") + bytes(self.arrays[0]) + bytes(6 * SECTOR)

    @property
    def tail(self):
        return bytes(7 * SECTOR) + bytes(self.arrays[1]) + bytes(self.headers[1]).ljust(SECTOR, b"\0")


def varint(value):
    out = b""
    while value > 127:
        out, value = out + bytes([value % 128 + 128]), value // 128
    return out + bytes([value])


def composite(length, components):
    """A composite file of components: path, offset, and whether it may be written."""
    out = b"composite_disk\x1d\x08\x02"
    for path, offset, write in components:
        body = b"\x0a" + varint(len(path)) + path.encode()
        body += (b"\x10" + varint(offset) if offset else b"") + (b"\x18\x01" if write else b"")
        out += b"\x12" + varint(len(body)) + body
    return out + b"\x18" + varint(length)


class ApkDisk:
    """A disk with a content as the part `apk` and its idsig as the part `idsig`."""

    def __init__(self, device, table):
        self.device, self.table = device, table
        self.apk, self.idsig = table.spans["apk"][0], table.spans["idsig"][0]
        padded = [data.ljust(sectors * SECTOR, b"\0")
                  for data, (_, sectors) in zip((device.content, idsig(device)), table.spans.values())]
        self.bytes = table.head + b"".join(padded) + table.tail
        self.tree = self.idsig * SECTOR + 61 + len(device.salt)
        self.front = self.bytes[self.idsig * SECTOR:][:min(136, self.table.spans["idsig"][1]) * SECTOR]

    def boot(self, lines=1):
        """The answers to the calls of so many `apk` lines. Boot doesn't look at the tree, so `front` may have another."""
        return number(self.table.sectors) + told(self.table.head) + told(self.table.tail) + lines * told(self.front)

    def place(self, level, index):
        """The first byte of a page of the tree, or of a block."""
        if level == 0:
            return self.apk * SECTOR + 4096 * index
        return self.tree + 4096 * (sum(len(it) for it in self.device.levels[level + 1:]) + index)

    def read(self, at, size):
        """The answers to the calls of a read: of each page the sectors that hold it."""
        for level, index, _ in self.device.pages(at, size):
            first = self.place(level, index)
            yield told(self.bytes[first // SECTOR * SECTOR:-(-(first + 4096) // SECTOR) * SECTOR])


def tape(*records):
    return TAPE + b"".join(records)


def ran(words, status=0, stdout=b"", stderr="", stdin=b"", stored=None, program="guest", **more):
    """One run of a program, and what it has to give."""
    return dict(program=program, words=words.split(), stdin=stdin, status=status, stdout=stdout, stderr=stderr, stored=stored or {}, **more)


def case(name, why, files, *played):
    return dict(name=name, why=why, files=files, runs=list(played))


def replayed(name, why, plan, records, stream=b"", replies=b"", status=0, log="", **more):
    """A replay of a tape."""
    files = {"plan": plan, "tape": tape(*records), "entropy": b""}
    return case(name, why, files, ran("replay plan tape entropy", status, replies, log, stream, **more))
