"""Measured devices as Python's hashlib has them, and plans, tapes and frames for the guest."""
import hashlib
import struct

PAGE = 4096

FAN = 128


class Device:
    """A content of whole blocks, with the pages of its hash tree level by level from the blocks up."""

    def __init__(self, content, salt=b""):
        self.content, self.salt = content, salt
        self.levels = [[content[at:at + PAGE] for at in range(0, len(content), PAGE)]]
        while len(self.levels[-1]) > 1:
            digests = [self.hash(page) for page in self.levels[-1]]
            self.levels.append([b"".join(digests[at:at + FAN]).ljust(PAGE, b"\0") for at in range(0, len(digests), FAN)])
        self.root = self.hash(self.levels[-1][0])

    def hash(self, page):
        padded = self.salt.ljust(-(-len(self.salt) // 64) * 64, b"\0")
        return hashlib.sha256(padded + page).digest()

    def walk(self, block):
        """Level, index and page of each question on the way from the top page down to a block."""
        for level in range(len(self.levels) - 1, -1, -1):
            index = block // FAN**level
            yield level, index, self.levels[level][index]

    def plan(self):
        salt = self.salt.hex() or "-"
        return f"plan 1\nblob 7 {len(self.levels[0])} {salt} {self.root.hex()}\n".encode()

    def pages(self, at, size):
        """The questions of a read: those of the walk to each block that it touches."""
        end = min(at + size, len(self.content))
        for block in range(at // PAGE, -(-end // PAGE)) if at < end else ():
            yield from self.walk(block)


TAPE = b"guest-tape 1\n"

FAILED = b"\0"

DONE = b"\1"


def number(value):
    return struct.pack("<BQ", 2, value)


def told(data):
    """The record of bytes."""
    return struct.pack("<BI", 3, len(data)) + data


def request(at, size):
    """The frame of a read of the first measured item."""
    return struct.pack("<IBxxxIQI", 16, 1, 0, at, size)


def reply(code, data=b""):
    return struct.pack("<IBxxxI", 4 + len(data), 1, code) + data
