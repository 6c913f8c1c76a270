"""Boots of APK devices over tapes: the disk's table, the idsig, and reads behind them."""
import struct
import uuid
import zlib

from lib.devices import Device, number, told
from models import ApkDisk, Table, counted, replayed, reply, request

ORIGIN = "Tables by models.py with zlib's CRC-32, idsigs and trees by hashlib (docs/FORMATS.md: partition tables, idsig, calls at boot, log)"

DEVICE = Device(counted(300 * 4096))

ROOT = DEVICE.root.hex()

FIRST = "apk 0 apk idsig first\n"

ASKED = request(0, 299 * 4096, 8) + request(1, 0, 8)


def table(apk=2400, signed=40):
    """The table of an APK and an idsig of so many sectors."""
    sevens = uuid.UUID(bytes=16 * b"\7")
    return Table(uuid.UUID(bytes=16 * b"\11"), [("apk", sevens, apk), ("idsig", sevens, signed)])


DISK = ApkDisk(DEVICE, table())

# Boot looks at no page of the tree: there are zeros in its place.
DISK.front = DISK.front[:61] + bytes(20480 - 61)

assert (zlib.crc32(DISK.table.head), zlib.crc32(DISK.table.tail)) == (0xB9D334C3, 0x1F4ED53F)


def plan(lines):
    return ("plan 1\n" + lines).encode()


def refused(name, why, lines, records, words, line=2):
    return replayed(name, why, plan(lines), records, status=8, log=f"end 8 boot {line} {words}\n")


def ends(it):
    """The records of a disk's table."""
    return [number(it.sectors), told(it.head), told(it.tail)]


def idsigs():
    front = DISK.front
    last = list(DISK.read(299 * 4096, 8))
    good = reply(0, DEVICE.content[299 * 4096:][:8])
    yield replayed("first", "four calls, and the read goes on with the next record", plan(FIRST), [DISK.boot()] + last, ASKED, good + reply(2))
    yield replayed("two lines of one disk", "the table is read once; each line reads the idsig", plan(FIRST + FIRST), [DISK.boot(2)] + last,
                   request(0, 2**40, 1) + request(1, 299 * 4096, 8) + request(2, 0, 1), reply(0) + good + reply(2))
    yield replayed("fixed", "the plan's measure of a block less has as many tree pages", plan(f"apk 0 apk idsig fixed 299 - {ROOT}\n"), [DISK.boot()],
                   request(0, 299 * 4096, 8), reply(0))
    fixed = f"apk 0 apk idsig fixed 301 - {ROOT}\n"
    yield refused("span too short", "a block more than the partition has", fixed, [DISK.boot()], "apk spanshort 301 2400")
    other = bytes([DEVICE.root[0] ^ 0x10]).hex() + ROOT[2:]
    yield refused("another root", "the idsig's root isn't the plan's", f"apk 0 apk idsig fixed 300 - {other}\n", [DISK.boot()],
                  f"apk rootmismatch {other} {ROOT}")
    yield refused("another salt", "the idsig's salt isn't the plan's", f"apk 0 apk idsig fixed 300 ab {ROOT}\n", [DISK.boot()], "apk saltmismatch")
    for name in ("nope", "ap", "apk2", "APK"):
        yield refused(f"no part {name}", "no used entry has the name", f"apk 0 {name} idsig first\n", [DISK.boot(0)], f"nopart {name}")
        yield refused(f"no idsig {name}", "no used entry has the name", f"apk 0 apk {name} first\n", [DISK.boot(0)], f"nopart {name}")
    yield refused("no second idsig", "the call of the second line fails", FIRST + FIRST, [DISK.boot()], "apk failed 1", 3)
    short = front[:57] + struct.pack("<i", 12288) + front[61:]
    yield refused("tree too short", "a page less than 300 blocks need", FIRST, [DISK.boot(0), told(short)], "apk idsig treelength 16384 12288")
    yield refused("no tree", "the tree has no bytes", FIRST, [DISK.boot(0), told(front[:57] + bytes(4) + front[61:])], "apk idsig notree")
    yield refused("another version", "version 3", FIRST, [DISK.boot(0), told(b"\3" + front[1:])], "apk idsig version 3")
    yield refused("short idsig", "a sector in place of forty", FIRST, [DISK.boot(0), told(front[:512])], "apk short 20480 512")


def measures():
    """How many blocks the APK has by its sectors, by the plan and by the idsig's tree, and which rule comes first."""
    front = DISK.front
    wide = ApkDisk(DEVICE, table(2407))
    yield replayed("seven sectors more", "whole blocks alone count", plan(FIRST), [wide.boot()] + list(wide.read(299 * 4096, 8)),
                   request(0, 299 * 4096, 8) + request(0, 300 * 4096, 8), reply(0, DEVICE.content[299 * 4096:][:8]) + reply(0))
    for name, sectors, words in (("one block", 15, "toofewblocks 1"), ("most blocks", 8388608, "idsig treelength 33820672 16384"),
                                 ("a block too many", 8388616, "toomanyblocks 1048577")):
        yield refused(name, "by the APK's sectors", FIRST, ends(table(sectors)) + [told(front)], f"apk {words}")
    yield refused("fewer tree pages", "200 blocks have three pages above them", f"apk 0 apk idsig fixed 200 - {ROOT}\n", [DISK.boot()],
                  "apk idsig treelength 12288 16384")
    other = 32 * "07"
    yield refused("root before span", "another root, and a block more than there are", f"apk 0 apk idsig fixed 301 - {other}\n", [DISK.boot()],
                  f"apk rootmismatch {other} {ROOT}")
    yield refused("salt before root", "another salt too", f"apk 0 apk idsig fixed 301 01 {other}\n", [DISK.boot()], "apk saltmismatch")
    yield refused("end of the disk", "ten sectors in place of the 136 of a longest front", FIRST, ends(table(2400, 200)) + [told(front[:5120])],
                  "apk short 69632 5120")
    yield refused("tree past its part", "the part ends before the tree does", FIRST, ends(table(2400, 32)) + [told(front[:16384])],
                  "apk idsig truncated 61")
    yield refused("no idsig there", "a part of zeros", FIRST, ends(DISK.table) + [told(bytes(20480))], "apk idsig version 0")


def tables():
    """The three calls for a table, and tables that break a rule in both copies."""
    good = ends(DISK.table)
    for count in range(3):
        yield refused(f"{count} answers", "the next call fails", FIRST, good[:count], "failed 1")
        if count > 0:
            yield refused(f"short after {count}", "a sector in place of forty", FIRST, good[:count] + [told(512 * b"\7")], "short 20480 512")
    yield refused("small disk", "79 sectors", FIRST, [number(79)], "gpt size 79")
    it = table()
    it.headers[0][56] ^= 1
    yield replayed("alternate copy", "one changed byte in the primary's GUID of the disk", plan(FIRST), ends(it) + [told(DISK.front)],
                   request(1, 0, 1), reply(2))
    it.headers[1][56] ^= 1
    yield refused("both changed", "the primary's stored CRC, and the computed one", FIRST, ends(it), "gpt headercrc 16769c82 83064817")
    for field, at, form, value, words in (
            ("headers", 0, "<Q", 0, "signature"), ("headers", 8, "<I", 0x20000, "revision 131072"), ("headers", 12, "<I", 93, "headersize 93"),
            ("headers", 84, "<I", 256, "entrysize 256"), ("headers", 80, "<I", 2**32 - 1, "entrycount 4294967295"), ("headers", 80, "<I", 0, "entrycount 0"),
            ("headers", 48, "<Q", 2**64 - 1, "place"), ("headers", 24, "<Q", 5, "place"), ("arrays", 40, "<Q", 2**64 - 1, "range 0"),
            ("arrays", 160, "<Q", 2439, "overlap 0 1")):
        it = table()
        for copy in getattr(it, field):
            struct.pack_into(form, copy, at, value)
        it.seal()
        yield refused(f"{words} at {at}", f"a value in both copies of the {field}", FIRST, ends(it), f"gpt {words}")


def cases():
    yield from idsigs()
    yield from measures()
    yield from tables()
