"""What mkguest makes of files, and sessions over the composite disks that it makes."""
import uuid

from lib.devices import Device
from models import ApkDisk, Table, case, composite, counted, idsig, ran, reply, request, tape

ORIGIN = ("Idsigs by hashlib, tables by models.py with zlib's CRC-32, GUIDs by Python's uuid5, composite files by models.py "
          "(docs/FORMATS.md: what mkguest makes, idsig, partition tables, composite file)")

DEVICE = Device(counted(1228800))

LIST = b"parts 1\npart apk ro app.apk\npart idsig ro app.idsig\n"

GUID = uuid.uuid5(uuid.UUID(int=0), "disk")

TABLE = Table(GUID, [("apk", uuid.uuid5(GUID, "apk"), 2400), ("idsig", uuid.uuid5(GUID, "idsig"), 40)])

DISK = ApkDisk(DEVICE, TABLE)

SPEC = composite(1290240, [("disk.head", 0, False), ("app.apk", 20480, False), ("app.idsig", 1249280, False), ("disk.tail", 1269760, False)])

MADE = (ran("idsig app.apk - app.idsig", stored={"app.idsig": idsig(DEVICE)}, program="mkguest"),
        ran("composite parts disk", stored={"disk": SPEC, "disk.head": TABLE.head, "disk.tail": TABLE.tail}, program="mkguest"))

FILES = {"app.apk": DEVICE.content, "parts": LIST, "store": b"store 1\ncomposite 0 disk\n", "entropy": b""}

ROOT = DEVICE.root.hex()

assert (str(GUID), len(idsig(DEVICE)), TABLE.sectors) == ("f7e3985a-bc56-50e0-9464-8666343dc1b0", 16445, 2520)


def served(name, why, lines, at, size, end):
    stream, replies = request(0, at, size), reply(0, DEVICE.content[at:end])
    records = [DISK.boot()] + list(DISK.read(at, end - at))
    return case(name, why, dict(FILES, plan=("plan 1\n" + lines).encode()), *MADE,
                ran("serve plan store entropy tape", 0, replies, "", stream, {"tape": tape(*records)}),
                ran("replay plan tape entropy", 0, replies, "", stream))


def stopped(name, why, lines, words):
    return case(name, why, dict(FILES, plan=("plan 1\n" + lines).encode()), *MADE,
                ran("serve plan store entropy tape", 8, b"", f"end 8 boot 2 {words}\n", request(0, 0, 8)))


def refused(name, why, words, status, log, **files):
    return case(name, why, {"file": counted(5000), "zero": b"", "one": counted(4096), **files}, ran(words, status, log.encode(), program="mkguest"))


def sessions():
    yield served("end of the file", "the host's measure; a read at the end", "apk 0 apk idsig first\n", 1228790, 100, 1228800)
    yield served("border of a tree page", "blocks 127 and 128", "apk 0 apk idsig first\n", 128 * 4096 - 6, 12, 128 * 4096 + 6)
    yield served("measure of a block less", "as many tree pages, so it opens", f"apk 0 apk idsig fixed 299 - {ROOT}\n", 0, 5000, 5000)
    yield served("end of a block less", "the device ends at 1,224,704", f"apk 0 apk idsig fixed 299 - {ROOT}\n", 1224700, 8, 1224704)
    other = "b" + ROOT[1:]
    yield stopped("span too short", "a block more than the partition has", f"apk 0 apk idsig fixed 301 - {ROOT}\n", "apk spanshort 301 2400")
    yield stopped("another root", "not the idsig's", f"apk 0 apk idsig fixed 300 - {other}\n", f"apk rootmismatch {other} {ROOT}")
    yield stopped("no idsig", "a name that no part has", "apk 0 apk idsi first\n", "nopart idsi")
    yield stopped("no apk", "a name that no part has", "apk 0 nope idsig first\n", "nopart nope")


def faults():
    yield refused("one block", "a tree has two blocks at least", "idsig one - out", 11, "end 11 unfit toofewblocks\n")
    yield refused("half a byte of salt", "one digit", "measure file 0", 1, "end 1 usage\n")
    yield refused("no file", "a file that isn't there", "measure other -", 3, "end 3 file other\n")
    for name, why, text, status, words in (
            ("name twice", "the second line", "part a ro file\npart a rw file\n", 2, "list 3 twice"),
            ("mode", "neither ro nor rw", "part a wo file\n", 2, "list 2 word"),
            ("empty part", "a part without bytes", "part a rw file\npart b ro zero\n", 11, "unfit empty"),
            ("uneven part", "a writable part of 5,000 bytes", "part a rw file\n", 11, "unfit uneven"),
            ("no parts", "a list without lines", "", 11, "unfit noparts"),
            ("too many", "129 parts", "".join(f"part a{i} ro file\n" for i in range(129)), 11, "unfit toomany")):
        yield refused(name, why, "composite list out", status, f"end {status} {words}\n", list=("parts 1\n" + text).encode())


def cases():
    yield from sessions()
    yield from faults()
