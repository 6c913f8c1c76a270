"""Boots of files that are opened by their digest."""
import hashlib

from lib.devices import Device, told
from models import case, counted, descriptor, ran, replayed, reply, request, tape

ORIGIN = ("Digests by hashlib over the descriptor; those of the files of 8,192, 0, 4,096 and 1 bytes are fsverity-utils' own "
          "(docs/FORMATS.md: fs-verity descriptor, log)")

ROOT = Device(counted(8192)).root


def digest(data):
    return hashlib.sha256(data).hexdigest()


def plan(data):
    return f"plan 1\nfile a 2 {digest(data)}\n".encode()


def changed(data, *places):
    data = bytearray(data)
    for at in places:
        data[at] = 1
    return bytes(data)


FILE = descriptor(8192, ROOT)

EMPTY = descriptor(0, bytes(32))

BLOCK = descriptor(4096, hashlib.sha256(counted(4096)).digest())

LONG = counted(100000)

LONG_FILE = descriptor(100000, Device(LONG.ljust(25 * 4096, b"\0")).root)

BYTE = descriptor(1, hashlib.sha256(b"Z".ljust(4096, b"\0")).digest())

LONGEST = descriptor(2**32, ROOT)

TOO_LONG = descriptor(2**32 + 1, ROOT)

assert [digest(it)[:8] for it in (FILE, EMPTY, BLOCK, BYTE)] == ["e48d50c5", "3d248ca5", "13e9b884", "ed1ca3d5"]


def refused(name, why, data, answer, words):
    return replayed(name, why, plan(data), [told(answer)], status=8, log=f"end 8 boot 2 file {words}\n")


def cases():
    for name, data in (("file", FILE), ("empty", EMPTY), ("block", BLOCK), ("byte", BYTE), ("longest", LONGEST)):
        yield replayed(f"{name} opens", "the descriptor has the plan's digest", plan(data), [told(data)])
    other = descriptor(4096, ROOT)
    yield refused("another size", "the root of two blocks as that of one", FILE, other, f"digestmismatch {digest(FILE)} {digest(other)}")
    yield refused("too long", "a size above 2^32", TOO_LONG, TOO_LONG, f"toolong {2**32 + 1}")
    yield refused("short", "a byte less than a descriptor", FILE, FILE[:255], "short 256 255")
    yield replayed("failed", "no answer", plan(FILE), [], status=8, log="end 8 boot 2 file failed 1\n")
    one, two = changed(FILE, 112), changed(FILE, 112, 50)
    yield refused("a byte set", "a byte past the salt", one, one, "descriptor notzero 112")
    yield refused("two bytes set", "the first of them", two, two, "descriptor notzero 50")
    yield refused("digest first", "the digest is compared before the descriptor is read", FILE, one, f"digestmismatch {digest(FILE)} {digest(one)}")
    yield refused("no content of the empty file", "the empty file's descriptor in place of another", FILE, EMPTY,
                  f"digestmismatch {digest(FILE)} {digest(EMPTY)}")
    blob = Device(counted(8192))
    both = blob.plan() + f"file a 8 {digest(EMPTY)}\n".encode()
    yield replayed("one call", "a blob's line makes no call, and a file's one: the read goes on with the next record", both,
                   [told(EMPTY)] + [told(page) for _, _, page in blob.pages(0, 4)], request(0, 0, 4) + request(1, 0, 4),
                   reply(0, blob.content[:4]) + reply(2))
    longer = blob.plan() + f"file a 8 {digest(TOO_LONG)}\n".encode()
    yield replayed("second line", "the line that is named is the file's", longer, [told(TOO_LONG)], status=8,
                   log=f"end 8 boot 3 file toolong {2**32 + 1}\n")
    for name, content, data in (("file", counted(8192), FILE), ("empty", b"", EMPTY), ("block", counted(4096), BLOCK), ("byte", b"Z", BYTE), ("long", LONG, LONG_FILE)):
        files = {"plan": plan(data), "store": b"store 1\nverity 2 c.bin -\n", "entropy": b"", "c.bin": content}
        yield case(f"{name} of a store list", "the host makes the descriptor", files,
                   ran("serve plan store entropy tape", stored={"tape": tape(told(data))}))
    files = {"plan": plan(FILE), "store": b"store 1\nverity 3 c.bin -\n", "entropy": b"", "c.bin": counted(8192)}
    yield case("another number", "the host has no file of the plan's number", files,
               ran("serve plan store entropy tape", 8, b"", "end 8 boot 2 file failed 1\n"))
