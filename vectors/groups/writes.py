"""Files that are written: READ, WRITE, SETATTR of a size and FSYNC, with the tapes of their calls and what the host then holds."""
from fuse_model import LARGEST, LAST, File, Session, Written
from groups.fuse import INIT, Draw, ended
from lib.devices import DONE, FAILED, number, told
from lib.fuse import MOST
from models import case, counted, ran, tape

ORIGIN = ("Messages and replies by interop/lib/fuse.py, which is compared with the kernel's header; what is answered, which calls are made and "
          "what the host then holds by fuse_model.py, and where a table says it, by that too; hashes by hashlib (docs/FORMATS.md: FUSE "
          "messages, plan, tape, log)")

FILE, WRITABLE = 0o100444, 0o100644

PAGE = 4096


def opened(*files):
    """A session over these files, each with a handle: that of node 2 is handle 1, and so on."""
    session = Session(*files)
    session.ask("init", 0, **INIT)
    for node, file in enumerate(files, 2):
        session.ask("lookup", 1, ("entry", node, node, file.size, file.mode), name=file.name.encode())
        session.ask("open", node, ("opened", node - 1), flags=0 if file.mode == FILE else 2)
    return session


def one():
    return opened(Written("w", 3))


def kept(session, name, why):
    """A session over a store list, what it keeps of the writable files, and the replay of its tape."""
    store, files, stored = "store 1\n", {"plan": session.plan, "entropy": b""}, {"tape": session.tape}
    for file in session.server.files.values():
        if file.mode == FILE:
            store += f"verity {file.number} content{file.number} {file.device.salt.hex() or '-' if file.device else '-'}\n"
            files[f"content{file.number}"] = file.content
        else:
            store += f"empty {file.number}\nkeep file {file.number} kept{file.number}\n"
            stored[f"kept{file.number}"] = file.content
    files["store"] = store.encode()
    return case(name, why, files, ran("serve plan store entropy tape", 0, session.replies, session.log, session.stream, stored),
                ran("replay plan tape entropy", 0, session.replies, session.log, session.stream))


def worked_rows():
    """Sessions that were worked out by hand."""
    session = one().rows([
        ("write", 2, dict(fh=1, data=b"\x41" * 8200), ("written", 8200)),
        ("read", 2, dict(fh=1, offset=4088, size=12), b"\x41" * 12),
    ])
    at = len(session.stream)
    session.ask("write", 2, ("written", 6), {3: FAILED}, fh=1, offset=4090, data=b"\x42" * 10)
    assert session.log == f"short {at} 6 failed 1\n"
    session.ask("read", 2, b"\x41" * 2 + b"\x42" * 6 + b"\x41" * 4, fh=1, offset=4088, size=12)
    yield ended(session, "a write that ends early", "the second write of a WRITE fails: the bytes of its first block are in place, and no others")
    session = opened(Written("w", 3), Written("v", 4)).rows([
        ("write", 2, dict(fh=1, offset=1_000_000, data=b"\x5a"), ("written", 1)),
        ("read", 2, dict(fh=1, offset=999_998, size=5), b"\0\0\x5a"),
        ("write", 3, dict(fh=2, data=b"abcdefghij"), ("written", 10)),
        ("setattr", 3, dict(valid=8, size=5), ("attr", 3, 5, WRITABLE)),
        ("setattr", 3, dict(valid=8, size=10), ("attr", 3, 10, WRITABLE)),
        ("read", 3, dict(fh=2, size=MOST), b"abcde" + bytes(5)),
        ("read", 2, dict(fh=1, size=2), b"\0\0"),
        ("read", 2, dict(fh=1, offset=1_000_000, size=1), b"\x5a"),
    ])
    yield kept(session, "gaps and cuts", "zeros between the end and a WRITE behind it; an old end is not seen again after a cut and a growth")
    session = one().rows([
        ("write", 2, dict(fh=1, offset=LARGEST, data=b"x"), "EFBIG"),
        ("write", 2, dict(fh=1, offset=LARGEST, data=b""), ("written", 0)),
        ("write", 2, dict(fh=1, offset=LARGEST - 1, data=b"xy"), "EFBIG"),
        ("write", 2, dict(fh=1, offset=LAST, data=b"x"), "EFBIG"),
        ("write", 2, dict(fh=1, offset=LAST, data=b""), ("written", 0)),
        ("setattr", 2, dict(valid=8, size=LARGEST + 1), "EFBIG"),
        ("setattr", 2, dict(valid=8, size=LAST), "EFBIG"),
        ("read", 2, dict(fh=1, offset=LAST, size=MOST), b""),
        ("getattr", 2, {}, ("attr", 2, 0, WRITABLE)),
    ])
    yield kept(session, "too large", "what ends behind byte 2^32 is refused and changes nothing; a WRITE without bytes is answered at any offset")
    session = one()
    session.ask("write", 2, ("written", 5), fh=1, data=b"hello")
    at = len(session.stream)
    session.ask("setattr", 2, "EIO", {1: FAILED}, valid=8, size=3)
    assert session.log == f"eio {at} failed 1\n"
    session.ask("read", 2, b"hello", fh=1, size=MOST)
    yield ended(session, "a size that fails", "the host doesn't set the size: nothing changed")
    session = one()
    session.ask("write", 2, ("written", 8192), fh=1, data=counted(8192))
    bent = bytes([counted(1)[0] ^ 1]) + counted(4096)[1:]
    session.ask("write", 2, "EIO", {0: told(bent)}, fh=1, offset=100, data=b"0123456789")
    assert " mismatch 0 0 " in session.log
    session.ask("write", 2, ("written", 10), fh=1, offset=100, data=b"0123456789")
    session.ask("read", 2, b"0123456789", fh=1, offset=100, size=10)
    yield ended(session, "a block that is bent", "a WRITE of a part of a block whose bytes the host answers wrong changes nothing; the next one is served")


# Checks in their order, and what is answered else: word, node, fields, expected. Node 2 is a writable file with handle 1, node 3 a
# read-only one with handle 2, node 4 isn't there.
ROWS = [
    ("write", 4, dict(fh=1, data=b"x"), "ENOENT"),
    ("write", 1, dict(fh=1, data=b"x"), "EISDIR"),
    ("write", 2, dict(fh=2, data=b"x"), "EBADF"),
    ("write", 2, dict(fh=9, offset=LARGEST, data=b"x"), "EBADF"),
    ("write", 3, dict(fh=1, data=b"x"), "EBADF"),
    ("write", 3, dict(fh=2, offset=LARGEST, data=b"x"), "EACCES"),
    ("write", 3, dict(fh=2, data=b""), "EACCES"),
    ("write", 2, dict(fh=1, data=bytes(MOST + 1)), "EINVAL"),
    ("write", 2, dict(fh=1, data=b"abc"), ("written", 3)),
    ("read", 2, dict(fh=2, size=4), "EBADF"),
    ("read", 2, dict(fh=1, size=MOST + 1), "EINVAL"),
    ("read", 2, dict(fh=1, size=MOST), b"abc"),
    ("read", 2, dict(fh=1, offset=2, size=1), b"c"),
    ("read", 2, dict(fh=1, offset=3, size=1), b""),
    ("read", 2, dict(fh=1, size=0), b""),
    ("setattr", 4, dict(valid=8, size=1), "ENOENT"),
    ("setattr", 1, dict(valid=8, size=1), "EISDIR"),
    ("setattr", 3, dict(valid=8, size=LARGEST + 1), "EACCES"),
    ("setattr", 2, dict(valid=8, size=LARGEST + 1), "EFBIG"),
    ("setattr", 2, dict(valid=2**32 - 9, size=1, mode=0o777, uid=3, mtime=4), ("attr", 2, 3, WRITABLE)),
    ("setattr", 2, dict(valid=8, size=3), ("attr", 2, 3, WRITABLE)),
    ("setattr", 2, dict(valid=9, size=2, mode=0o777, fh=9), ("attr", 2, 2, WRITABLE)),
    ("getattr", 2, {}, ("attr", 2, 2, WRITABLE)),
    ("lookup", 1, dict(name=b"w"), ("entry", 2, 2, 2, WRITABLE)),
    ("fsync", 4, dict(fh=1), "ENOENT"),
    ("fsync", 1, dict(fh=1), "EISDIR"),
    ("fsync", 2, dict(fh=2), "EBADF"),
    ("fsync", 2, dict(fh=1, fsync_flags=1), ("empty",)),
    ("fsync", 3, dict(fh=2), ("empty",)),
    ("flush", 2, dict(fh=2), "EBADF"),
    ("flush", 2, dict(fh=1), ("empty",)),
    ("open", 2, dict(flags=0), ("opened", 3)),
    ("open", 2, dict(flags=1), ("opened", 4)),
    ("open", 2, dict(flags=3), ("opened", 5)),
    ("open", 2, dict(flags=2**32 - 1), ("opened", 6)),
    ("open", 3, dict(flags=1), "EACCES"),
    ("write", 2, dict(fh=3, offset=1, data=b"z"), ("written", 1)),
    ("read", 2, dict(fh=6, size=9), b"az"),
    ("release", 2, dict(fh=3), ("empty",)),
    ("write", 2, dict(fh=3, data=b"x"), "EBADF"),
    ("opendir", 2, {}, "ENOTDIR"),
    ("create", 2, dict(name=b"c"), "ENOTDIR"),
    ("unlink", 1, dict(name=b"w"), "EACCES"),
    ("destroy", 1, {}, ("empty",)),
    ("write", 2, dict(fh=1, data=b"x"), "EPROTO"),
    ("init", 0, INIT, None),
    ("read", 2, dict(fh=1, size=9), "EBADF"),
    ("open", 2, {}, ("opened", 7)),
    ("read", 2, dict(fh=7, size=9), b"az"),
]


def rows():
    yield kept(opened(Written("w", 3), File("a", 5, counted(10))).rows(ROWS), "each check", "each refusal in the order of the checks, and what is answered else")
    session = Session(Written("w", 9), Written("v", 3), File("a", 4, counted(5000)), Written("u", 2**31 - 1)).ask("init", 0, **INIT)
    for node, name in enumerate((b"w", b"v", b"a", b"u"), 2):
        session.ask("lookup", 1, None, name=name)
        session.ask("open", node, ("opened", node - 1))
    for node in (2, 3, 5):
        session.ask("write", node, ("written", node), fh=node - 1, offset=node, data=bytes([node]) * node)
    for node in (5, 3, 2):
        session.ask("read", node, bytes(node) + bytes([node]) * node, fh=node - 1, size=99)
    session.ask("read", 4, counted(5000)[4090:], fh=3, offset=4090, size=MOST)
    yield kept(session, "several files", "writable files and a read-only one, whose nodes are in the plan's order, whatever their numbers")


def places():
    """WRITEs at, before and behind the borders of blocks, and sizes there, read back after each."""
    session, at = one(), (0, 1, PAGE - 1, PAGE, PAGE + 1, 2 * PAGE - 1, 2 * PAGE, 3 * PAGE)
    for first in at:
        for size in (1, 2, PAGE - 1, PAGE, PAGE + 1):
            session.ask("write", 2, ("written", size), fh=1, offset=first, data=counted(size, first + size))
            session.ask("read", 2, None, fh=1, offset=max(first - 3, 0), size=size + 6)
    for size in (*at, *reversed(at)):
        session.ask("setattr", 2, ("attr", 2, size, WRITABLE), valid=8, size=size)
        session.ask("read", 2, None, fh=1, size=MOST)
    yield kept(session, "borders of blocks", "WRITEs and sizes around the borders of blocks; which blocks are read before they are written is on the tape")
    session = one()
    session.ask("write", 2, ("written", MOST), fh=1, data=counted(MOST))
    session.ask("write", 2, ("written", MOST), fh=1, offset=5, data=counted(MOST, 9))
    session.ask("write", 2, ("written", MOST), fh=1, offset=126 * PAGE + 7, data=counted(MOST, 3))
    session.ask("write", 2, ("written", MOST), fh=1, offset=128 * PAGE, data=counted(MOST, 4))
    session.ask("read", 2, None, fh=1, offset=120 * PAGE + 1, size=MOST)
    session.ask("setattr", 2, ("attr", 2, 128 * PAGE + 1, WRITABLE), valid=8, size=128 * PAGE + 1)
    session.ask("setattr", 2, ("attr", 2, 129 * PAGE, WRITABLE), valid=8, size=129 * PAGE)
    session.ask("read", 2, None, fh=1, offset=127 * PAGE, size=MOST)
    yield kept(session, "long writes", "131,072 bytes on and off the borders of blocks, around 128 blocks, where the tree gets a level")
    session = one()
    session.ask("setattr", 2, ("attr", 2, 40_000_000, WRITABLE), valid=8, size=40_000_000)
    session.ask("read", 2, bytes(100), fh=1, offset=39_999_900, size=MOST)
    session.ask("write", 2, ("written", 3), fh=1, offset=20_000_000, data=b"abc")
    session.ask("read", 2, bytes(2) + b"abc" + bytes(2), fh=1, offset=19_999_998, size=7)
    session.ask("setattr", 2, ("attr", 2, 20_000_001, WRITABLE), valid=8, size=20_000_001)
    session.ask("read", 2, b"\0a", fh=1, offset=19_999_999, size=MOST)
    yield kept(session, "a large size", "40,000,000 zeros by one call, with a WRITE among them, and cut behind it")
    session = one()
    session.ask("write", 2, ("written", 1), fh=1, offset=LARGEST - 1, data=b"z")
    session.ask("read", 2, bytes(4) + b"z", fh=1, offset=LARGEST - 5, size=MOST)
    session.ask("write", 2, ("written", 9), fh=1, offset=LARGEST - 9, data=b"the limit")
    session.ask("read", 2, bytes(3) + b"the limit", fh=1, offset=LARGEST - 12, size=12)
    session.ask("setattr", 2, ("attr", 2, LARGEST, WRITABLE), valid=8, size=LARGEST)
    session.ask("setattr", 2, ("attr", 2, 2**31, WRITABLE), valid=8, size=2**31)
    session.ask("setattr", 2, ("attr", 2, LARGEST, WRITABLE), valid=8, size=LARGEST)
    session.ask("read", 2, bytes(12), fh=1, offset=LARGEST - 12, size=12)
    yield ended(session, "the largest file", "bytes that end at 2^32, the size 2^32, and half of it")


def bends():
    """Each call of a READ, a WRITE over three blocks and a cut is bent; then the file is read."""
    def tried(word, call, record, **fields):
        session = one()
        session.ask("write", 2, ("written", 3 * PAGE - 96), fh=1, data=counted(3 * PAGE - 96))
        session.ask(word, 2, None, {call: record}, **fields)
        session.ask("read", 2, session.server.files[2].content, fh=1, size=MOST)
        return session
    for word, calls, fields in (("read", 2, dict(fh=1, offset=4090, size=12)), ("write", 5, dict(fh=1, offset=4090, data=b"\x5a" * 8000)),
                                ("setattr", 2, dict(valid=8, size=5000))):
        for call in range(calls):
            for kind, record in (("failed", FAILED), ("done", DONE), ("number", number(5)), ("empty", told(b"")), ("short", told(counted(4095, 4096 * call))),
                                 ("flipped", told(b"\xff" * 4096))):
                yield ended(tried(word, call, record, **fields), f"{word} call {call} {kind}", "one answer is bent; then the file is read")
    session = one()
    session.ask("write", 2, ("written", 5), fh=1, data=b"hello")
    session.ask("read", 2, "EIO", {0: told(b"")}, fh=1, size=5)
    session.ask("read", 2, b"hello", {0: told(b"hello" + bytes(4091))}, fh=1, size=5)
    session.ask("setattr", 2, ("attr", 2, 7, WRITABLE), valid=8, size=7)
    session.ask("read", 2, "EIO", {0: told(b"hello")}, fh=1, size=7)
    yield ended(session, "short and long answers", "an answer is cut to what is asked; one that is short is refused, though zeros behind it would make the page")
    session = one()
    for k in range(3):
        session.ask("write", 2, "EIO", {0: FAILED}, fh=1, data=b"x")
    session.ask("write", 2, ("written", 1), fh=1, data=b"y")
    session.ask("read", 2, b"y", fh=1, size=5)
    yield ended(session, "failures are counted", "WRITEs that fail, one after another, and then one that is done")
    session = Session(Written("w", 3), Written("v", 4))
    for call, record in ((0, FAILED), (0, told(b"")), (1, FAILED), (1, number(0))):
        records = [record if k == call else DONE for k in range(call + 1)]
        yield case(f"boot {call} {record[:1].hex()}", "a file that isn't emptied at boot ends it", {"plan": session.plan, "tape": tape(*records), "entropy": b""},
                   ran("replay plan tape entropy", 8, b"", f"end 8 boot {2 + call} failed 1\n", b""))


def drawn(first):
    """Requests that are drawn on three files, some of whose calls are bent; each is judged by the model."""
    pick, session = Draw(1000 + first), opened(Written("w", 3), File("a", 5, counted(9000)), Written("v", 4))
    for _ in range(60):
        node = pick.of(2, 2, 4, 3)
        word = pick.of("write", "write", "write", "read", "read", "setattr", "fsync", "getattr")
        near = pick.of(0, PAGE, 2 * PAGE, 3 * PAGE, session.server.files[node].size)
        offset = max(near + pick(9) - 4, 0) if pick(2) else pick(12_000)
        fields = {}
        if word in ("write", "read", "fsync"):
            fields["fh"] = node - 1
        if word == "read":
            fields.update(offset=offset, size=pick.of(1, 5, 4096, 20_000, pick(9000)))
        if word == "write":
            size = pick.of(1, 7, 4096, pick(300), pick(9000))
            fields.update(offset=offset, data=pick.of(counted(size, pick(250)), bytes([pick(256)]) * size))
        if word == "setattr":
            fields.update(valid=8, size=offset)
        bend = {pick(5): pick.of(FAILED, DONE, told(b""), told(b"xyz"), told(bytes(4096)))} if pick(4) == 0 else {}
        session.ask(word, node, None, bend, **fields)
    for node in (2, 3, 4):
        session.ask("read", node, session.server.files[node].content, fh=node - 1, size=MOST)
    return session


def cases():
    for part in (worked_rows, rows, places, bends):
        yield from part()
    for first in range(4):
        yield ended(drawn(first), f"drawn {first}", "requests that are drawn on writable files and a read-only one, some of whose calls are bent")
