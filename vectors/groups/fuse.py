"""Messages of FUSE over read-only files, with the tapes of their reads."""
import struct

from fuse_model import LAST, File, Session, ask, body_of, framed
from lib.devices import DONE, FAILED, Device, number, told
from lib.fuse import HEAD, MOST, OPERATIONS, SILENT, dirent, request
from models import case, counted, ran, tape

ORIGIN = ("Messages and replies by interop/lib/fuse.py, which is compared with the kernel's header; what is answered by fuse_model.py, and where "
          "a table says it, by that too; tree pages by hashlib (docs/FORMATS.md: FUSE messages, hash trees, tape, log)")

A = File("a", 2, counted(100_000))

B = File("b", 3, counted(3 * 4096 - 96, 7), b"\x2a")

EMPTY = File("empty", 4, b"")

FILE, ROOT = 0o100444, 0o40755

INIT = dict(major=7, minor=38, max_readahead=MOST, flags=0x20)

# The entries of the root with a and b: node, cookie, DT_DIR or DT_REG, name. Each has 32 bytes.
DOT, DOTS, IN_A, IN_B = dirent(1, 1, 4, b"."), dirent(1, 2, 4, b".."), dirent(2, 3, 8, b"a"), dirent(3, 4, 8, b"b")


def ended(session, name, why, status=0, end="", more=b""):
    """The replay of a session, of which the stream goes on with `more`."""
    files = {"plan": session.plan, "tape": session.tape, "entropy": b""}
    return case(name, why, files, ran("replay plan tape entropy", status, session.replies, session.log + end, session.stream + more))


def served(session, name, why):
    """A session over a store list, and the replay of the tape that it stores."""
    store, files = "store 1\n", {"plan": session.plan, "entropy": b""}
    for n, device in enumerate(session.devices):
        store += f"verity {7 + n} device{n} {device.salt.hex() or '-'}\n"
        files[f"device{n}"] = device.content
    for file in session.server.files.values():
        store += f"verity {file.number} content{file.number} {file.device.salt.hex() or '-' if file.device else '-'}\n"
        files[f"content{file.number}"] = file.content
    files["store"] = store.encode()
    return case(name, why, files, ran("serve plan store entropy tape", 0, session.replies, session.log, session.stream, {"tape": session.tape}),
                ran("replay plan tape entropy", 0, session.replies, session.log, session.stream))


def usual():
    """INIT, LOOKUP of a, OPEN of it and a READ that is cut at its end."""
    session = Session(A)
    session.ask("init", 0, **INIT)
    session.ask("lookup", 1, ("entry", 2, 2, 100_000, FILE), name=b"a")
    session.ask("open", 2, ("opened", 1), flags=0)
    return session.ask("read", 2, A.content[65_536:], fh=1, offset=65_536, size=MOST)


def prepared():
    """Two files, looked up and opened by the handles 1 and 2, of which 2 is closed; b is node 3."""
    session = Session(A, B)
    return session.rows([
        ("init", 0, INIT, None),
        ("lookup", 1, dict(name=b"a"), ("entry", 2, 2, 100_000, FILE)),
        ("lookup", 1, dict(name=b"b"), ("entry", 3, 3, 12_192, FILE)),
        ("open", 2, dict(flags=0), ("opened", 1)),
        ("open", 3, dict(flags=0), ("opened", 2)),
        ("release", 3, dict(fh=2), ("empty",)),
    ])


# Each operation with its refusals in their order and what it answers: word, node, fields, and an error, a kind of reply with its fields,
# bytes, or 'no reply'; None leaves it to the model. Node 1 is the root, 2 and 3 are a and b, 4 isn't there; handle 1 is of a, handle 2
# was of b, handle 3 was never given.
ROWS = {
    "init": [
        ("init", 0, INIT, "EPROTO"),
        ("init", 0, dict(INIT, major=8), "EPROTO"),
        ("init", 0, dict(INIT, minor=30), "EPROTO"),
    ],
    "lookup": [
        ("lookup", 4, dict(name=b"a"), "ENOENT"),
        ("lookup", LAST, dict(name=b"no reply"), "ENOENT"),
        ("lookup", 0, dict(name=b"a"), "ENOENT"),
        ("lookup", 2, dict(name=b"a"), "ENOTDIR"),
        ("lookup", 2, dict(name=b"no reply"), "ENOTDIR"),
        ("lookup", 1, dict(name=b"no reply"), "ENOENT"),
        ("lookup", 1, dict(name=b"A"), "ENOENT"),
        ("lookup", 1, dict(name=b"ab"), "ENOENT"),
        ("lookup", 1, dict(name=b"\xff" * 255), "ENOENT"),
        ("lookup", 1, dict(name=b"b"), ("entry", 3, 3, 12_192, FILE)),
    ],
    "getattr": [
        ("getattr", 4, {}, "ENOENT"),
        ("getattr", 0, {}, "ENOENT"),
        ("getattr", 1, {}, ("attr", 1, 0, ROOT)),
        ("getattr", 2, {}, ("attr", 2, 100_000, FILE)),
        ("getattr", 3, dict(getattr_flags=1, fh=9), ("attr", 3, 12_192, FILE)),
    ],
    "setattr": [
        ("setattr", 4, dict(valid=8, size=1), "ENOENT"),
        ("setattr", 4, dict(valid=0), "ENOENT"),
        ("setattr", 1, dict(valid=8, size=1), "EISDIR"),
        ("setattr", 1, dict(valid=2**32 - 1, size=LAST), "EISDIR"),
        ("setattr", 2, dict(valid=8, size=100_000), "EACCES"),
        ("setattr", 2, dict(valid=9, size=2**32 + 1), "EACCES"),
        ("setattr", 2, dict(valid=2**32 - 9, size=5, mode=0o777, uid=3, mtime=4), ("attr", 2, 100_000, FILE)),
        ("setattr", 1, dict(valid=1, mode=0o777), ("attr", 1, 0, ROOT)),
        ("setattr", 3, dict(valid=0, fh=9), ("attr", 3, 12_192, FILE)),
    ],
    "open": [
        ("open", 4, dict(flags=1), "ENOENT"),
        ("open", 1, dict(flags=1), "EISDIR"),
        ("open", 1, dict(flags=0), "EISDIR"),
        ("open", 2, dict(flags=1), "EACCES"),
        ("open", 2, dict(flags=2), "EACCES"),
        ("open", 2, dict(flags=3), "EACCES"),
        ("open", 2, dict(flags=2**32 - 1), "EACCES"),
        ("open", 2, dict(flags=0x8000), ("opened", 3)),
        ("open", 3, dict(flags=2**32 - 4), ("opened", 4)),
    ],
    "read": [
        ("read", 4, dict(fh=3, size=4), "ENOENT"),
        ("read", 1, dict(fh=3, size=4), "EISDIR"),
        ("read", 1, dict(fh=1, size=4), "EISDIR"),
        ("read", 2, dict(fh=3, size=4), "EBADF"),
        ("read", 3, dict(fh=2, size=4), "EBADF"),
        ("read", 3, dict(fh=1, size=4), "EBADF"),
        ("read", 2, dict(fh=0, size=4), "EBADF"),
        ("read", 2, dict(fh=LAST, size=4), "EBADF"),
        ("read", 2, dict(fh=1, size=MOST + 1), "EINVAL"),
        ("read", 4, dict(fh=3, size=2**32 - 1), "EINVAL"),
        ("read", 2, dict(fh=1, size=4), bytes([0, 1, 2, 3])),
        ("read", 2, dict(fh=1, offset=99_998, size=MOST), A.content[99_998:]),
        ("read", 2, dict(fh=1, offset=5, size=0), b""),
        ("read", 2, dict(fh=1, offset=100_000, size=1), b""),
        ("read", 2, dict(fh=1, offset=LAST, size=MOST), b""),
    ],
    "write": [
        ("write", 4, dict(fh=3, data=b"x"), "ENOENT"),
        ("write", 1, dict(fh=3, data=b"x"), "EISDIR"),
        ("write", 2, dict(fh=3, data=b"x"), "EBADF"),
        ("write", 3, dict(fh=2, data=b"x"), "EBADF"),
        ("write", 3, dict(fh=1, data=b"x"), "EBADF"),
        ("write", 2, dict(fh=1, offset=2**32, data=b"x"), "EACCES"),
        ("write", 2, dict(fh=1, data=b""), "EACCES"),
        ("write", 2, dict(fh=1, data=bytes(MOST)), "EACCES"),
        ("write", 2, dict(fh=1, data=bytes(MOST + 1)), "EINVAL"),
    ],
    "flush": [
        ("flush", 4, dict(fh=3), "ENOENT"),
        ("flush", 1, dict(fh=3), "EISDIR"),
        ("flush", 2, dict(fh=3), "EBADF"),
        ("flush", 3, dict(fh=2), "EBADF"),
        ("flush", 3, dict(fh=1), "EBADF"),
        ("flush", 2, dict(fh=1), ("empty",)),
    ],
    "fsync": [
        ("fsync", 4, dict(fh=3), "ENOENT"),
        ("fsync", 1, dict(fh=3), "EISDIR"),
        ("fsync", 2, dict(fh=3), "EBADF"),
        ("fsync", 3, dict(fh=2), "EBADF"),
        ("fsync", 3, dict(fh=1), "EBADF"),
        ("fsync", 2, dict(fh=1, fsync_flags=1), ("empty",)),
    ],
    "opendir": [
        ("opendir", 4, {}, "ENOENT"),
        ("opendir", 0, {}, "ENOENT"),
        ("opendir", LAST, {}, "ENOENT"),
        ("opendir", 2, {}, "ENOTDIR"),
        ("opendir", 1, {}, ("opened", 3)),
        ("opendir", 1, dict(flags=2**32 - 1), ("opened", 4)),
        ("open", 2, {}, ("opened", 5)),
    ],
    "readdir": [
        ("readdir", 4, dict(fh=3, size=MOST), "ENOENT"),
        ("readdir", 2, dict(fh=3, size=MOST), "ENOTDIR"),
        ("readdir", 2, dict(fh=1, size=MOST), "ENOTDIR"),
        ("readdir", 1, dict(fh=3, size=MOST), "EBADF"),
        ("readdir", 1, dict(fh=1, size=MOST), "EBADF"),
        ("opendir", 1, {}, ("opened", 3)),
        ("readdir", 2, dict(fh=3, size=MOST), "ENOTDIR"),
        ("readdir", 1, dict(fh=0, size=MOST), "EBADF"),
        ("readdir", 1, dict(fh=2, size=MOST), "EBADF"),
        ("readdir", 1, dict(fh=LAST, size=MOST), "EBADF"),
        ("readdir", 1, dict(fh=3, size=MOST + 1), "EINVAL"),
        ("readdir", 4, dict(fh=9, size=2**32 - 1), "EINVAL"),
        ("readdir", 1, dict(fh=3, size=MOST), DOT + DOTS + IN_A + IN_B),
        ("readdir", 1, dict(fh=3, size=0), b""),
        ("readdir", 1, dict(fh=3, size=31), b""),
        ("readdir", 1, dict(fh=3, size=32), DOT),
        ("readdir", 1, dict(fh=3, size=63), DOT),
        ("readdir", 1, dict(fh=3, size=64), DOT + DOTS),
        ("readdir", 1, dict(fh=3, size=95), DOT + DOTS),
        ("readdir", 1, dict(fh=3, size=96), DOT + DOTS + IN_A),
        ("readdir", 1, dict(fh=3, size=127), DOT + DOTS + IN_A),
        ("readdir", 1, dict(fh=3, size=128), DOT + DOTS + IN_A + IN_B),
        ("readdir", 1, dict(fh=3, offset=1, size=MOST), DOTS + IN_A + IN_B),
        ("readdir", 1, dict(fh=3, offset=2, size=MOST), IN_A + IN_B),
        ("readdir", 1, dict(fh=3, offset=2, size=32), IN_A),
        ("readdir", 1, dict(fh=3, offset=3, size=MOST), IN_B),
        ("readdir", 1, dict(fh=3, offset=3, size=31), b""),
        ("readdir", 1, dict(fh=3, offset=4, size=MOST), b""),
        ("readdir", 1, dict(fh=3, offset=LAST, size=MOST), b""),
        ("readdir", 1, dict(fh=3, size=64, read_flags=1, lock_owner=2, flags=3), DOT + DOTS),
        ("read", 2, dict(fh=3, size=4), "EBADF"),
        ("read", 1, dict(fh=3, size=4), "EISDIR"),
        ("release", 1, dict(fh=3), "EISDIR"),
        ("release", 2, dict(fh=3), "EBADF"),
        ("flush", 1, dict(fh=3), "EISDIR"),
        ("readdir", 1, dict(fh=3, offset=3, size=MOST), IN_B),
    ],
    "releasedir": [
        ("releasedir", 4, dict(fh=3), "ENOENT"),
        ("releasedir", 2, dict(fh=1), "ENOTDIR"),
        ("releasedir", 1, dict(fh=3), "EBADF"),
        ("releasedir", 1, dict(fh=1), "EBADF"),
        ("opendir", 1, {}, ("opened", 3)),
        ("opendir", 1, {}, ("opened", 4)),
        ("releasedir", 2, dict(fh=3), "ENOTDIR"),
        ("releasedir", 1, dict(fh=3, flags=1, release_flags=2, lock_owner=4), ("empty",)),
        ("releasedir", 1, dict(fh=3), "EBADF"),
        ("readdir", 1, dict(fh=3, size=MOST), "EBADF"),
        ("readdir", 1, dict(fh=4, size=32), DOT),
        ("opendir", 1, {}, ("opened", 5)),
        ("read", 2, dict(fh=1, size=4), bytes([0, 1, 2, 3])),
    ],
    "release": [
        ("release", 4, dict(fh=3), "ENOENT"),
        ("release", 1, dict(fh=3), "EISDIR"),
        ("release", 2, dict(fh=3), "EBADF"),
        ("release", 3, dict(fh=2), "EBADF"),
        ("release", 3, dict(fh=1), "EBADF"),
        ("release", 2, dict(fh=1), ("empty",)),
        ("release", 2, dict(fh=1), "EBADF"),
        ("read", 2, dict(fh=1, size=4), "EBADF"),
        ("open", 2, dict(flags=0), ("opened", 3)),
    ],
    "create": [
        ("create", 4, dict(name=b"c"), "ENOENT"),
        ("create", 2, dict(name=b"c"), "ENOTDIR"),
        ("create", 1, dict(name=b"c"), "EACCES"),
        ("create", 1, dict(name=b"a"), "EACCES"),
    ],
    "mkdir": [
        ("mkdir", 4, dict(name=b"c"), "ENOENT"),
        ("mkdir", 2, dict(name=b"c"), "ENOTDIR"),
        ("mkdir", 1, dict(name=b"c"), "EACCES"),
        ("mkdir", 1, dict(name=b"a"), "EACCES"),
    ],
    "unlink": [
        ("unlink", 4, dict(name=b"a"), "ENOENT"),
        ("unlink", 2, dict(name=b"a"), "ENOTDIR"),
        ("unlink", 1, dict(name=b"no reply"), "EACCES"),
        ("unlink", 1, dict(name=b"a"), "EACCES"),
        ("lookup", 1, dict(name=b"a"), ("entry", 2, 2, 100_000, FILE)),
    ],
    "rmdir": [
        ("rmdir", 4, dict(name=b"a"), "ENOENT"),
        ("rmdir", 2, dict(name=b"a"), "ENOTDIR"),
        ("rmdir", 1, dict(name=b"no reply"), "EACCES"),
        ("rmdir", 1, dict(name=b"a"), "EACCES"),
    ],
    "statfs": [
        ("statfs", 4, {}, "ENOENT"),
        ("statfs", 0, {}, "ENOENT"),
        ("statfs", 1, {}, ("statfs",)),
        ("statfs", 3, {}, ("statfs",)),
    ],
    "interrupt": [
        ("interrupt", 4, dict(unique=3), "no reply"),
        ("getattr", 1, {}, ("attr", 1, 0, ROOT)),
    ],
    "forget": [
        ("forget", 2, dict(nlookup=1), "no reply"),
        ("forget", 2, dict(nlookup=LAST), "no reply"),
        ("forget", 2, dict(nlookup=1), "no reply"),
        ("forget", 1, dict(nlookup=9), "no reply"),
        ("forget", 4, dict(nlookup=9), "no reply"),
        ("getattr", 2, {}, ("attr", 2, 100_000, FILE)),
        ("getattr", 4, {}, "ENOENT"),
        ("lookup", 1, dict(name=b"a"), ("entry", 2, 2, 100_000, FILE)),
        ("read", 2, dict(fh=1, size=2), bytes([0, 1])),
    ],
    "batch_forget": [
        ("batch_forget", 9, dict(pairs=[]), "no reply"),
        ("batch_forget", 0, dict(pairs=[(2, 1), (3, 5), (2, 1), (4, 1), (1, LAST)]), "no reply"),
        ("batch_forget", 0, dict(pairs=[(3, 1)], count=2), "no reply"),
        ("getattr", 3, {}, ("attr", 3, 12_192, FILE)),
        ("lookup", 1, dict(name=b"b"), ("entry", 3, 3, 12_192, FILE)),
        ("read", 2, dict(fh=1, size=2), bytes([0, 1])),
    ],
    "destroy": [
        ("destroy", 4, {}, ("empty",)),
        ("getattr", 1, {}, "EPROTO"),
        ("read", 2, dict(fh=1, size=4), "EPROTO"),
        ("destroy", 1, {}, "EPROTO"),
        ("forget", 2, dict(nlookup=1), "no reply"),
        ("init", 0, dict(INIT, minor=31), None),
        ("read", 2, dict(fh=1, size=4), "EBADF"),
        ("release", 2, dict(fh=1), "EBADF"),
        ("getattr", 3, {}, ("attr", 3, 12_192, FILE)),
        ("open", 2, dict(flags=0), ("opened", 3)),
        ("read", 2, dict(fh=2, size=4), "EBADF"),
        ("read", 2, dict(fh=3, size=4), bytes([0, 1, 2, 3])),
        ("init", 0, INIT, "EPROTO"),
    ],
}

assert {*ROWS} == {*OPERATIONS}

NAMES = (b".\0", b"..\0", b"a/b\0", b"/\0", b"a\0b\0", b"a\0\0", b"\0", b"", b"a", b"n" * 256 + b"\0")


def rows():
    for word, table in ROWS.items():
        yield ended(prepared().rows(table), word, "each refusal of this operation in the order of the checks, and what it is answered else")
    session = prepared()
    for opcode in (0, 5, 6, 12, 21, 30, 37, 39, 44, 46, 999, 27 + 256, 28 * 2**24, 2**32 - 1):
        session.sent(request(opcode, b"", opcode), "ENOSYS")
        session.sent(request(opcode, b"", opcode, size=41), "EINVAL")
    yield ended(session, "other operations", "numbers of no operation; the length is the earlier rule")
    session = Session(A, File("n" * 255, 3, b"Z"), File("...", 9, counted(4096)), EMPTY, devices=[Device(counted(8192))])
    yield ended(session.rows([
        ("init", 0, INIT, None),
        ("lookup", 1, dict(name=b"n" * 255), ("entry", 3, 3, 1, FILE)),
        ("lookup", 1, dict(name=b"..."), ("entry", 4, 4, 4096, FILE)),
        ("lookup", 1, dict(name=b"empty"), ("entry", 5, 5, 0, FILE)),
        ("open", 5, {}, ("opened", 1)),
        ("read", 5, dict(fh=1, size=MOST), b""),
        ("open", 3, {}, ("opened", 2)),
        ("read", 3, dict(fh=2, size=MOST), b"Z"),
        ("open", 4, {}, ("opened", 3)),
        ("read", 4, dict(fh=3, offset=4095, size=MOST), counted(4096)[4095:]),
        ("read", 4, dict(fh=2, size=1), "EBADF"),
    ]), "other files", "nodes are the plan's files in their order, whatever their numbers; files of no byte, of one, and of one block")


def sizes():
    """Each body a byte short and a byte long, and each length in the header."""
    session = prepared()
    for word, (opcode, *_) in OPERATIONS.items():
        body = body_of(word, name=b"no reply")
        wrong = "no reply" if word in SILENT else "EINVAL"
        for other in ([body[:-1]] if body else []) + ([] if word == "init" else [body + b"\0"]):
            session.sent(request(opcode, other, opcode), wrong)
        for size in (HEAD + len(body) - 1, HEAD + len(body) + 1, 0, 2**32 - 1):
            session.sent(request(opcode, body, opcode, size=size), wrong)
    session.sent(request(26, body_of("init", **INIT) + bytes(48), 70), "EPROTO")
    session.sent(request(26, body_of("init", **INIT)[:8], 71), "EINVAL")
    for size, count in ((1, 0), (3, 4), (3, 2), (MOST + 1, 0), (2**32 - 1, 0)):
        session.ask("write", 2, "EINVAL", fh=1, size=size, data=b"\x5a" * count)
    yield ended(session.rows([("getattr", 1, {}, ("attr", 1, 0, ROOT))]), "sizes", "bodies and lengths that are a byte short or long")
    session = prepared()
    for word in ("lookup", "unlink", "rmdir", "create", "mkdir"):
        opcode, *_ = OPERATIONS[word]
        front = body_of(word, name=b"")[:-1]
        for name in NAMES:
            session.sent(request(opcode, front + name, opcode), "EINVAL")
    yield ended(session, "names", "bodies whose name is none")


def starts():
    before = Session(A, B)
    for word in OPERATIONS:
        if word != "init":
            before.ask(word, 7, "no reply" if word in SILENT else "EPROTO", **(dict(name=b"no reply") if OPERATIONS[word][3] else {}))
    for word in ("lookup", "create"):
        opcode = OPERATIONS[word][0]
        before.sent(request(opcode, body_of(word, name=b"a")[:-1], 50), "EINVAL")
    before.sent(request(999, b"", 51), "ENOSYS")
    before.sent(request(999, b"", 52, size=39), "EINVAL")
    before.sent(request(2, b"", 53), "no reply")
    before.ask("init", 0, "EPROTO", major=7, minor=30)
    before.ask("getattr", 1, "EPROTO")
    before.ask("init", 0, ("init", 7, 31, 0, 0, 0, 0, 0, 0), major=2**32 - 1, max_readahead=5, flags=0x20)
    before.ask("getattr", 1, "EPROTO")
    before.ask("init", 0, ("init", 7, 31, 2**32 - 1, 0x20, 16, 12, MOST, 1), major=7, minor=31, max_readahead=2**32 - 1, flags=2**32 - 1)
    before.ask("getattr", 1, ("attr", 1, 0, ROOT))
    before.ask("init", 0, "EPROTO", major=7, minor=31)
    yield ended(before, "before init", "the length, the opcode and the body are judged before that INIT is wanting; no reply where there never is one")
    for name, why, fields, answer in (
            ("7.38", "a later protocol is told ours", INIT, ("init", 7, 31, MOST, 0x20, 16, 12, MOST, 1)),
            ("7.31", "no flag that is known, no readahead", dict(major=7, minor=31, flags=2**32 - 1 - 0x20), ("init", 7, 31, 0, 0, 16, 12, MOST, 1)),
            ("7.30", "an earlier protocol", dict(INIT, minor=30), "EPROTO"),
            ("6.99", "an earlier major", dict(INIT, major=6, minor=99), "EPROTO"),
            ("0.0", "zeros", dict(), "EPROTO"),
            ("8.0", "a later major is told ours, and another INIT is awaited", dict(INIT, major=8, minor=0), ("init", 7, 31, 0, 0, 0, 0, 0, 0))):
        session = Session(A).rows([("getattr", 1, {}, "EPROTO"), ("init", 0, fields, answer)])
        ready = name in ("7.38", "7.31")
        session.ask("getattr", 1, ("attr", 1, 0, ROOT) if ready else "EPROTO")
        session.ask("init", 0, "EPROTO" if ready else ("init", 7, 31, MOST, 0x20, 16, 12, MOST, 1), **INIT)
        session.ask("getattr", 1, ("attr", 1, 0, ROOT))
        yield ended(session, f"init {name}", why)
    session = Session(A)
    session.sent(request(26, body_of("init", **INIT), 1, 0))
    wanted = "5000000000000000" "0100000000000000" "070000001f0000000000020020000000" "10000c000000020001000000" + 36 * "00"
    assert session.replies[8:].hex() == wanted
    yield ended(session, "init byte for byte", "the reply to 7.38 as it was worked out by hand")
    session = Session(A)
    session.sent(request(26, body_of("init", **INIT) + bytes(range(48)), LAST, 0), ("init", 7, 31, MOST, 0x20, 16, 12, MOST, 1))
    session.sent(ask("getattr", 1, 0), ("attr", 1, 0, ROOT))
    yield ended(session, "init of a later kernel", "64 bytes, of which the first 16 are looked at; the largest number of a message, and 0")


def reads():
    yield served(usual(), "usual", "INIT, LOOKUP, OPEN, and a READ that is cut at the end of 100,000 bytes")
    assert usual().replies[-34_480 - 8:-34_464].hex() == "b0860000" "00000000" "b0860000" "00000000" "0400000000000000"
    session = Session(A, B, EMPTY, File("big", 1, counted(129 * 4096 + 5)), devices=[Device(counted(129 * 4096), b"\1\2")])
    session.ask("init", 0, **INIT)
    for node in (2, 3, 4, 5):
        session.ask("open", node, ("opened", node - 1))
    for node, at, size in ((2, 0, MOST), (2, 4095, 2), (3, 0, MOST), (2, 98_303, 5), (3, 12_191, 9), (4, 0, 9), (2, 99_999, 1), (3, 8192, 4000),
                           (5, 4095, MOST), (5, 128 * 4096 - 1, 2), (5, 129 * 4096, 4096)):
        session.ask("read", node, session.server.files[node].content[at:at + size], fh=node - 1, offset=at, size=size)
        session.read(0, 3 * at, size % 5000)
    yield served(session, "channels mixed", "READs of four files, one under a salt and one of two levels, and measured reads of a device between them")
    small = Session(EMPTY, File("one", 5, counted(1)), File("page", 6, counted(4096)), File("pages", 7, counted(8192), b"\3"))
    small.ask("init", 0, **INIT)
    for node, length in ((2, 0), (3, 1), (4, 4096), (5, 8192)):
        small.ask("open", node, ("opened", node - 1))
        last = max(length - 1, 0)
        for at, size in ((0, MOST), (0, 1), (last, 1), (last, 2), (length, 1), (length + 1, 4096), *((at, 1000) for at in range(0, length, 1000))):
            small.ask("read", node, small.server.files[node].content[at:at + size], fh=node - 1, offset=at, size=size)
    yield served(small, "sizes of files", "no byte, one, one block and two under a salt: whole, in pieces, at their ends and past them; what is asked is on the tape")
    many = Session(A)
    many.ask("init", 0, **INIT)
    for k in range(4096):
        many.sent(ask("open", 2, 7), ("opened", k + 1))
    many.rows([("open", 2, dict(flags=1), "EACCES"), ("open", 2, {}, "ENOSPC"), ("opendir", 2, {}, "ENOTDIR"), ("opendir", 1, {}, "ENOSPC"), ("release", 2, dict(fh=77), ("empty",)), ("opendir", 1, {}, ("opened", 4097)),
               ("open", 2, {}, "ENOSPC"), ("readdir", 1, dict(fh=4097, size=32), DOT), ("releasedir", 1, dict(fh=4097), ("empty",)), ("open", 2, {}, ("opened", 4098)),
               ("opendir", 1, {}, "ENOSPC"), ("read", 2, dict(fh=77, size=1), "EBADF"), ("read", 2, dict(fh=4098, size=1), b"\0"), ("destroy", 1, {}, ("empty",)),
               ("init", 0, INIT, None), ("open", 2, {}, ("opened", 4099)), ("read", 2, dict(fh=4098, size=1), "EBADF")])
    yield ended(many, "handles", "4,096 handles and no more; a number isn't given again, after DESTROY neither")


def bent(bends, size=12):
    """A READ over the border of two blocks of b with other answers, and then an honest one."""
    session = Session(B)
    session.rows([("init", 0, INIT, None), ("open", 2, {}, ("opened", 1))])
    session.ask("read", 2, "EIO" if bends else None, fh=1, offset=4090, size=size, bends=bends)
    return session.ask("read", 2, B.content[4090:4102], fh=1, offset=4090, size=12)


def bends():
    pages = list(B.pages(4090, 12))
    for call, (level, index, page) in enumerate(pages):
        flipped = bytes([page[0] ^ 1]) + page[1:]
        for kind, record in (("failed", FAILED), ("done", DONE), ("number", number(5)), ("empty", told(b"")), ("short", told(page[:-1])), ("flipped", told(flipped))):
            yield ended(bent({call: record}), f"call {call} {kind}", "one answer of a READ is bent: EIO and its line, and the next READ is served")
    yield ended(bent({1: told(pages[3][2])}), "another block", "block 1 in place of block 0")
    session = Session(B)
    session.rows([("init", 0, INIT, None), ("open", 2, {}, ("opened", 1))])
    session.ask("read", 2, B.content[8192:], fh=1, offset=8192, size=4096, bends={0: told(B.device.levels[1][0] + b"more"), 1: told(B.content[8192:] + bytes(96))})
    yield ended(session, "longer", "answers are cut to what is asked: a tree page, and the last block at the file's end")
    session = Session(B)
    session.rows([("init", 0, INIT, None), ("open", 2, {}, ("opened", 1))])
    for k in range(3):
        session.ask("read", 2, "EIO", fh=1, size=9, bends={0: FAILED} if k == 1 else {0: told(B.device.levels[1][0]), 1: FAILED})
        session.sent(ask("getattr", 2, 100 + k), ("attr", 2, 12_192, FILE))
    session.ask("read", 2, B.content[:9], fh=1, size=9)
    session.ask("read", 2, "EIO", fh=1, size=9, bends={0: b""})
    session.ask("read", 2, "EIO", fh=1, size=9, bends={0: b""})
    yield ended(session, "failures are counted", "READs that fail, one after another; the last two after the tape's end")
    session = Session(B, devices=[Device(counted(8192))])
    session.rows([("init", 0, INIT, None), ("open", 2, {}, ("opened", 1))])
    session.read(0, 0, 4).ask("read", 2, "EIO", fh=1, size=9, bends={0: told(bytes(4096))}).read(0, 4096, 4)
    yield ended(session, "beside a device", "a page of zeros in place of the tree's; measured reads before and after it")


def ends():
    whole = usual()
    begins = whole.borders[-2][0]
    files = {"plan": whole.plan, "tape": tape(told(A.descriptor)), "entropy": b""}
    yield case("cut at the end", "the usual stream without its last three bytes", files,
               ran("replay plan tape entropy", 7, whole.replies[:whole.borders[-2][1]], f"end 7 frame {begins}\n", whole.stream[:-3]))
    yield case("three bytes", "a stream of three bytes that a frame begins with", files,
               ran("replay plan tape entropy", 7, b"", "end 7 frame 0\n", bytes.fromhex("100000")))
    small = Session(A).rows([("init", 0, INIT, None), ("lookup", 1, dict(name=b"a"), None), ("forget", 2, dict(nlookup=1), "no reply"), ("getattr", 2, {}, None)])
    runs, borders = [], [(0, 0, 0), *small.borders]
    for cut in sorted({*range(0, len(small.stream), 11), *(end + more for end, *_ in borders for more in (-1, 0, 1, 7, 8) if 0 <= end + more < len(small.stream))}):
        end, replies, _ = max(it for it in borders if it[0] <= cut)
        status, log = (0, "") if end == cut else (7, f"end 7 frame {end}\n")
        runs.append(ran("replay plan tape entropy", status, small.replies[:replies], log, small.stream[:cut]))
    yield case("cut anywhere", "the first bytes of four frames, of which one has no reply", {"plan": small.plan, "tape": small.tape, "entropy": b""}, *runs)
    session = Session(A)
    session.sent(request(999, bytes(135_168 - HEAD), 1), "ENOSYS")
    session.sent(request(17, b"", 2), "EPROTO")
    yield ended(session, "longest and shortest", "payloads of 135,168 and of 40 bytes")
    for name, payload in (("longer", bytes(135_169)), ("shorter", bytes(39))):
        session = Session(A).ask("init", 0, **INIT)
        yield ended(session, f"{name} than a frame", "no frame begins so", 7, f"end 7 frame {len(session.stream)}\n", framed(0, payload))


def last_cookie(page):
    """The cookie of the last entry of a page."""
    at, last = 0, None
    while at < len(page):
        last, length = struct.unpack_from("<QI", page, at + 8)
        at += 24 + -(-length // 8) * 8
    return last


def paged(session, entries, size):
    """The listing of the root in pages of at most so many bytes, each behind the last entry of the one before. The pages are all
    entries, each whole, in their order, and the last one has none."""
    session.ask("opendir", 1, ("opened", session.server.given + 1))
    left, page, offset = list(entries), None, 0
    while page != b"":
        page = b""
        while left and len(page) + len(left[0]) <= size:
            page += left.pop(0)
        session.ask("readdir", 1, page, fh=session.server.given, offset=offset, size=size)
        offset = last_cookie(page) or offset
    assert not left
    return session.ask("releasedir", 1, ("empty",), fh=session.server.given)


def listings():
    session = usual()
    session.rows([
        ("opendir", 1, {}, ("opened", 2)),
        ("readdir", 1, dict(fh=2, size=MOST), DOT + DOTS + IN_A),
        ("readdir", 1, dict(fh=2, offset=3, size=MOST), b""),
        ("forget", 2, dict(nlookup=1), "no reply"),
        ("readdir", 1, dict(fh=2, offset=2, size=MOST), IN_A),
        ("read", 2, dict(fh=1, offset=99_999, size=MOST), A.content[99_999:]),
        ("releasedir", 1, dict(fh=2), ("empty",)),
        ("readdir", 1, dict(fh=2, size=MOST), "EBADF"),
    ])
    yield served(session, "usual with a listing", "the root is listed behind a READ and before one; no call is on the tape for it")
    names = ["n" * length for length in (255, 1, 2, 7, 8, 9, 15, 16, 17, 239, 240, 241)] + ["...", "a", "z"]
    session = Session(*(File(name, 5 + k, counted(k, k)) for k, name in enumerate(names))).ask("init", 0, **INIT)
    entries = [DOT, DOTS, *(dirent(k, k + 1, 8, name.encode()) for k, name in enumerate(names, 2))]
    for size in (280, 281, 311, 312, 313, 600, MOST):
        paged(session, entries, size)
    session.ask("opendir", 1, ("opened", 8))
    session.ask("readdir", 1, b"", fh=8, offset=2, size=279)
    session.ask("readdir", 1, DOT + DOTS, fh=8, size=343)
    session.ask("readdir", 1, DOT + DOTS + entries[2], fh=8, size=344)
    yield ended(session, "pages of names", "names of all lengths, listed in pages; the first that isn't whole ends a page, and no shorter one is put in its place")
    session = Session(*(File(f"{k:02}", 1 + k, b"") for k in range(62))).ask("init", 0, **INIT)
    entries = [DOT, DOTS, *(dirent(k + 2, k + 3, 8, b"%02d" % k) for k in range(62))]
    for size in (32, 33, 63, 64, 2047, 2048, 2049):
        paged(session, entries, size)
    yield ended(session, "pages of 64 entries", "each has 32 bytes: sizes around one entry, two, and all")
    session = Session().ask("init", 0, **INIT)
    session.rows([
        ("opendir", 1, {}, ("opened", 1)),
        ("readdir", 1, dict(fh=1, size=MOST), DOT + DOTS),
        ("readdir", 1, dict(fh=1, offset=1, size=32), DOTS),
        ("readdir", 1, dict(fh=1, offset=2, size=32), b""),
        ("destroy", 1, {}, ("empty",)),
        ("readdir", 1, dict(fh=1, size=MOST), "EPROTO"),
        ("init", 0, INIT, None),
        ("readdir", 1, dict(fh=1, size=MOST), "EBADF"),
        ("opendir", 1, {}, ("opened", 2)),
        ("readdir", 1, dict(fh=2, size=MOST), DOT + DOTS),
    ])
    yield ended(session, "an empty root", "`.` and `..` alone; after DESTROY the handle is gone")


# A session that was worked out by another program, which knows the kernel's header: opcode, node, body and reply of each message.
WORKED_OUT = [
    (26, 0, "07000000260000000000020021000000", "50" + 15 * "00" + "070000001f000000000002002000000010000c000000020001" + 39 * "00"),  # INIT 7.38
    (1, 1, "6100",  # LOOKUP a
     "9000000000000000010000000000000002" + 39 * "00" + "0200000000000000050000000000000001" + 43 * "00" + "2481000001" + 16 * "00" +
     "10000000000000"),
    (14, 2, 8 * "00", "2000000000000000020000000000000001" + 15 * "00"),  # OPEN
    (15, 2, "010000000000000001" + 9 * "00" + "02" + 21 * "00", "14000000000000000300000000000000656c6c6f"),  # READ
    (15, 2, "01" + 15 * "00" + "05" + 23 * "00", "10000000fbffffff0400000000000000"),  # READ of a bent answer
    (2, 2, "0100000000000000", ""),  # FORGET
    (27, 1, 8 * "00", "2000000000000000060000000000000002000000000000000000000000000000"),  # OPENDIR
    (28, 1, "02000000000000000000000000000000001000000000000000000000000000000000000000000000",  # READDIR
     "700000000000000007000000000000000100000000000000010000000000000001000000040000002e000000000000000100000000000000"
     "020000000000000002000000040000002e2e0000000000000200000000000000030000000000000001000000080000006100000000000000"),
    (29, 1, "020000000000000000000000000000000000000000000000", "10000000000000000800000000000000"),  # RELEASEDIR
    (38, 0, "", "10000000000000000900000000000000"),  # DESTROY
]

WORKED_OUT_TAPE = b"guest-tape 1\n" + bytes.fromhex(
    "030001000001010c00000000000500000000000000b15056c9a8db77ab5708d19b7f330fe13d88eeae3d0ab271081d3438c0f46264"
    + 208 * "00" + "030500000068656c6c6f030500000068656c6c4f")

WORKED_OUT_DIGEST = "555b589c26ee43b7a2510e6c67ced9fb3190b6da6e9e683984551f5d77a763de"


def worked_out():
    """INIT of 7.38, LOOKUP, OPEN, a READ, a READ of an answer with a bit changed, FORGET, a listing of the root and DESTROY."""
    session = Session(File("a", 7, b"hello"))
    for unique, (opcode, node, body, answer) in enumerate(WORKED_OUT):
        bends = {0: told(b"hellO")} if unique == 4 else None
        assert session.message(request(opcode, bytes.fromhex(body), unique, node), bends).hex() == answer
    assert session.tape == WORKED_OUT_TAPE and session.plan == f"plan 1\nfile a 7 {WORKED_OUT_DIGEST}\n".encode()
    yield ended(session, "worked out", "a session whose plan, tape and replies were worked out by a program that knows the kernel's header")


class Draw:
    """Numbers that are drawn."""

    def __init__(self, seed):
        self.seed = seed

    def __call__(self, most):
        self.seed = (self.seed * 6364136223846793005 + 1442695040888963407) % 2**64
        return (self.seed >> 32) % most

    def of(self, *them):
        return them[self(len(them))]


def fields_of(pick, server, word, node):
    """The fields of an operation, mostly such that it isn't refused."""
    fields = {}
    if OPERATIONS[word][3]:
        fields["name"] = pick.of(b"b", b"b", b"c", b"empty", b"none", b"a/")
    if word in ("read", "write", "flush", "fsync", "release", "readdir", "releasedir"):
        live = [fh for fh, of in server.handles.items() if of == node]
        fields["fh"] = pick.of(*live) if live and pick(8) else pick(6)
    if word == "read":
        fields.update(offset=pick(14_000), size=pick(5000) if pick(12) else MOST + 1)
    if word == "readdir":
        fields.update(offset=pick(7), size=pick(200) if pick(12) else MOST + 1)
    if word in ("open", "setattr"):
        fields["flags" if word == "open" else "valid"] = pick.of(0, 0, 0, 4, 1, 8)
    if word == "write":
        fields["data"] = bytes([pick(256)])
    if word == "forget":
        fields["nlookup"] = pick(4)
    if word == "batch_forget":
        fields["pairs"] = [(pick(6), pick(4)) for _ in range(pick(3))]
    return dict(INIT, major=pick.of(7, 8, 6)) if word == "init" else fields


def drawn(first):
    """Messages that are drawn, most of them right, and some of their READs bent."""
    pick, session = Draw(first), Session(B, EMPTY, File("c", 9, counted(5000)))
    words = [*("lookup", "release", "read", "opendir", "readdir") * 2, *("open",) * 4, *OPERATIONS]
    for _ in range(60):
        if not session.server.ready:
            session.ask("init", 0, **INIT)
        word, node = pick.of(*words), pick.of(1, 2, 2, 2, 3, 4, 4, 4, 5)
        if word in ("opendir", "readdir", "releasedir"):
            node = pick.of(1, 1, 1, 2, 5)
        if session.server.handles and pick(2):
            node = pick.of(*session.server.handles.values())
            word = "readdir" if node == 1 else "read"
        session.number += 1
        message = ask(word, node, session.number, **fields_of(pick, session.server, word, node))
        spoiled = pick(16)
        if spoiled == 0:
            message = message[:-1] if len(message) > HEAD else message + b"\0"
        elif spoiled == 1:
            message = message[:4] + bytes([pick.of(0, 5, 99)]) + message[5:]
        bend = {pick(3): pick.of(FAILED, DONE, told(b""), told(b"xyz"), told(bytes(4096)))} if pick(3) == 0 else {}
        session.message(message, bend)
    return session


def cases():
    for part in (rows, sizes, starts, reads, listings, bends, ends, worked_out):
        yield from part()
    for first in range(4):
        yield ended(drawn(first), f"drawn {first}", "sixty messages that are drawn, and READs of which some are bent")
