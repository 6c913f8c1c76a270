"""Messages of FUSE beside a model in Python: a table of messages and replies, which is the last part of the stored run of
test_formats, and drawn ones. With the word `write` it writes that part anew, from the model."""
import random
import sys

from lib.frame import TOP, check, printed, read, same, write
from lib.fuse import ERRNOS, HEAD, MOST, OPERATIONS, answer, put, request, size_of

STORED = f"{TOP}/crates/test_formats"
FRONT = "# Messages and replies of FUSE: the model of interop/lib/fuse.py\n"
TOP32, TOP64 = 2**32 - 1, 2**64 - 1


def body_of(word, fill=0, name=b"a"):
    """A body of the operation with this byte everywhere, the counts that give its size but for it."""
    _, structure, _, has_name = OPERATIONS[word]
    body = bytearray([fill] * size_of(structure))
    if word in ("read", "readdir", "write"):
        body[16:20] = bytes(4)
    if word == "batch_forget":
        body[0:4] = bytes(4)
    return bytes(body) + (name + b"\0" if has_name else b"")


def sizes():
    """Each operation at its size, a byte short and a byte long; and with a length that isn't its own."""
    for word, (opcode, *_) in OPERATIONS.items():
        for fill in (0, 0xA5):
            yield request(opcode, body_of(word, fill), unique=TOP64 if fill else 9, node=fill * 2**56 + 1)
        body = body_of(word)
        yield request(opcode, body + b"\0")
        if body:
            yield request(opcode, body[:-1])
        for size in (HEAD + len(body) - 1, HEAD + len(body) + 1):
            yield request(opcode, body, size=size)


def opcodes():
    """Numbers that are no operation; the length is the earlier rule."""
    known = {it[0] for it in OPERATIONS.values()}
    for opcode in [*(n for n in range(60) if n not in known), 999, 2**31, TOP32]:
        yield request(opcode, b"")
    yield request(999, b"", size=41)
    yield request(17, b"", size=41)


def names():
    for word, (opcode, structure, _, has_name) in OPERATIONS.items():
        front = bytes(size_of(structure))
        for name in (b".\0", b"..\0", b"...\0", b"a/b\0", b"/\0", b"a\0b\0", b"a\0\0", b"\0", b"", b"a", b"\xff" * 255 + b"\0", b"n" * 256 + b"\0") if has_name else ():
            yield request(opcode, front + name)
    yield request(35, bytes(15))
    yield request(9, bytes(7))


def counts():
    for opcode in (15, 28):
        for size in (MOST - 1, MOST, MOST + 1, TOP32):
            yield request(opcode, put("fuse_read_in", fh=TOP64, offset=TOP64 - 1, size=size))
    for size, count in ((0, 0), (1, 1), (3, 3), (3, 2), (3, 4), (TOP32, 0), (MOST + 1, 0)):
        yield request(16, put("fuse_write_in", fh=1, offset=65_536, size=size) + b"\x5a" * count)
    for count, pairs in ((0, 0), (1, 1), (2, 2), (1, 2), (2, 1), (TOP32, 0), (2**28, 0), (2**28 + 1, 1)):
        yield request(42, put("fuse_batch_forget_in", count=count) + b"".join(put("fuse_forget_one", nodeid=n + 1, nlookup=2) for n in range(pairs)))
    yield request(42, put("fuse_batch_forget_in", count=1) + bytes(15))
    yield request(26, put("fuse_init_in", major=7, minor=38, max_readahead=MOST, flags=0x20) + bytes(48), unique=1, node=0)


def replies():
    for errno in ERRNOS.values():
        yield f"error 7 {errno}"
    for unique in (0, TOP64):
        yield from (f"{kind} {unique}" for kind in ("empty", "statfs", "bytes"))
    for size in (0, 1, 511, 512, 513, 1025, TOP64):
        yield f"attr 7 2 {size} {0o100444}"
    yield f"entry 7 3 2 100000 {0o100644}"
    yield f"entry 7 {TOP64} {TOP64} {TOP64} {TOP32}"
    yield "opened 7 258"
    yield f"opened 7 {TOP64}"
    yield f"created 7 3 2 1025 {0o100644} 258"
    yield f"created 7 {TOP64} {TOP64} {TOP64} {TOP32} {TOP64}"
    yield "written 7 131072"
    yield f"written 7 {TOP32}"
    yield "init 1 7 31 131072 32 16 12 131072 1"
    yield "init 1 7 31 0 0 0 0 0 0"
    yield f"init {TOP64} {TOP32} {TOP32} {TOP32} {TOP32} 65535 65535 {TOP32} {TOP32}"
    yield "names 7 0 131072"
    for size in (0, 31, 32, 63, 64, 65, 95, 96, 127, 128, 151, 152):
        yield f"names 7 0 {size} 61 62/ {b'nine char'.hex()} 63"
    for cookie in (1, 2, 3, 4, 5, 6, 7, TOP64):
        yield f"names {cookie} {cookie} 131072 61 62/ {b'nine char'.hex()} 63"
    for length in (1, 7, 8, 9, 15, 16, 17, 255):
        yield f"names 7 2 {24 + -(-length // 8) * 8} {'ff' * length} 61"
        yield f"names 7 2 {24 + -(-length // 8) * 8 - 1} {'ff' * length} 61"
    yield "names 7 0 131072 2e2f 00 61ff"


def table():
    messages = [*sizes(), *opcodes(), *names(), *counts()]
    return [f"message {it.hex()}" for it in messages] + [f"reply {it}" for it in replies()]


def stored():
    """The files of the stored run, each with its lines of FUSE by the model."""
    lines = table()
    return ("stdin", lines), ("stdout", [answer(it) for it in lines])


def drawn(draw):
    """A message of a drawn operation, right or with some of it spoiled; or a reply."""
    if draw.random() < 0.05:
        names = dict.fromkeys(draw.randbytes(draw.randint(1, 20)).hex() for _ in range(draw.randrange(6)))
        names = [it + draw.choice(["", "", "/"]) for it in names]
        return " ".join(["reply names", str(draw.randrange(2**64)), str(draw.randrange(8)), str(draw.randrange(300)), *names])
    if draw.random() < 0.2:
        big = [draw.randrange(2**draw.choice((1, 8, 16))) for _ in range(4)] + [draw.randrange(2**16) for _ in range(2)] + [draw.randrange(2**32)] * 2
        kind = draw.choice(["entry", "attr", "opened", "created", "written", "init"])
        wanted = {"entry": 4, "attr": 3, "opened": 1, "created": 5, "written": 1, "init": 8}[kind]
        return f"reply {kind} {draw.randrange(2**64)} " + " ".join(str(it) for it in big[:wanted])
    word = draw.choice(list(OPERATIONS))
    opcode, structure, _, has_name = OPERATIONS[word]
    body = bytearray(draw.randbytes(size_of(structure)))
    if word in ("read", "readdir"):
        body[16:20] = draw.choice([MOST, MOST + 1, draw.randrange(MOST)]).to_bytes(4, "little")
    if word in ("write", "batch_forget"):
        many = draw.randrange(40)
        at = 16 if word == "write" else 0
        body[at:at + 4] = (many + draw.choice([0, 0, 0, 1])).to_bytes(4, "little")
        body += draw.randbytes(many * (1 if word == "write" else 16))
    if has_name:
        body += bytes(draw.choice(b"ab./\0\xff") for _ in range(draw.randint(0, 4))) + draw.choice([b"\0", b"\0", b"z"])
    turn = draw.random()
    if turn < 0.1:
        body = body[:-1]
    elif turn < 0.2:
        body += draw.randbytes(1)
    opcode = draw.randrange(60) if draw.random() < 0.1 else opcode
    size = HEAD + len(body) + (draw.choice([-1, 1, 2**31]) if draw.random() < 0.1 else 0)
    return "message " + request(opcode, bytes(body), draw.randrange(2**64), draw.randrange(2**64), size).hex()


def body():
    for name, wanted in stored():
        _, _, found = read(f"{STORED}/{name}").decode().partition(FRONT)
        same(f"crates/test_formats/{name}, from FUSE on", found.splitlines(), wanted)
    draw = random.Random(7)
    lines = [drawn(draw) for _ in range(20_000)]
    lines.append("message " + request(16, put("fuse_write_in", fh=1, size=MOST) + bytes(MOST)).hex())
    lines.append("message " + request(16, put("fuse_write_in", fh=1, size=MOST + 1) + bytes(MOST + 1)).hex())
    many = [f"{n:04x}" for n in range(4200)]
    lines += [f"reply names 7 {cookie} {size} {' '.join(many)}" for cookie in (0, 1, 100, 4201) for size in (MOST, MOST - 1)]
    lines += table()
    same("what is printed", printed(lines).splitlines(), [answer(it) for it in lines])


if sys.argv[1:] == ["write"]:
    for name, wanted in stored():
        before, front, _ = read(f"{STORED}/{name}").decode().partition(FRONT)
        write(f"{STORED}/{name}", "".join([before, front, *(f"{it}\n" for it in wanted)]).encode())
else:
    check(body)
