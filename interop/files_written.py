"""Files that are written, beside a model of byte lists in Python: 10,000 drawn requests over three files, of which some calls are bent; and
one session with each of its calls failed, short or flipped in turn. Replies, log and, over an honest host, the kept files are compared."""
import os
import subprocess
import sys

from lib.frame import TOP, check, program, same, write

sys.path.insert(0, os.path.join(TOP, "vectors"))

from fuse_model import File, Session, Written  # noqa: E402
from groups.fuse import Draw  # noqa: E402
from groups.writes import PAGE, opened  # noqa: E402
from lib.devices import DONE, FAILED, told  # noqa: E402
from lib.fuse import MOST  # noqa: E402
from models import counted, tape  # noqa: E402

REQUESTS, SESSIONS = 100, 100


def ran(session, *words):
    """What the guest answers to a session's frames: status, replies, log."""
    for name, data in (("plan", session.plan), ("tape", session.tape), ("entropy", b"")):
        write(name, data)
    done = subprocess.run([program("guest"), *words], input=session.stream, capture_output=True, timeout=300)
    return done.returncode, done.stdout, done.stderr.decode()


def replayed(session, what):
    status, replies, log = ran(session, "replay", "plan", "tape", "entropy")
    same(f"{what}: status", status, 0)
    same(f"{what}: replies", replies, session.replies)
    same(f"{what}: log", log, session.log)


def served(session, what):
    """The same over an honest host, with what it then holds."""
    store = "store 1\n"
    for file in session.server.files.values():
        if file.mode == Written.mode:
            store += f"empty {file.number}\nkeep file {file.number} kept{file.number}\n"
        else:
            write(f"content{file.number}", file.content)
            store += f"verity {file.number} content{file.number} -\n"
    write("store", store.encode())
    status, replies, log = ran(session, "serve", "plan", "store", "entropy", "tape.out")
    same(f"{what}: status", status, 0)
    same(f"{what}: replies", replies, session.replies)
    same(f"{what}: log", log, "")
    for file in session.server.files.values():
        if file.mode == Written.mode:
            with open(f"kept{file.number}", "rb") as kept:
                same(f"{what}: file {file.number}", kept.read(), file.content)


def asked(session, pick, bends):
    """A drawn request, most of them near a border of blocks or the file's end."""
    node = pick.of(2, 2, 4, 3)
    word = pick.of("write", "write", "write", "read", "read", "setattr", "fsync", "getattr")
    near = pick.of(0, PAGE, 2 * PAGE, 127 * PAGE, session.server.files[node].size)
    offset = max(near + pick(9) - 4, 0) if pick(2) else pick(40_000)
    fields = {"fh": node - 1} if word in ("write", "read", "fsync") else {}
    if word == "read":
        fields.update(offset=offset, size=pick.of(1, 5, PAGE, 20_000, pick(MOST + 1)))
    if word == "write":
        size = pick.of(0, 1, 7, PAGE, pick(300), pick(20_000), pick(MOST + 1))
        fields.update(offset=offset, data=bytes((j * (pick.seed >> 20) + (j >> 3)) & 255 for j in range(size)))
    if word == "setattr":
        fields.update(valid=8, size=offset)
    session.ask(word, node, None, bends, **fields)


def start():
    return opened(Written("w", 3), File("a", 5, counted(9000)), Written("v", 4))


def drawn(seed, bent):
    pick, session = Draw(seed), start()
    for _ in range(REQUESTS):
        bends = {pick(6): pick.of(FAILED, DONE, told(b""), told(b"xyz"), told(bytes(PAGE)))} if bent and pick(4) == 0 else {}
        asked(session, pick, bends)
    return session


class Bending(dict):
    """The bend of the call of one number, counted over a whole session."""

    def __init__(self, at, bend):
        super().__init__()
        self.at, self.bend, self.made, self.honest = at, bend, 0, None

    def get(self, number, honest):
        self.made += 1
        return self.bend(honest) if self.made - 1 == self.at else honest

    def __bool__(self):
        return True


def failed(honest):
    return FAILED


def short(honest):
    return told(honest[5:-1]) if len(honest) > 5 else FAILED


def flipped(honest):
    return honest[:-1] + bytes([honest[-1] ^ 1]) if len(honest) > 5 else FAILED


def each_call(seed, most):
    """One session with each of its calls bent in turn, three ways; what a WRITE that is bent leaves undone changes what follows."""
    at, reached = 0, True
    while reached:
        for bend in (failed, short, flipped):
            pick, session, bends = Draw(seed), start(), Bending(at, bend)
            for _ in range(most):
                asked(session, pick, bends)
            replayed(session, f"call {at} {bend.__name__}")
        reached, at = bends.made > at + 1, at + 1


def body():
    program("guest")
    for seed in range(SESSIONS):
        session = drawn(seed, seed % 2)
        (replayed if seed % 2 else served)(session, f"session {seed}")
    each_call(7, 12)


check(body)
