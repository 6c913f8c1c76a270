"""What the programs do to files and streams: a store changes the file that is named and no other, whole or not at all. It needs
no tool. Where it is run by root, what root may do is taken away by running a program as another user."""
import contextlib
import errno
import os
import re
import resource
import shutil
import signal
import stat
import struct
import subprocess
import threading

from lib.devices import TAPE, Device, reply, request, told
from lib.frame import check, content, program, read, same, write

PROGRAMS = ("guest", "mkguest")

NOBODY = 65534

C = content(8192)

DEVICE = Device(C)

PLAN = DEVICE.plan()

FRAME = request(4090, 12)

REPLY = reply(0, DEVICE.content[4090:4102])

# The records of that read: the top page, and the two blocks after each other, each behind the top page.
HONEST = TAPE + b"".join(told(page) for _, _, page in DEVICE.pages(4090, 12))


def idsig(device):
    """The idsig of a device, without salt and signing information."""
    tree = b"".join(page for level in reversed(device.levels[1:]) for page in level)
    return struct.pack("<iiiBii", 2, 45, 1, 12, 0, 32) + device.root + struct.pack("<ii", 0, len(tree)) + tree


MADE = idsig(DEVICE)


def kept(path):
    """What stands under a name: its kind and mode, its count of names, and what it holds."""
    it = os.lstat(path)
    held = it.st_rdev
    if stat.S_ISLNK(it.st_mode):
        held = os.readlink(path)
    elif stat.S_ISREG(it.st_mode):
        held = read(path)
    return oct(it.st_mode), it.st_nlink if stat.S_ISREG(it.st_mode) else 0, held


def seen():
    """All that stands in this folder and below it, by name."""
    return {os.path.relpath(os.path.join(folder, name)): kept(os.path.join(folder, name)) for folder, folders, files in os.walk(".") for name in folders + files}


@contextlib.contextmanager
def room(**files):
    """A folder of its own with the content as `c`, the files of a session, and those that are given."""
    before = os.getcwd()
    path = f"{ROOMS}/{len(os.listdir(ROOMS))}"
    os.mkdir(path)
    os.chdir(path)
    try:
        for name, data in {"c": C, "plan": PLAN, "entropy": b"", "store": b"store 1\nverity 7 c -\n", **files}.items():
            write(name, data)
        yield
    finally:
        os.chdir(before)


def ran(name, *words, **how):
    """Runs a program. What isn't said of its streams is taken as: no input, and its output and log are kept."""
    if "stdin" not in how:
        how.setdefault("input", b"")
    how = {"stdout": subprocess.PIPE, "stderr": subprocess.PIPE, "timeout": 120, **how}
    return subprocess.run([f"{ROOMS}/../{name}", *words], **how)


def ended(what, done, status, out=b"", err=b""):
    """Fails where the run ended otherwise; where `err` is a word, it need only stand in what went to standard error."""
    said = done.stderr or b""
    same(f"{what}: status, output and log", (done.returncode, done.stdout or b"", err if isinstance(err, str) and err.encode() in said else said), (status, out, err))


def refused(what, *words, status=3, out=b"", err=b"", **how):
    """A run that leaves all as it was."""
    before = seen()
    ended(what, ran(*words, **how), status, out, err)
    same(f"{what}: what is left", seen(), before)


def stored(what, made, *words, out=b"", err=b"", **how):
    """A run that changes these files alone: each holds what it should, has its mode of before, and is no other's name."""
    wanted = seen()
    for name, data in made.items():
        wanted[name] = (wanted.get(name, ("0o100644",))[0], 1, data)
    ended(what, ran(*words, **how), 0, out, err)
    same(f"{what}: what is left", seen(), wanted)


def neighbours():
    """Files beside the one that is named, whatever they are called."""
    with room(**{"x.new": C}):
        stored("an input x.new of x", {"x": MADE}, "mkguest", "idsig", "x.new", "-", "x")
    with room(**{"o.new": b"unrelated", "victim": b"unrelated"}):
        stored("an unrelated o.new", {"o": MADE}, "mkguest", "idsig", "c", "-", "o")
        os.remove("o.new")
        os.symlink("victim", "o.new")
        stored("a link o.new", {"o": MADE}, "mkguest", "idsig", "c", "-", "o")
    with room(**{".huskford-0": b"unrelated"}):
        os.symlink("nothing", ".huskford-1")
        os.mkdir(".huskford-2")
        stored("names of new files that are taken", {"o": MADE}, "mkguest", "idsig", "c", "-", "o")
        stored("a name of this form", {".huskford-3": MADE}, "mkguest", "idsig", "c", "-", ".huskford-3")
        for number in range(4, 1000):
            write(f".huskford-{number}", b"")
        refused("all names of new files are taken", "mkguest", "idsig", "c", "-", "o", out=b"end 3 file o\n", err="mkguest: o: each name for a new file is taken")
    with room(store=b"store 1\nverity 7 c -\ndisk 0 d0\ndisk 1 d1\nkeep disk 1 x.new\nkeep disk 0 x\n", d0=C[:512], d1=C[512:1536]):
        stored("keep lines x.new and x", {"x": C[:512], "x.new": C[512:1536], "tape": HONEST}, "guest", "serve", "plan", "store", "entropy", "tape", input=FRAME, out=REPLY)
    with room(**{"store": b"store 1\nverity 7 T.new -\n", "T.new": C}):
        stored("a store's input T.new and a tape T", {"T": HONEST}, "guest", "serve", "plan", "store", "entropy", "T", input=FRAME, out=REPLY)
        stored("a tape over the tape", {"T": TAPE}, "guest", "serve", "plan", "store", "entropy", "T")


def long_names():
    """Names up to the 255 bytes that a folder takes."""
    for length in range(246, 256):
        with room():
            stored(f"a name of {length} bytes", {"n" * length: MADE}, "mkguest", "idsig", "c", "-", "n" * length)
    with room():
        refused("a name of 256 bytes", "mkguest", "idsig", "c", "-", "n" * 256, out=b"end 3 file " + b"n" * 256 + b"\n", err=os.strerror(errno.ENAMETOOLONG))
    for length in (252, 255):
        name = "k" * length
        with room(store=f"store 1\nverity 7 c -\nkeep file 7 {name}\n".encode()):
            stored(f"a kept file and a tape of {length} bytes", {name: C, "t" * length: TAPE}, "guest", "serve", "plan", "store", "entropy", "t" * length)
    plan = f"plan 1\napk 0 app idsig fixed 2 - {DEVICE.root.hex()}\n".encode()
    for length in (246, 247, 250):
        name = "d" * length
        with room(parts=b"parts 1\npart app ro c\npart idsig ro i\n", i=MADE, plan=plan, store=f"store 1\ncomposite 0 {name}\n".encode()):
            before = seen()
            ended(f"a disk of {length} bytes", ran("mkguest", "composite", "parts", name), 0)
            same(f"a disk of {length} bytes: files", set(seen()) - set(before), {name, f"{name}.head", f"{name}.tail"})
            same(f"a disk of {length} bytes: ends", (len(read(f"{name}.head")), len(read(f"{name}.tail"))), (20480, 20480))
            ended(f"a disk of {length} bytes: served", ran("guest", "serve", "plan", "store", "entropy", "/dev/null", input=FRAME), 0, REPLY)


def no_files():
    """Names that stand for something else than a file."""
    with room():
        os.mkdir("d")
        os.symlink("d", "link")
        os.symlink("loop", "loop")
        for out in ("d", "d/", "d/.", ".", "/", "", "link", "loop", "nowhere/o", "o/", "c/o", "/proc/huskford"):
            end = f"end 3 file {out}\n".encode()
            refused(f"OUT '{out}'", "mkguest", "idsig", "c", "-", out, out=end, err=f"mkguest: {out}: ")
            refused(f"TAPE_OUT '{out}'", "guest", "serve", "plan", "store", "entropy", out, err=end)
    with room(o=b"before"):
        os.mkdir("d")
        os.symlink("../o", "d/first")
        os.symlink("d/first", "link")
        os.symlink("d", "e")
        os.symlink(os.path.abspath("d/new"), "far")
        stored("links to a file", {"o": MADE}, "mkguest", "idsig", "c", "-", "link")
        stored("a link behind a link of a folder", {"o": TAPE}, "guest", "serve", "plan", "store", "entropy", "e/first")
        stored("a link to nothing", {"d/new": MADE}, "mkguest", "idsig", "c", "-", "far")
        stored("a link to what is there now", {"d/new": TAPE}, "guest", "serve", "plan", "store", "entropy", "far")
    with room():
        os.mkfifo("pipe")
        os.symlink("pipe", "link")
        for out in ("pipe", "link"):
            heard = []
            hearer = threading.Thread(target=lambda: heard.append(read("pipe")), daemon=True)
            hearer.start()
            stored(f"a {out}", {}, "mkguest", "idsig", "c", "-", out)
            hearer.join(60)
            same(f"what came through a {out}", heard, [MADE])
        os.symlink("/dev/null", "null")
        before = kept("/dev/null"), kept("/dev/full")
        for out in ("/dev/null", "null"):
            stored(f"a tape to {out}", {}, "guest", "serve", "plan", "store", "entropy", out, input=FRAME, out=REPLY)
        refused("a full device", "mkguest", "idsig", "c", "-", "/dev/full", out=b"end 3 file /dev/full\n", err=os.strerror(errno.ENOSPC))
        same("the devices", (kept("/dev/null"), kept("/dev/full")), before)
        stored("standard output as a file", {}, "mkguest", "idsig", "c", "-", "/dev/stdout", out=MADE)


def other_user():
    """How a program is run by one who may not do all. None where root can't be another user, or that one can't reach it."""
    if os.geteuid() != 0:
        return {}
    other = {"user": NOBODY, "group": NOBODY, "extra_groups": []}
    try:
        ran("mkguest", **other)
    except OSError:
        return None
    return other


def modes():
    """A file keeps its mode, a new one has what the mask leaves of 666, and other names of it keep its old bytes."""
    for mode in (0o600, 0o640, 0o444, 0o4755):
        with room(o=b"before"):
            os.chmod("o", mode)
            stored(f"mode {mode:o}", {"o": MADE}, "mkguest", "idsig", "c", "-", "o")
    with room(o=b"before"):
        os.link("o", "other")
        before = kept("other")
        ended("two names", ran("mkguest", "idsig", "c", "-", "o"), 0)
        same("the name", kept("o"), (before[0], 1, MADE))
        same("the other name", kept("other"), (before[0], 1, b"before"))
    with room():
        ended("a mask", ran("mkguest", "idsig", "c", "-", "o", umask=0o077), 0)
        same("a file under a mask", kept("o"), ("0o100600", 1, MADE))
    if other_user():
        with room(o=b"before"):
            os.chown("o", NOBODY, NOBODY)
            stored("another's file", {"o": MADE}, "mkguest", "idsig", "c", "-", "o")
            same("its owner", (os.stat("o").st_uid, os.stat("o").st_gid), (NOBODY, NOBODY))


def limited():
    """No file may grow above 1,000 bytes: the disk is full, as far as the program can tell."""
    resource.setrlimit(resource.RLIMIT_FSIZE, (1000, 1000))


def failing():
    """Stores that fail leave all as it was."""
    full = {"preexec_fn": limited, "restore_signals": False}
    for before in ({}, {"o": b"before"}):
        with room(**before):
            refused("a full disk", "mkguest", "idsig", "c", "-", "o", out=b"end 3 file o\n", err=os.strerror(errno.EFBIG), **full)
            refused("a full disk", "guest", "serve", "plan", "store", "entropy", "o", out=REPLY, err=b"end 3 file o\n", input=FRAME, **full)
    with room(parts=b"parts 1\npart app ro c\npart idsig ro c\n", o=b"before", **{"o.head": b"before", "o.tail": b"before"}):
        before = seen()
        ended("a disk that is full after OUT", ran("mkguest", "composite", "parts", "o", **full), 3, b"end 3 file o.head\n", os.strerror(errno.EFBIG))
        same("a disk that is full after OUT: what is left", seen(), {**before, "o": kept("o")})
        same("a disk that is full after OUT: OUT is whole", read("o")[:13], b"composite_dis")
    with room(o=b"before"):
        before = seen()
        same("a program that is killed", ran("mkguest", "idsig", "c", "-", "o", preexec_fn=limited).returncode, -signal.SIGXFSZ)
        left = {name: it for name, it in seen().items() if name not in before}
        same("a killed program's file, and its form", ({**before, **left}, [name for name in left if not re.fullmatch(r"\.huskford-\d+", name)]), (seen(), []))
        stored("beside what a killed program left", {"o": MADE}, "mkguest", "idsig", "c", "-", "o")


def forbidden():
    """A folder in which nothing may be made, and one in which another's file may not be replaced."""
    other = other_user()
    if other is None:
        return
    with room(o=b"before"):
        os.chmod(".", 0o555)
        for out in ("o", "new"):
            refused("a folder that can't be written", "mkguest", "idsig", "c", "-", out, out=f"end 3 file {out}\n".encode(), err=os.strerror(errno.EACCES), **other)
        os.chmod(".", 0o1777)
        if other:
            refused("another's file in a sticky folder", "mkguest", "idsig", "c", "-", "o", out=b"end 3 file o\n", err=os.strerror(errno.EPERM), **other)
        os.chmod("c", 0)
        refused("a file that can't be read", "mkguest", "idsig", "c", "-", "o", out=b"end 3 file c\n", err=os.strerror(errno.EACCES), **other)
        os.chmod(".", 0o755)


def closed(*numbers):
    return {"preexec_fn": lambda: [os.close(number) for number in numbers], **{name: None for number, name in enumerate(("stdin", "stdout", "stderr")) if number in numbers}}


def loads():
    """Files that are loaded, whole and by parts, and standard input, output and error."""
    large = content(2 * 2**20 + 4097)
    device = Device(large + bytes(-len(large) % 4096))
    with room(large=large, empty=b"", tape=HONEST, bad=HONEST[:-1] + bytes([HONEST[-1] ^ 1])):
        os.mkdir("d")
        measured = f"measure {len(device.levels[0])} - {device.root.hex()}\n".encode()
        done = ran("mkguest", "measure", "large", "-")
        ended("a file by parts", done, 0, measured + done.stdout[len(measured):])
        stored("the idsig of a file by parts", {"o": idsig(device)}, "mkguest", "idsig", "large", "-", "o")
        refused("an empty file", "mkguest", "idsig", "empty", "-", "o", status=11, out=b"end 11 unfit toofewblocks\n")
        for name, number in (("nothing", errno.ENOENT), ("d", errno.EISDIR), ("", errno.ENOENT), ("c/x", errno.ENOTDIR)):
            refused(f"no file to load, '{name}'", "mkguest", "measure", name, "-", out=f"end 3 file {name}\n".encode(), err=f"mkguest: {name}: {os.strerror(number)}")
            refused(f"no file to load, '{name}'", "guest", "replay", name, "tape", "entropy", err=f"end 3 file {name}\n".encode())
        replay = ("guest", "replay", "plan", "tape", "entropy")
        refused("a replay", *replay, status=0, out=REPLY, input=FRAME)
        refused("a replay of a changed tape", "guest", "replay", "plan", "bad", "entropy", status=0, out=reply(5), err="eio 0 mismatch 0 1 ", input=FRAME)
        refused("a plan without its header", "guest", "replay", "c", "tape", "entropy", status=2, err=b"end 2 plan 1 header\n")
        refused("a word that isn't UTF-8", "guest", b"\xff", status=1, err=b"end 1 usage\n")
        with open("frames", "wb") as frames:
            frames.write(FRAME * 100)
        with open("frames", "rb") as frames, open("replies", "wb") as replies:
            write("tape", TAPE + HONEST[len(TAPE):] * 100)
            ended("streams that are files", ran(*replay, stdin=frames, stdout=replies), 0)
        same("replies in a file", read("replies"), REPLY * 100)


def broken():
    """Streams that are closed, full, or nobody reads."""
    with room(tape=HONEST):
        replay = ("guest", "replay", "plan", "tape", "entropy")
        refused("no standard input", *replay, status=5, err=b"end 5 read\n", **closed(0))
        with open("/dev/full", "wb") as full, open(os.devnull, "rb") as nothing:
            refused("a full output", *replay, status=6, input=FRAME, stdout=full)
            refused("a full output that isn't written to", *replay, status=0, stdout=full)
            refused("a full log", "guest", status=6, stderr=full)
            refused("a full output", "mkguest", "measure", "c", "-", status=6, err=f"mkguest: standard output: {os.strerror(errno.ENOSPC)}", stdout=full)
        refused("no standard output", *replay, status=6, input=FRAME, **closed(1))
        refused("no standard output that would be written to", *replay, status=0, **closed(1))
        refused("no standard error", "guest", status=6, **closed(2))
        folder = os.open(".", os.O_RDONLY)
        refused("a folder as standard input", *replay, status=5, err=b"end 5 read\n", stdin=folder)
        os.close(folder)
        for restore in (True, False):
            reader, writer = os.pipe()
            os.close(reader)
            refused("nobody reads", *replay, status=6, input=FRAME, stdout=writer, restore_signals=restore)
            os.close(writer)
        stored("no streams at all", {"o": MADE}, "mkguest", "idsig", "c", "-", "o", **closed(0, 1, 2))
        stored("no output and no log", {"t": TAPE}, "guest", "serve", "plan", "store", "entropy", "t", **closed(1, 2))


def body():
    global ROOMS
    os.chmod(".", 0o755)
    os.umask(0o022)
    for name in PROGRAMS:
        shutil.copy(program(name), name)
    os.mkdir("rooms")
    ROOMS = os.path.abspath("rooms")
    for case in (neighbours, long_names, no_files, modes, failing, forbidden, loads, broken):
        case()


check(body)
