"""What the guest answers to messages of FUSE over read-only and writable files, by the rules of docs/FORMATS.md, and sessions of such
messages.

The layouts of messages and replies are those of interop/lib/fuse.py, the trees those of interop/lib/devices.py.
"""
import hashlib
import struct

from lib.devices import DONE, PAGE, Device, told
from lib.fuse import DT_DIR, DT_REG, ERRNOS, HEAD, MOST, OPERATIONS, SILENT, asked, attr, entry, get, listed, put, replied, request
from models import descriptor, reply, request as measured_read, tape

WORDS = {it[0]: word for word, it in OPERATIONS.items()}
LAST = 2**64 - 1
HANDLES = 4096
DIRECTORY, READ_ONLY, WRITABLE = 0o40755, 0o100444, 0o100644
LARGEST = 2**32


class Refused(Exception):
    """A message is answered with this error."""


class File:
    """A read-only file of a plan: its name, its number at the host, its content and its salt."""

    mode = READ_ONLY

    def __init__(self, name, number, content, salt=b""):
        self.name, self.number, self.content = name, number, content
        self.size = len(content)
        self.device = Device(content.ljust(-(-len(content) // PAGE) * PAGE, b"\0"), salt) if content else None
        self.descriptor = descriptor(len(content), self.device.root if content else bytes(32), salt)
        self.line = f"file {name} {number} {hashlib.sha256(self.descriptor).hexdigest()}\n"
        self.boot = told(self.descriptor)

    def slice(self, at, size):
        return self.content[at:at + size]

    def pages(self, at, size):
        """Level, index and bytes of each answer that a read asks for; the last block is cut at the file's end."""
        end = min(at + size, len(self.content))
        for block in range(at // PAGE, -(-end // PAGE)) if at < end else ():
            for level, index, page in self.device.walk(block):
                yield level, index, page if level else page[:len(self.content) - PAGE * index]


class Written:
    """A writable file of a plan: its name, its number at the host, and its bytes, which an honest host holds too. What is behind its end
    in the last block is zeros."""

    mode, boot = WRITABLE, DONE

    def __init__(self, name, number):
        self.name, self.number, self.size, self.pages = name, number, 0, {}
        self.line = f"write {name} {number}\n"

    def block(self, index):
        """The bytes that the file has in a block."""
        return bytes(self.pages.get(index, bytes(PAGE))[:max(self.size - PAGE * index, 0)])

    def put(self, at, data):
        """Bytes of one block in their place, and zeros between the end and them."""
        page = self.pages.setdefault(at // PAGE, bytearray(PAGE))
        page[at % PAGE:at % PAGE + len(data)] = data
        self.size = max(self.size, at + len(data))

    def cut(self, size):
        self.pages = {index: page for index, page in self.pages.items() if PAGE * index < size}
        if size % PAGE and size // PAGE in self.pages:
            self.pages[size // PAGE][size % PAGE:] = bytes(PAGE - size % PAGE)
        self.size = size

    def slice(self, at, size):
        """The bytes from a place on, cut at the end."""
        end = min(at + size, self.size)
        first = at // PAGE
        return b"".join(self.block(index).ljust(PAGE, b"\0") for index in range(first, -(-end // PAGE)))[at - PAGE * first:end - PAGE * first] if at < end else b""

    @property
    def content(self):
        return self.slice(0, self.size)


class Server:
    """The names of the root by their nodes, lookups, open handles, and whether an INIT was answered."""

    def __init__(self, files):
        self.files = dict(enumerate(files, 2))
        self.names = {file.name.encode(): node for node, file in self.files.items()}
        self.lookups = dict.fromkeys((1, *self.files), 0)
        self.handles, self.given, self.ready, self.faults = {}, 0, False, 0
        self.records, self.words, self.short = [], None, None

    def answer(self, message, bends=None):
        """The reply to a message, without a byte where there is none. `records` are then the records of the calls that were made, with
        those of `bends` in place of the honest ones of their numbers, `words` the words of a log line, or None, and `short` the count of
        a write that ended early, or None."""
        self.records, self.words, self.short, self.bends = [], None, None, bends or {}
        size, opcode, unique, node = (get("fuse_in_header", field, message) for field in ("len", "opcode", "unique", "nodeid"))
        word = WORDS.get(opcode)
        try:
            error, body = 0, self.body(word, node, message, size)
        except Refused as refused:
            error, body = -ERRNOS[str(refused)], b""
        if word in SILENT:
            return b""
        return put("fuse_out_header", len=16 + len(body), error=struct.pack("<i", error), unique=unique) + body

    def body(self, word, node, message, size):
        """What stands behind the header of a reply."""
        if size != len(message):
            raise Refused("EINVAL")
        if word is None:
            raise Refused("ENOSYS")
        fields = asked(word, message[HEAD:])
        if fields is None:
            raise Refused("EINVAL")
        if not self.ready and word != "init":
            raise Refused("EPROTO")
        return getattr(self, word)(node, *fields) or b""

    def live(self, node):
        """A node with a name, an open handle or a lookup is live, and so is the root."""
        named = node == 1 or node in self.names.values()
        if not named and node not in self.handles.values() and not self.lookups.get(node):
            raise Refused("ENOENT")

    def directory(self, node):
        self.live(node)
        if node != 1:
            raise Refused("ENOTDIR")

    def file(self, node):
        self.live(node)
        if node == 1:
            raise Refused("EISDIR")

    def held(self, node, fh):
        if self.handles.get(fh) != node:
            raise Refused("EBADF")

    def handle(self, node, fh):
        self.file(node)
        self.held(node, fh)

    def attr(self, node):
        return (node, self.files[node].size, self.files[node].mode) if node != 1 else (node, 0, DIRECTORY)

    def init(self, node, major, minor, readahead, flags):
        if self.ready or (major, minor) < (7, 31):
            raise Refused("EPROTO")
        if major > 7:
            return put("fuse_init_out", major=7, minor=31)
        self.ready = True
        return put("fuse_init_out", major=7, minor=31, max_readahead=readahead, flags=flags & 0x20, max_background=16, congestion_threshold=12,
                   max_write=MOST, time_gran=1)

    def lookup(self, node, name):
        self.directory(node)
        found = self.names.get(bytes.fromhex(name))
        if found is None:
            raise Refused("ENOENT")
        self.lookups[found] = min(self.lookups[found] + 1, LAST)
        return entry(found, *self.attr(found))

    def forget(self, node, count):
        if node in self.lookups:
            self.lookups[node] = max(self.lookups[node] - count, 0)

    def batch_forget(self, node, pairs):
        for pair in struct.iter_unpack("<QQ", bytes.fromhex(pairs)):
            self.forget(*pair)

    def interrupt(self, node):
        pass

    def getattr(self, node):
        self.live(node)
        return put("fuse_attr_out", attr=attr(*self.attr(node)))

    def setattr(self, node, valid, size):
        self.live(node)
        if valid & 8:
            self.resize(node, size)
        return self.getattr(node)

    def resize(self, node, size):
        """Another size: the block in which a shorter file ends is read, and then the size is set."""
        if node == 1:
            raise Refused("EISDIR")
        file = self.files[node]
        if file.mode == READ_ONLY:
            raise Refused("EACCES")
        if size > LARGEST:
            raise Refused("EFBIG")
        if size == file.size:
            return
        if size < file.size and size % PAGE:
            self.load(file, size // PAGE)
        self.done()
        file.cut(size)

    def load(self, file, index):
        """Reads the bytes that a writable file has in a block, and judges the answer."""
        page = file.block(index)
        record = self.call(told(page))
        self.judge(hash_of, 0, index, record, page, page.ljust(PAGE, b"\0"))

    def call(self, honest):
        """The record of the next call."""
        record = self.bends.get(len(self.records), honest)
        self.records.append(record)
        return record

    def done(self):
        """A call that answers that it was done."""
        if self.call(DONE) != DONE:
            self.fails()
            raise Refused("EIO")

    def fails(self):
        self.faults += 1
        self.words = f"failed {self.faults}"

    def open(self, node, flags):
        self.file(node)
        if flags % 4 != 0 and self.files[node].mode == READ_ONLY:
            raise Refused("EACCES")
        return self.opened(node)

    def opened(self, node):
        """A new handle."""
        if len(self.handles) >= HANDLES:
            raise Refused("ENOSPC")
        self.given += 1
        self.handles[self.given] = node
        return put("fuse_open_out", fh=self.given)

    def opendir(self, node):
        self.directory(node)
        return self.opened(node)

    def readdir(self, node, fh, offset, size):
        self.directory(node)
        self.held(node, fh)
        names = [(found, found + 1, DT_REG, name) for name, found in self.names.items()]
        return listed([(1, 1, DT_DIR, b"."), (1, 2, DT_DIR, b".."), *names], offset, size)

    def releasedir(self, node, fh):
        self.directory(node)
        self.held(node, fh)
        del self.handles[fh]

    def read(self, node, fh, offset, size):
        self.handle(node, fh)
        file = self.files[node]
        if file.mode == WRITABLE:
            end = min(offset + size, file.size)
            for index in range(offset // PAGE, -(-end // PAGE)) if offset < end else ():
                self.load(file, index)
        else:
            for level, index, page in file.pages(offset, size):
                self.judge(file.device.hash, level, index, self.call(told(page)), page, file.device.levels[level][index])
        return file.slice(offset, size)

    def judge(self, hash_page, level, index, record, wanted, page):
        """A record of the tape as the answer to a call for these bytes of a page: no record, one of another kind, a short one, a wrong
        one."""
        got = record[5:][:len(wanted)]
        wrong, right = hash_page(got.ljust(PAGE, b"\0")), hash_page(page)
        if record[:1] != b"\3":
            self.fails()
        elif len(got) < len(wanted):
            self.words = f"short {len(wanted)} {len(got)}"
        elif wrong != right:
            self.words = f"mismatch {level} {index} {right.hex()} {wrong.hex()}"
        if self.words is not None:
            raise Refused("EIO")

    def write(self, node, fh, offset, data):
        self.handle(node, fh)
        file, data = self.files[node], bytes.fromhex(data)
        if file.mode == READ_ONLY:
            raise Refused("EACCES")
        end = offset + len(data)
        if data and end > LARGEST:
            raise Refused("EFBIG")
        for index in range(offset // PAGE, -(-end // PAGE)) if data else ():
            start = PAGE * index
            first, last = max(offset, start), min(end, start + PAGE)
            try:
                if start < file.size and (first > start or last < min(start + PAGE, file.size)):
                    self.load(file, index)
                self.done()
            except Refused:
                if start <= offset:
                    raise
                self.short = start - offset
                return put("fuse_write_out", size=self.short)
            file.put(first, data[first - offset:last - offset])
        return put("fuse_write_out", size=len(data))

    def flush(self, node, fh):
        self.handle(node, fh)

    fsync = flush

    def release(self, node, fh):
        self.handle(node, fh)
        del self.handles[fh]

    def create(self, node, name):
        self.directory(node)
        raise Refused("EACCES")

    mkdir = unlink = rmdir = create

    def statfs(self, node):
        self.live(node)
        return put("fuse_kstatfs", blocks=1 << 20, bfree=1 << 20, bavail=1 << 20, files=65_536, ffree=65_536, bsize=4096, namelen=255,
                   frsize=4096)

    def destroy(self, node):
        self.ready, self.handles, self.lookups = False, {}, dict.fromkeys(self.lookups, 0)


def hash_of(page):
    """The hash of a page of a writable file's tree, which has no salt."""
    return hashlib.sha256(page).digest()


def body_of(word, name=None, data=b"", pairs=(), **fields):
    """The body of an operation: its structure with these fields, and what follows it. The counts in it are right where none is given."""
    _, structure, _, has_name = OPERATIONS[word]
    if word == "write":
        fields.setdefault("size", len(data))
    if word == "batch_forget":
        fields.setdefault("count", len(pairs))
        data = b"".join(put("fuse_forget_one", nodeid=node, nlookup=count) for node, count in pairs)
    front = put(structure, **fields) if structure else b""
    return front + (name + b"\0" if has_name else data)


def ask(word, node=1, number=9, length=None, **fields):
    """A message of an operation, with a length in its header that may be wrong."""
    return request(OPERATIONS[word][0], body_of(word, **fields), number, node, length)


def framed(channel, payload):
    return struct.pack("<IBxxx", len(payload), channel) + payload


def reply_to(unique, expected):
    """The bytes of an expected reply: an error's name, the bytes of a read, or a kind of reply with its fields; or 'no reply'."""
    if expected == "no reply":
        return b""
    if isinstance(expected, bytes):
        return put("fuse_out_header", len=16 + len(expected), unique=unique) + expected
    kind, *fields = ("error", ERRNOS[expected]) if isinstance(expected, str) else expected
    return bytes.fromhex(replied(" ".join(str(it) for it in ["reply", kind, unique, *fields])))


class Session:
    """Frames over a plan of files, and of devices before them, with what the guest answers over a host that is honest but where it is bent."""

    def __init__(self, *files, devices=()):
        self.server, self.devices = Server(files), devices
        blobs = "".join(f"blob {7 + n} {len(it.levels[0])} {it.salt.hex() or '-'} {it.root.hex()}\n" for n, it in enumerate(devices))
        self.plan = f"plan 1\n{blobs}{''.join(file.line for file in files)}".encode()
        self.stream, self.replies, self.log, self.number = b"", b"", "", 0
        self.records = [file.boot for file in files]
        self.borders = []

    def message(self, message, bends=None):
        """A message and what the model answers it."""
        at = len(self.stream)
        self.stream += framed(0, message)
        answer = self.server.answer(message, bends)
        self.replies += framed(0, answer) if answer else b""
        self.records += self.server.records
        head = f"eio {at}" if self.server.short is None else f"short {at} {self.server.short}"
        self.log += f"{head} {self.server.words}\n" if self.server.words else ""
        self.borders.append((len(self.stream), len(self.replies), len(self.log)))
        return answer

    def ask(self, word, node=1, expected=None, bends=None, **fields):
        """A message of the next number. Where something is expected, the model has to answer it."""
        self.number += 1
        return self.sent(ask(word, node, self.number, **fields), expected, bends)

    def sent(self, message, expected=None, bends=None):
        """A message of these bytes, with the like."""
        answer = self.message(message, bends)
        if expected is not None and answer != reply_to(get("fuse_in_header", "unique", message), expected):
            raise SystemExit(f"fuse: {message[:80].hex()} is answered {answer[:80].hex()}, where {str(expected)[:80]} is expected")
        return self

    def rows(self, rows):
        """Messages with what they are answered: word, node, fields, expected."""
        for word, node, fields, expected in rows:
            self.ask(word, node, expected, **fields)
        return self

    def read(self, item, at, size):
        """A measured read of a device."""
        device = self.devices[item]
        self.stream += measured_read(item, at, size)
        self.records += [told(page) for _, _, page in device.pages(at, size)]
        self.replies += reply(0, device.content[at:at + size])
        self.borders.append((len(self.stream), len(self.replies), len(self.log)))
        return self

    @property
    def tape(self):
        return tape(*self.records)
