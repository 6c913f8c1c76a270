"""What hosts in memory, bent ones, tapes and recorders answer to the lines of host_calls, by their rules alone."""
import hashlib
import struct

from .devices import Device

KINDS = {
    "block_size": "number",
    "block_read": "bytes",
    "file_read": "bytes",
    "tree_read": "bytes",
    "descriptor": "bytes",
}

CALLS = [*KINDS, "block_write", "block_sync", "file_write", "tree_write", "resize", "create", "mkdir", "delete"]

MAGIC = b"guest-tape 1\n"

MOST = 69_632


def piece(word):
    """The bytes of a word: pieces of hex, COUNT*HEX or COUNT%LAST joined by '+'."""
    out = b""
    for part in [] if word == "-" else word.split("+"):
        if "*" in part:
            count, unit = part.split("*")
            out += bytes.fromhex(unit) * int(count)
        elif "%" in part:
            count, last = part.split("%")
            out += bytes(i % (int(last) + 1) for i in range(int(count)))
        else:
            out += bytes.fromhex(part)
    return out


def shown(data):
    return f"{len(data)} {data.hex() or '-'}" if len(data) <= 64 else f"{len(data)} sha256 {hashlib.sha256(data).hexdigest()}"


def asked(words):
    """How many bytes a call asks for."""
    name = words[0]
    if name == "block_read":
        return 512 * int(words[3])
    if name == "file_read":
        return int(words[3])
    return {"tree_read": 4096, "descriptor": 256}[name]


def fields(data):
    """The fields of a Protocol Buffers message (wire types 0 and 2)."""
    at = 0

    def varint():
        nonlocal at
        value = shift = 0
        while True:
            byte = data[at]
            at += 1
            value |= (byte & 127) << shift
            shift += 7
            if byte < 128:
                return value

    while at < len(data):
        key = varint()
        value = varint()
        if key & 7 == 2:
            at, value = at + value, data[at:at + value]
        yield key >> 3, value


def composite(file):
    """The components (path, place, may it be written) and the length of a composite disk's file."""
    parts, length = [], 0
    for tag, value in fields(file[15:]):
        if tag == 2:
            part = dict(fields(value))
            parts.append((part.get(1, b""), part.get(2, 0), part.get(3, 0) == 1))
        elif tag == 3:
            length = value
    return parts, length


class Failed(Exception):
    pass


class File:
    """Bytes by their places, those that are zero left out, and a size."""

    def __init__(self, data=b"", descriptor=b"", tree=None):
        self.bytes = {at: byte for at, byte in enumerate(data) if byte}
        self.size, self.descriptor, self.tree = len(data), descriptor, tree or {}

    def read(self, at, count):
        return bytes(self.bytes.get(i, 0) for i in range(at, min(at + count, self.size)))

    def write(self, at, data):
        self.bytes.update(enumerate(data, at))
        self.size = max(self.size, at + len(data))

    def resize(self, size):
        if size < self.size:
            self.bytes = {at: byte for at, byte in self.bytes.items() if at < size}
        self.size = size


def verity(data, salt):
    """A file with its hash tree and its descriptor (fs-verity)."""
    blocks = data.ljust(-(-len(data) // 4096) * 4096, b"\0")
    device = Device(blocks, salt)
    tree = {(level, i): page for level, pages in enumerate(device.levels) if level for i, page in enumerate(pages)}
    head = struct.pack("<BBBBIQ", 1, 1, 12, len(salt), 0, len(data))
    descriptor = head + device.root.ljust(64, b"\0") + salt.ljust(32, b"\0") + bytes(144)
    return File(data, descriptor, tree)


class Memory:
    """Disks, files and directories by number; a listed call fails, and one that what is held can't serve."""

    def __init__(self):
        self.disks, self.files, self.dirs = {}, {}, {}
        self.calls, self.listed, self.failed, self.heard = 0, [], 0, 0

    def stock(self, words):
        name, number = words[0], int(words[1]) if len(words) > 1 else 0
        if name == "disk":
            data = piece(words[2])
            self.disks[number] = bytearray(data), [True] * len(data)
        elif name in ("composite", "map"):
            return self.parts(words, number)
        elif name == "empty":
            self.files[number] = File()
        elif name == "dir":
            self.dirs[number] = set()
        elif name == "verity":
            self.files[number] = verity(piece(words[3]), piece(words[2]))
        elif name == "fail_at":
            self.listed = [int(word) for word in words[1:]]
            return "listed"
        elif name == "has_disk":
            return "true" if number in self.disks else "false"
        elif name == "has_number":
            return "true" if number in self.files or number in self.dirs else "false"
        elif name == "disk_bytes":
            return shown(bytes(self.disks[number][0])) if number in self.disks else "none"
        else:
            file = self.files.get(number)
            return shown(file.read(0, file.size)) if file else "none"
        return "added"

    def parts(self, words, number):
        parts, length = composite(piece(words[2]))
        files = [bytearray(piece(word)) for word in words[(3 if words[0] == "composite" else 4):]]
        for b, (path, _, write) in enumerate(parts):
            for a, (other, _, other_write) in enumerate(parts[:b]):
                if path == other and (write or other_write):
                    return f"alias {a} {b}"
        if words[0] == "map":
            for at, data in (word.split("=") for word in words[3].split(",")):
                for i, byte in enumerate(piece(data), int(at)):
                    owner = max(k for k, part in enumerate(parts) if part[1] <= i)
                    files[owner][i - parts[owner][1]] = byte
        data, open_ = bytearray(length), [False] * length
        for (_, at, write), end, file in zip(parts, [part[1] for part in parts[1:]] + [length], files):
            inside = file[:end - at]
            data[at:at + len(inside)] = inside
            open_[at:at + len(inside)] = [write] * len(inside)
        self.disks[number] = data, open_
        return " ".join(["added", *(shown(bytes(file)) for file in files if words[0] == "map")])

    def call(self, words):
        number = self.calls
        self.calls += 1
        try:
            if number in self.listed:
                raise Failed
            return getattr(self, words[0])(*words[1:])
        except (Failed, KeyError):
            self.failed += 1
            return None

    def sectors(self, disk, sector, size):
        data, open_ = self.disks[int(disk)]
        at = 512 * int(sector)
        if at + size > len(data):
            raise Failed
        return data, open_, at

    def block_size(self, disk):
        return len(self.disks[int(disk)][0]) // 512

    def block_read(self, disk, sector, count):
        data, _, at = self.sectors(disk, sector, 512 * int(count))
        return bytes(data[at:at + 512 * int(count)])

    def block_write(self, disk, sector, word):
        new = piece(word)
        data, open_, at = self.sectors(disk, sector, len(new))
        if not all(open_[at:at + len(new)]):
            raise Failed
        data[at:at + len(new)] = new
        return True

    def block_sync(self, disk):
        return bool(self.disks[int(disk)])

    def file_read(self, file, at, want):
        return self.files[int(file)].read(int(at), int(want))

    def tree_read(self, file, level, index):
        return self.files[int(file)].tree.get((int(level), int(index)), bytes(4096))

    def descriptor(self, file):
        return self.files[int(file)].descriptor[:256]

    def file_write(self, file, at, word):
        self.files[int(file)].write(int(at), piece(word))
        return True

    def tree_write(self, file, level, index, word):
        self.files[int(file)].tree[int(level), int(index)] = piece(word)
        return True

    def resize(self, file, size):
        self.files[int(file)].resize(int(size))
        return True

    def make(self, held, new, dir_, name, number):
        if name in self.dirs[int(dir_)] or int(number) in self.files or int(number) in self.dirs:
            raise Failed
        self.dirs[int(dir_)].add(name)
        held[int(number)] = new
        return True

    def create(self, dir_, name, number):
        return self.make(self.files, File(), dir_, name, number)

    def mkdir(self, dir_, name, number):
        return self.make(self.dirs, set(), dir_, name, number)

    def delete(self, dir_, name):
        self.dirs[int(dir_)].remove(name)
        return True


class Bent:
    """A host in memory; the answer to a listed call is failed, replaced, or has the lowest bit of a byte flipped."""

    def __init__(self, host, words):
        self.host, self.bends, self.calls, self.failed, self.heard = host, {}, 0, 0, 0
        for word in words:
            number, bend = word.split("=")
            self.bends.setdefault(int(number), bend.split(":"))

    def call(self, words):
        own = self.host.call(words)
        kind, value = self.bends.get(self.calls, ("", ""))
        self.calls += 1
        if kind == "fail":
            own = None
        elif own is not None and KINDS.get(words[0]) == "number" and kind == "number":
            own = int(value)
        elif own is not None and KINDS.get(words[0]) == "bytes" and kind == "bytes":
            own = piece(value)[:asked(words)]
        elif own is not None and KINDS.get(words[0]) == "bytes" and kind == "flip" and int(value) < len(own):
            own = own[:int(value)] + bytes([own[int(value)] ^ 1]) + own[int(value) + 1:]
        self.failed += own is None
        return own


def read_tape(data):
    """The records of a tape, or the place of the first bad one."""
    if data[:len(MAGIC)] != MAGIC:
        return 0
    at, records = len(MAGIC), []
    while at < len(data):
        kind, rest = data[at], data[at + 1:]
        size = struct.unpack("<I", rest[:4])[0] if kind == 3 and len(rest) >= 4 else 0
        whole = {0: 0, 1: 0, 2: 8, 3: 4 + size}.get(kind)
        if whole is None or len(rest) < max(whole, 4 if kind == 3 else 0) or size > MOST:
            return at
        value = {0: None, 1: True, 2: 0, 3: rest[4:whole]}[kind]
        records.append(struct.unpack("<Q", rest[:8])[0] if kind == 2 else value)
        at += 1 + whole
    return records


def record(answer):
    """The record of an answer."""
    if answer is None:
        return b"\0"
    if answer is True:
        return b"\1"
    if isinstance(answer, int):
        return struct.pack("<BQ", 2, answer)
    return struct.pack("<BI", 3, len(answer)) + answer


class Tape:
    """Each call takes the next record; one of another kind, and the end, fail."""

    def __init__(self, records):
        self.records, self.failed, self.heard = records, 0, 0

    def call(self, words):
        kind = {"number": int, "bytes": bytes}.get(KINDS.get(words[0]), bool)
        own = self.records.pop(0) if self.records else None
        if type(own) is not kind:
            self.failed += 1
            return None
        if kind is bytes:
            own = own[:asked(words)]
            self.heard += len(own)
        return own


class Recorder:
    """Passes each call on and keeps the record of its answer."""

    def __init__(self, host):
        self.host, self.tape, self.failed, self.heard = host, MAGIC, 0, 0

    def call(self, words):
        own = self.host.call(words)
        self.tape += record(own)
        self.failed += own is None
        self.heard += len(own) if isinstance(own, bytes) else 0
        return own


def said(answer):
    if answer is None:
        return "failed"
    if answer is True:
        return "ok"
    return f"number {answer}" if isinstance(answer, int) else shown(answer)


def write(words):
    kinds = {"failed": lambda v: None, "done": lambda v: True, "number": int, "bytes": piece}
    items = (word.split(":") for word in words)
    return shown(MAGIC + b"".join(record(kinds[kind](value)) for kind, value in items))


def answers(text):
    """What is printed for these lines."""
    host = Memory()
    out = []
    for line in text.splitlines():
        words = line.split()
        if not words or line.startswith("#"):
            out.append(line)
        elif words[0] in CALLS:
            out.append(said(host.call(words)))
        elif words[0] == "counts":
            out.append(f"failed {host.failed} heard {host.heard}")
        elif words[0] == "written":
            out.append(f"{shown(host.tape)} behind {host.host.failed}")
        elif words[0] == "write":
            out.append(write(words[1:]))
        elif words[0] == "tape":
            read = read_tape(piece(words[1]))
            host = host if isinstance(read, int) else Tape(read)
            out.append(f"at {read}" if isinstance(read, int) else "tape")
        elif words[0] in ("memory", "bent", "recorder"):
            made = {"memory": Memory, "bent": lambda: Bent(host, words[1:]), "recorder": lambda: Recorder(host)}
            host = made[words[0]]()
            out.append(words[0])
        else:
            out.append(host.stock(words))
    return "\n".join(out) + "\n"
