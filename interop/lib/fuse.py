"""A model of FUSE's messages (linux/fuse.h, protocol 7.31) as test_formats prints them, written apart from its code."""
import struct

# The fields of each structure with their bytes; those that have no name in every edition of the header are `-`.
STRUCTURES = {
    "fuse_in_header": "len 4, opcode 4, unique 8, nodeid 8, uid 4, gid 4, pid 4, - 4",
    "fuse_out_header": "len 4, error 4, unique 8",
    "fuse_attr": "ino 8, size 8, blocks 8, atime 8, mtime 8, ctime 8, atimensec 4, mtimensec 4, ctimensec 4, mode 4, nlink 4, "
                 "uid 4, gid 4, rdev 4, blksize 4, - 4",
    "fuse_entry_out": "nodeid 8, generation 8, entry_valid 8, attr_valid 8, entry_valid_nsec 4, attr_valid_nsec 4, attr 88",
    "fuse_attr_out": "attr_valid 8, attr_valid_nsec 4, dummy 4, attr 88",
    "fuse_getattr_in": "getattr_flags 4, dummy 4, fh 8",
    "fuse_setattr_in": "valid 4, - 4, fh 8, size 8, lock_owner 8, atime 8, mtime 8, ctime 8, atimensec 4, mtimensec 4, ctimensec 4, "
                       "mode 4, - 4, uid 4, gid 4, - 4",
    "fuse_open_in": "flags 4, - 4",
    "fuse_open_out": "fh 8, open_flags 4, - 4",
    "fuse_create_in": "flags 4, mode 4, umask 4, - 4",
    "fuse_mkdir_in": "mode 4, umask 4",
    "fuse_read_in": "fh 8, offset 8, size 4, read_flags 4, lock_owner 8, flags 4, - 4",
    "fuse_write_in": "fh 8, offset 8, size 4, write_flags 4, lock_owner 8, flags 4, - 4",
    "fuse_write_out": "size 4, - 4",
    "fuse_release_in": "fh 8, flags 4, release_flags 4, lock_owner 8",
    "fuse_flush_in": "fh 8, - 4, - 4, lock_owner 8",
    "fuse_fsync_in": "fh 8, fsync_flags 4, - 4",
    "fuse_interrupt_in": "unique 8",
    "fuse_forget_in": "nlookup 8",
    "fuse_forget_one": "nodeid 8, nlookup 8",
    "fuse_batch_forget_in": "count 4, dummy 4",
    "fuse_init_in": "major 4, minor 4, max_readahead 4, flags 4",
    "fuse_init_out": "major 4, minor 4, max_readahead 4, flags 4, max_background 2, congestion_threshold 2, max_write 4, time_gran 4, "
                     "max_pages 2, map_alignment 2, - 32",
    "fuse_dirent": "ino 8, off 8, namelen 4, type 4",
    "fuse_kstatfs": "blocks 8, bfree 8, bavail 8, files 8, ffree 8, bsize 4, namelen 4, frsize 4, - 4, - 24",
}

# The number of each operation; its structure; the fields of it that are read; whether a name follows.
OPERATIONS = {
    "lookup": (1, None, "", True),
    "forget": (2, "fuse_forget_in", "nlookup", False),
    "getattr": (3, "fuse_getattr_in", "", False),
    "setattr": (4, "fuse_setattr_in", "valid size", False),
    "mkdir": (9, "fuse_mkdir_in", "", True),
    "unlink": (10, None, "", True),
    "rmdir": (11, None, "", True),
    "open": (14, "fuse_open_in", "flags", False),
    "read": (15, "fuse_read_in", "fh offset size", False),
    "write": (16, "fuse_write_in", "fh offset", False),
    "statfs": (17, None, "", False),
    "release": (18, "fuse_release_in", "fh", False),
    "fsync": (20, "fuse_fsync_in", "fh", False),
    "flush": (25, "fuse_flush_in", "fh", False),
    "init": (26, "fuse_init_in", "major minor max_readahead flags", False),
    "opendir": (27, "fuse_open_in", "", False),
    "readdir": (28, "fuse_read_in", "fh offset size", False),
    "releasedir": (29, "fuse_release_in", "fh", False),
    "create": (35, "fuse_create_in", "", True),
    "interrupt": (36, "fuse_interrupt_in", "", False),
    "destroy": (38, None, "", False),
    "batch_forget": (42, "fuse_batch_forget_in", "", False),
}
SILENT = {"forget", "interrupt", "batch_forget"}
ERRNOS = {
    "ENOENT": 2, "EIO": 5, "EBADF": 9, "ENOMEM": 12, "EACCES": 13, "EEXIST": 17, "ENOTDIR": 20, "EISDIR": 21, "EINVAL": 22, "EFBIG": 27,
    "ENOSPC": 28, "ENOSYS": 38, "ENOTEMPTY": 39, "EPROTO": 71,
}
DT_DIR, DT_REG = 4, 8
MOST = 131_072
HEAD = 40


def layout(name):
    """The size of a structure, and the place and the bytes of each field that has a name."""
    at, fields = 0, {}
    for field in STRUCTURES[name].split(", "):
        word, size = field.split()
        if word != "-":
            fields[word] = (at, int(size))
        at += int(size)
    return at, fields


def size_of(name):
    return layout(name)[0] if name else 0


def put(name, **values):
    """A structure of zeros but for these fields."""
    size, fields = layout(name)
    out = bytearray(size)
    for field, value in values.items():
        at, width = fields[field]
        out[at:at + width] = value if isinstance(value, bytes) else value.to_bytes(width, "little")
    return bytes(out)


def get(name, field, data):
    at, width = layout(name)[1][field]
    return int.from_bytes(data[at:at + width], "little")


def request(opcode, body, unique=9, node=1, size=None):
    """A message; its owner is bytes that aren't looked at."""
    size = HEAD + len(body) if size is None else size
    return put("fuse_in_header", len=size, opcode=opcode, unique=unique, nodeid=node, uid=0xEEEEEEEE, gid=0x11111111, pid=7) + body


def named(data):
    """The name that ends these bytes with one zero byte, or None."""
    name = data[:-1]
    fits = data[-1:] == b"\0" and 1 <= len(name) <= 255 and not {0, 47} & set(name) and name not in (b".", b"..")
    return name if fits else None


def asked(word, body):
    """The fields and bytes that a body asks, or None where it isn't one of the operation."""
    _, structure, fields, has_name = OPERATIONS[word]
    size = size_of(structure)
    if len(body) < size:
        return None
    numbers = [get(structure, field, body) for field in fields.split()]
    rest = body[size:]
    if has_name:
        name = named(rest)
        return None if name is None else [*numbers, name.hex()]
    if word == "init":
        return numbers
    if word == "batch_forget":
        whole = len(rest) == 16 * get(structure, "count", body)
        return [rest.hex()] if whole else None
    if word == "write":
        count = get(structure, "size", body)
        return [*numbers, rest.hex()] if len(rest) == count <= MOST else None
    if rest or (word in ("read", "readdir") and get(structure, "size", body) > MOST):
        return None
    return numbers


def judged(message):
    """What is printed of a message of at least 40 bytes: its length is the first rule, then its opcode, then its body."""
    unique, node = (get("fuse_in_header", field, message) for field in ("unique", "nodeid"))
    opcode = get("fuse_in_header", "opcode", message)
    word = next((word for word, it in OPERATIONS.items() if it[0] == opcode), None)
    if get("fuse_in_header", "len", message) != len(message):
        return "quiet" if word in SILENT else f"{unique} length"
    if word is None:
        return f"{unique} opcode {opcode}"
    found = asked(word, message[HEAD:])
    if found is None:
        return "quiet" if word in SILENT else f"{unique} sizes"
    return " ".join(str(it) or "-" for it in [unique, node, word, *found])


def attr(ino, size, mode):
    return put("fuse_attr", ino=ino, size=size, blocks=-(-size // 512), mode=mode, nlink=1, blksize=4096)


def entry(node, *fields):
    return put("fuse_entry_out", nodeid=node, attr=attr(*fields))


def dirent(node, cookie, kind, name):
    """An entry of a listing, with zeros up to a multiple of 8."""
    out = put("fuse_dirent", ino=node, off=cookie, namelen=len(name), type=kind) + name
    return out.ljust(-(-len(out) // 8) * 8, b"\0")


def listed(entries, cookie, size):
    """The entries with a cookie above this one, up to the first that isn't whole in so many bytes."""
    out = b""
    for entry in entries:
        if entry[1] > cookie:
            more = dirent(*entry)
            if len(out) + len(more) > size:
                break
            out += more
    return out


def root(names):
    """The entries of the root: node, cookie, kind and name; those of the names from node 2 and cookie 3 on."""
    dots = [(1, 1, DT_DIR, b"."), (1, 2, DT_DIR, b"..")]
    return dots + [(n, n + 1, DT_DIR if it.endswith("/") else DT_REG, bytes.fromhex(it.rstrip("/"))) for n, it in enumerate(names, 2)]


def answered(kind, fields):
    """The error number and the body of a reply."""
    if kind == "error":
        return -fields[0], b""
    if kind in ("empty", "bytes"):
        return 0, b""
    if kind == "entry":
        return 0, entry(*fields)
    if kind == "attr":
        return 0, put("fuse_attr_out", attr=attr(*fields))
    if kind == "opened":
        return 0, put("fuse_open_out", fh=fields[0])
    if kind == "created":
        return 0, entry(*fields[:4]) + put("fuse_open_out", fh=fields[4])
    if kind == "written":
        return 0, put("fuse_write_out", size=fields[0])
    if kind == "statfs":
        return 0, put("fuse_kstatfs", blocks=1 << 20, bfree=1 << 20, bavail=1 << 20, files=65_536, ffree=65_536, bsize=4096, namelen=255, frsize=4096)
    words = "major minor max_readahead flags max_background congestion_threshold max_write time_gran".split()
    return 0, put("fuse_init_out", **dict(zip(words, fields)))


def replied(line):
    """The bytes that are printed of a line `reply KIND UNIQUE FIELD..`."""
    _, kind, unique, *fields = line.split()
    if kind == "names":
        error, body = 0, listed(root(fields[2:]), int(fields[0]), int(fields[1]))
    else:
        error, body = answered(kind, [int(it) for it in fields])
    return (put("fuse_out_header", len=16 + len(body), error=struct.pack("<i", error), unique=int(unique)) + body).hex()


def answer(line):
    """What test_formats prints of a line."""
    return replied(line) if line.startswith("reply ") else judged(bytes.fromhex(line.removeprefix("message ")))
