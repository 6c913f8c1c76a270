"""Composite files beside protoc: what we write is what it encodes, it decodes that to what was described, and it reads files of other spellings as we do."""
import codecs
import random
import re
import subprocess

from lib.frame import Differs, check, printed, program, same, tool, write

MAGIC = b"composite_disk\x1d"

PROTO = b"""syntax = "proto3";
message Component { string path = 1; uint64 offset = 2; uint64 capability = 3; }
message Disk { uint64 version = 1; repeated Component components = 2; uint64 length = 3; }
"""

ALPHABET = "abcXYZ019._-/ \t\n\"\\'éß語😀"

# How many components, and of how many bytes the longest path may be.
SHAPES = [(1, 1), (1, 255), (2, 40), (4, 255), (1024, 12)] + [(count, 60) for count in range(1, 31)]


def piped(words, data):
    """What a program prints for this input."""
    done = subprocess.run(words, input=data, capture_output=True, timeout=300)
    if done.returncode != 0:
        raise Differs(f"{words}: status {done.returncode}: {done.stderr.decode(errors='replace')[:300]}")
    return done.stdout


def path_of(draw, most):
    size, path = draw.randint(1, most), ""
    while True:
        more = path + draw.choice(ALPHABET)
        if len(more.encode()) > size:
            return path or "p"
        path = more


def described(draw, count, most):
    """A drawn description: components with path, offset and capability, and then the disk's length."""
    span = draw.choice([2**12, 2**20, 2**40 - 512])
    offsets = [0] + sorted(draw.sample(range(1, span), count - 1))
    components = [(path_of(draw, most), offset, draw.randint(0, 1)) for offset in offsets]
    least = offsets[-1] // 512 + 1
    return [*components, 512 * draw.randint(least, max(least, span // 512))]


def varint(draw, value, most=10):
    """A varint of any length that it can have."""
    least = max(1, -(-value.bit_length() // 7))
    size = draw.choice([least, least, draw.randint(least, most)])
    return bytes(value >> 7 * i & 127 | (128 if i + 1 < size else 0) for i in range(size))


def short(draw, value):
    """A tag or a length: protoc takes at most 5 bytes for one."""
    return varint(draw, value, 5)


def number(draw, field, value):
    return short(draw, 8 * field) + varint(draw, value)


def sized(draw, field, data):
    return short(draw, 8 * field + 2) + short(draw, len(data)) + data


def unknown(draw):
    field = draw.randint(4, 2**29 - 1)
    if 19000 <= field < 20000:
        field = 4
    return draw.choice([
        number(draw, field, draw.randrange(2**64)),
        short(draw, 8 * field + 1) + draw.randbytes(8),
        sized(draw, field, draw.randbytes(draw.randint(0, 20))),
        short(draw, 8 * field + 5) + draw.randbytes(4),
    ])


def message(draw, groups):
    """Fields in any order, but those of one group in theirs, and unknown fields between them."""
    groups = [list(group) for group in groups] + [[unknown(draw)] for _ in range(draw.randint(0, 2))]
    turns = [i for i, group in enumerate(groups) for _ in group]
    draw.shuffle(turns)
    return b"".join(groups[i].pop(0) for i in turns)


def numbers(draw, field, value):
    """A field that states a number last, or none at all for 0."""
    if value == 0 and draw.random() < 0.5:
        return []
    earlier = [number(draw, field, draw.randrange(2**64)) for _ in range(draw.randint(0, 1))]
    return earlier + [number(draw, field, value)]


def spelled(draw, components, length):
    """A composite file of this description in some spelling."""
    parts = []
    for path, offset, capability in components:
        paths = [sized(draw, 1, b"other")] * draw.randint(0, 1) + [sized(draw, 1, path.encode())]
        part = message(draw, [paths, numbers(draw, 2, offset), numbers(draw, 3, capability)])
        parts.append(sized(draw, 2, part))
    return MAGIC + message(draw, [numbers(draw, 1, 2), parts, numbers(draw, 3, length)])


def text_of(components, length):
    """The description in protoc's text form."""
    lines = ["version: 2"]
    for path, offset, capability in components:
        data = "".join(f"\\{byte:03o}" for byte in path.encode())
        lines.append(f'components {{ path: "{data}" offset: {offset} capability: {capability} }}')
    return "\n".join([*lines, f"length: {length}"]).encode()


def said(text):
    """The description that protoc's text form gives, without unknown fields, which may be messages of their own."""
    components, length, version, inside = [], 0, 0, None
    for line in text.decode().splitlines():
        field = re.fullmatch(r"(?:  )?(\w+)(?:: (.*)| \{)", line)
        if line == "}":
            if inside is not None:
                components.append((inside.get("path", ""), int(inside.get("offset", 0)), int(inside.get("capability", 0))))
            inside = None
        elif line == "components {":
            inside = {}
        elif inside is not None and field and field[1] == "path":
            inside["path"] = codecs.escape_decode(field[2][1:-1])[0].decode()
        elif inside is not None and field:
            inside[field[1]] = field[2]
        elif field and field[1] == "length":
            length = int(field[2])
        elif field and field[1] == "version":
            version = int(field[2])
    same("the version that protoc reads", version, 2)
    return [*components, length]


def read_from(lines):
    """The descriptions and files that we print."""
    found, components, length = [], [], 0
    for line in lines:
        word, *rest = line.split()
        if word == "length":
            components, length = [], int(rest[0])
        elif word == "component":
            components.append((bytes.fromhex(rest[2]).decode(), int(rest[0]), ("ro", "rw").index(rest[1])))
        else:
            found.append(([*components, length], bytes.fromhex(rest[0])))
    return found


def body():
    _, theirs = program("test_formats"), tool("protoc")
    write("disk.proto", PROTO)
    draw = random.Random(20)
    cases = [described(draw, count, most) for count, most in SHAPES]
    files = [spelled(draw, case[:-1], case[-1]) for case in cases]
    found = read_from(printed(f"composite {file.hex()}" for file in files).splitlines())
    same("the number of files", len(found), len(cases))
    for i, (case, file, (read, written)) in enumerate(zip(cases, files, found)):
        same(f"what we read from file {i}", read, case)
        same(f"what protoc reads from file {i}", case, said(piped([theirs, "--decode=Disk", "disk.proto"], file[len(MAGIC):])))
        same(f"the magic of file {i}", written[:len(MAGIC)], MAGIC)
        encoded = piped([theirs, "--encode=Disk", "disk.proto"], text_of(case[:-1], case[-1]))
        same(f"file {i} behind the magic", written[len(MAGIC):], encoded)
        decoded = said(piped([theirs, "--decode=Disk", "disk.proto"], written[len(MAGIC):]))
        same(f"what protoc reads from our file {i}", case, decoded)


check(body)
