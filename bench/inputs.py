"""Inputs for the programs: drawn bytes, reads, and tapes for the guest."""
import os
import random
import struct
import sys
import uuid

TOP = f"{os.path.dirname(os.path.abspath(__file__))}/.."

sys.path[:0] = [f"{TOP}/interop", f"{TOP}/vectors"]
from fuse_model import File, Session, Written, ask
from lib.devices import DONE, FAILED, TAPE, Device, number, reply, request, told


def content(size, seed):
    """Drawn bytes, always the same for a seed."""
    draw = random.Random(seed)
    return b"".join(draw.randbytes(min(1 << 20, size - at)) for at in range(0, size, 1 << 20))


def sequential(size, step):
    """Reads of a device from its first byte to its last, each an offset and a length."""
    return [(at, step) for at in range(0, size, step)]


def scattered(size, step, count):
    """Reads at drawn places."""
    draw = random.Random(7)
    return [(draw.randrange(size // step) * step, step) for _ in range(count)]


def record(device, reads, tape, alone):
    """Writes the tape of these reads, and its pages alone to another file; says how many there are."""
    count = 0
    tape.write(TAPE)
    for at, size in reads:
        for _, _, page in device.pages(at, size):
            tape.write(told(page))
            alone.write(page)
            count += 1
    return count


def frames(reads):
    """The request frames of these reads."""
    return b"".join(request(at, size) for at, size in reads)


def replies(device, reads):
    """The reply frames to these reads."""
    return b"".join(reply(0, device.content[at:at + size]) for at, size in reads)


def records(count):
    """A tape of so many records of all kinds, in turn."""
    kinds = (FAILED, DONE, number(512), told(bytes(range(256))))
    return TAPE + b"".join(kinds[i % 4] for i in range(count))


def named(count):
    """Files without content, each of a name of its own."""
    return [File(f"file{at:05}", at, b"") for at in range(count)]


def session(files, *messages):
    """A session of these messages, each a word, a node and the fields of its body, after an INIT."""
    made = Session(*files)
    made.ask("init", 1, major=7, minor=31)
    for word, node, fields in messages:
        made.message(ask(word, node, **fields))
    return made


def part_names(count):
    """Names of so many partitions of an instance image."""
    return [uuid.UUID(int=0xaa00 + at) for at in range(count)]


def image_list(sectors):
    """The list of an image: partitions of so many sectors each."""
    return f"image 1\nsalt {bytes(64).hex()}\n{''.join(f'part {unique} {count}' + chr(10) for unique, count in zip(part_names(len(sectors)), sectors))}".encode()


def image_plan():
    """A plan with an instance line alone."""
    return f"plan 1\nsecret {bytes(32).hex()}\nsalt {bytes(64).hex()}\ninstance 0 vm\n".encode()


def framed(channel, payload):
    return struct.pack("<IBxxx", len(payload), channel) + payload


def got(unique):
    """The frame of a get."""
    return framed(2, unique.bytes)


def put(unique, text):
    """The frame of a put."""
    return framed(3, unique.bytes + text)


def coded(channel, code, data=b""):
    """The frame of a reply."""
    return framed(channel, struct.pack("<I", code) + data)


def calls_told(tape):
    """The records of a tape: the size of each answer in bytes, None where it is none."""
    at, out = len(TAPE), []
    while at < len(tape):
        kind = tape[at]
        size = struct.unpack_from("<I", tape, at + 1)[0] if kind == 3 else None
        out.append(size)
        at += {0: 1, 1: 1, 2: 9, 3: 5 + (size or 0)}[kind]
    return out
