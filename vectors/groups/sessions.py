"""Sessions over a store list, and replays of the tapes that they store."""
from lib.devices import Device, told
from models import case, counted, ran, reply, request, tape

ORIGIN = "Replies are slices of the content, tapes the pages of its tree by hashlib (docs/FORMATS.md: hash trees, frames, tape)"

STORE = b"store 1\nverity 7 c.bin -\n"


def played(name, why, device, spans):
    """A session of reads of item 0 or 1, of which the first is the device, and the replay of its tape."""
    stream = b"".join(request(*span) for span in spans)
    replies, records = b"", []
    for item, at, size in spans:
        replies += reply(0, device.content[at:at + size]) if item == 0 else reply(2)
        records += [told(page) for _, _, page in device.pages(at, size)] if item == 0 else []
    files = {"plan": device.plan(), "store": STORE, "entropy": b"", "c.bin": device.content}
    return case(name, why, files, ran("serve plan store entropy tape", 0, replies, "", stream, {"tape": tape(*records)}),
                ran("replay plan tape entropy", 0, replies, "", stream))


def marked():
    """16,385 blocks of zeros but for the first byte of the five that are read."""
    content = bytearray(16385 * 4096)
    for at, block in enumerate((0, 127, 128, 16383, 16384), 1):
        content[block * 4096] = at
    return bytes(content)


def draw(seed, most):
    seed = (seed * 6364136223846793005 + 1442695040888963407) % 2**64
    return seed, (seed >> 32) % most


def cases():
    yield played("over a border", "twelve bytes of two blocks", Device(counted(8192)), [(0, 4090, 12)])
    deep = Device(counted(129 * 4096))
    spans = [(0, block * 4096, 4) for block in (0, 127, 128, 16383, 16384)]
    yield played("three levels", "zeros, but for a byte in the blocks on both sides of a page's border", Device(marked()), spans)
    for first in range(10):
        seed, spans = first, []
        for _ in range(12):
            seed, item = draw(seed, 8)
            seed, at = draw(seed, 540000)
            seed, size = draw(seed, 20000)
            spans.append((item // 7, at, size))
        yield played(f"drawn {first}", "reads that are drawn, some past the end and some of an item that isn't there", deep, spans)
