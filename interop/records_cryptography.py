"""guest serve beside Python's cryptography: records that the guest puts are opened there, and those that are sealed there are got."""
import hashlib
import hmac
import struct
import subprocess
import uuid

from lib.frame import Skipped, check, program, run, same, write

PUTS = 40

PARTS = (1, 4, 64, 129)

SECTOR = 512


class Draw:
    """A linear congruential generator modulo 2^64, whose answer is the top of its state."""

    def __init__(self):
        self.state = 7

    def below(self, count):
        self.state = (self.state * 6364136223846793005 + 1442695040888963407) % 2**64
        return (self.state >> 32) % count

    def bytes(self, count):
        return bytes(self.below(256) for _ in range(count))


def hkdf(salt, secret, info):
    """HKDF with SHA-256 (RFC 5869), one block of output."""
    return hmac.new(hmac.new(salt, secret, hashlib.sha256).digest(), info + b"\1", hashlib.sha256).digest()


def framed(channel, payload):
    return struct.pack("<IBxxx", len(payload), channel) + payload


def replies(stream):
    """The code and what follows it, of each frame."""
    while stream:
        length, = struct.unpack_from("<I", stream)
        code, = struct.unpack_from("<I", stream, 8)
        yield code, stream[12:8 + length]
        stream = stream[8 + length:]


def served(ours, store, stream):
    """The replies of a session, which must end with status 0 and an empty log."""
    write("store", store)
    done = subprocess.run([ours, "serve", "plan", "store", "entropy", "tape"], input=stream, capture_output=True, timeout=300)
    same("status and log", (done.returncode, done.stderr), (0, b""))
    return list(replies(done.stdout))


def read(name):
    with open(name, "rb") as file:
        return file.read()


def body():
    try:
        from cryptography.hazmat.primitives.ciphers.aead import AESGCM
    except ImportError:
        raise Skipped("no cryptography for python3") from None
    ours, maker, draw = program("guest"), program("mkguest"), Draw()
    salt, secret = draw.bytes(64), draw.bytes(32)
    parts = [(uuid.UUID(bytes=draw.bytes(16)), sectors) for sectors in PARTS]
    write("list", f"image 1\nsalt {salt.hex()}\n{''.join(f'part {unique} {sectors}' + chr(10) for unique, sectors in parts)}".encode())
    write("parts", b"parts 1\npart vm rw image\n")
    write("plan", f"plan 1\nsecret {secret.hex()}\nsalt {salt.hex()}\ninstance 0 vm\n".encode())
    entropy = draw.bytes(12 * PUTS)
    write("entropy", entropy)
    run(maker, "instance", "list", "image")
    run(maker, "composite", "parts", "disk")
    stream, kept, texts = b"", {}, []
    for put in range(PUTS):
        unique, sectors = parts[draw.below(len(parts))]
        text = draw.bytes(draw.below(min(65536, SECTOR * sectors - 28) + 1))
        kept[unique] = (entropy[12 * put:12 * put + 12], text)
        texts.append(text)
        stream += framed(3, unique.bytes + text) + framed(2, unique.bytes)
    wanted = [it for text in texts for it in ((0, b""), (0, text))]
    same("puts and gets", served(ours, b"store 1\ncomposite 0 disk\nkeep disk 0 after\n", stream), wanted)
    # What the guest wrote is opened beside it, and sealed anew for another session.
    disk, at = bytearray(read("after")), 41 * SECTOR
    for unique, sectors in parts:
        key = hkdf(salt, secret, b"guest-record" + unique.bytes)
        head = bytes(disk[at:at + SECTOR])
        size, = struct.unpack_from("<Q", head, 16)
        nonce, text = kept.get(unique, (None, None))
        same(f"header of {unique}", head, struct.pack("<16sQI484x", unique.bytes, 0 if text is None else 28 + len(text), sectors))
        if text is not None:
            payload = bytes(disk[at + SECTOR:at + SECTOR + size])
            same(f"nonce of {unique}", payload[:12], nonce)
            same(f"text of {unique}", AESGCM(key).decrypt(nonce, payload[12:], head + salt), text)
        new, nonce = draw.bytes(draw.below(min(65536, SECTOR * sectors - 28) + 1)), draw.bytes(12)
        kept[unique] = (nonce, new)
        head = struct.pack("<16sQI484x", unique.bytes, 28 + len(new), sectors)
        front = head + nonce + AESGCM(key).encrypt(nonce, new, head + salt)
        disk[at:at + len(front)] = front
        at += SECTOR * (1 + sectors)
    write("again", bytes(disk))
    stream = b"".join(framed(2, unique.bytes) for unique, _ in parts)
    same("texts that were sealed beside the guest", served(ours, b"store 1\ndisk 0 again\n", stream), [(0, kept[unique][1]) for unique, _ in parts])


check(body)
