"""Seals beside Python's cryptography: 200 of AES-256-GCM, of drawn keys, nonces, heads and texts."""
from lib.frame import Skipped, check, printed, same

CASES = 200


class Draw:
    """A linear congruential generator modulo 2^64, whose answer is the top byte of its state."""

    def __init__(self):
        self.state = 1

    def byte(self):
        self.state = (self.state * 6364136223846793005 + 1442695040888963407) % 2**64
        return self.state >> 56

    def bytes(self, count):
        return bytes(self.byte() for _ in range(count))


def seals():
    try:
        from cryptography.hazmat.primitives.ciphers.aead import AESGCM
    except ImportError:
        raise Skipped("no cryptography for python3") from None
    draw = Draw()
    for _ in range(CASES):
        key, nonce, head, text = draw.bytes(32), draw.bytes(12), draw.bytes(256), draw.bytes(256)
        head_len, text_len = draw.byte(), draw.byte()
        head, text = head[:head_len], text[:text_len]
        sealed = AESGCM(key).encrypt(nonce, text, head)
        words = " ".join(it.hex() or "-" for it in (key, nonce, head, text))
        yield f"seal {words}", f"{sealed[-16:].hex()} {sealed[:-16].hex()}.\n"


def body():
    lines, answers = zip(*seals())
    same("seals", printed(lines), "".join(answers))


check(body)
