"""Bytes as pieces of JSON: text, hexadecimal, counted bytes, and repetitions."""
import hashlib
import json

LONG = 3000

# Lengths of pieces that stand often: a digest, and the frame of an OPEN.
PERIODS = (32, 56)


def length_of(data, at, period):
    """How many bytes from `at` on repeat with this period."""
    end, step = at + period, 1
    while step > 0 and end < len(data):
        same = data[end:end + step]
        if same == data[end - period:end - period + len(same)]:
            end, step = end + len(same), 2 * step
        else:
            step //= 2
    return end - at


def counted(data, at):
    """How many bytes from `at` on go on as j mod 251 does."""
    end = at + 1
    while end < len(data) and data[at] < 251 and data[end] == (data[end - 1] + 1) % 251:
        end += 1
    return end - at


def runs(data):
    """The bytes cut where a rule of a piece holds for long: pieces, in order."""
    at, plain = 0, 0
    while at < len(data):
        count, same = counted(data, at), length_of(data, at, 1)
        period = next((it for it in PERIODS if length_of(data, at, it) // it >= 3), None)
        if count >= 24:
            piece, size = {"counted": [data[at], data[at] + count]}, count
        elif same >= 24:
            piece, size = {"times": [same, {"hex": data[at:at + 1].hex()}]}, same
        elif period:
            size = length_of(data, at, period) // period * period
            piece = {"times": [size // period, {"hex": data[at:at + period].hex()}]}
        else:
            at += 1
            continue
        if plain < at:
            yield {"hex": data[plain:at].hex()}
        yield piece
        at = plain = at + size
    if plain < at:
        yield {"hex": data[plain:at].hex()}


def wanted(data, long=LONG):
    """Bytes as JSON; where that is long, their number and their SHA-256."""
    if isinstance(data, str):
        return data
    if all(byte == 10 or 32 <= byte < 127 for byte in data) and len(data) < 600:
        return data.decode()
    out = list(runs(data))
    if long is not None and len(json.dumps(out)) > long:
        return {"length": len(data), "sha256": hashlib.sha256(data).hexdigest()}
    return out[0] if len(out) == 1 else out
