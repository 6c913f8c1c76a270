"""guest replay beside Python's hashlib: the replies to drawn reads of a device of 300 blocks, and the log of spoiled tapes."""
import random
import subprocess

from lib.devices import FAILED, TAPE, Device, reply, request, told
from lib.frame import Differs, check, content, program, same, write

SIZE = 300 * 4096


def spoiled(device, offset, pages, kind):
    """The records of a read that ends at its last question, what the log then says, and no more of the tape."""
    before, (level, index, page) = pages[:-1], pages[-1]
    records = b"".join(told(it) for _, _, it in before)
    if kind == "mismatch":
        bad = bytes([page[0] ^ 1]) + page[1:]
        return records + told(bad), f"eio {offset} mismatch {level} {index} {device.hash(page).hex()} {device.hash(bad).hex()}\n"
    if kind == "short":
        return records + told(page[:-1]), f"eio {offset} short {len(page)} {len(page) - 1}\n"
    return records + FAILED, f"eio {offset} failed 1\n"


def session(device, draw, kinds):
    """Drawn reads, of which one a kind is spoiled: the tape, the request frames, the replies and the log."""
    tape, frames, replies, log = [TAPE], [], [], []
    for turn in range(60):
        at, size = draw.randrange(SIZE + 8192), draw.randint(1, 131_072)
        pages = list(device.pages(at, size))
        offset = sum(map(len, frames))
        frames.append(request(at, size))
        if kinds and turn >= 20 and pages:
            records, line = spoiled(device, offset, pages[:draw.randint(1, len(pages))], kinds.pop())
            tape.append(records)
            log.append(line)
            replies.append(reply(5))
        else:
            tape.extend(told(page) for _, _, page in pages)
            replies.append(reply(0, device.content[at:at + size]))
    return [b"".join(it) for it in (tape, frames, replies)] + ["".join(log)]


def body():
    ours = program("guest")
    draw = random.Random(14)
    for salt in (b"", bytes(range(32))):
        device = Device(content(SIZE), salt)
        write("plan", device.plan())
        write("entropy", bytes(1200))
        for kinds in ([], ["mismatch"], ["short"], ["failed"], ["mismatch", "short", "mismatch"]):
            what = f"{len(salt)} bytes of salt, {kinds or 'honest'}"
            tape, frames, replies, log = session(device, draw, list(kinds))
            write("tape", tape)
            done = subprocess.run([ours, "replay", "plan", "tape", "entropy"], input=frames, capture_output=True)
            same(f"the log, {what}", done.stderr.decode(), log)
            same(f"the replies, {what}", done.stdout, replies)
            if done.returncode != 0:
                raise Differs(f"status {done.returncode}, {what}")


check(body)
