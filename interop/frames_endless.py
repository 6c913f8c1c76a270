"""guest replay over a stream that doesn't end: a frame with a message of an operation that the kernel's header doesn't have, again and
again. It is answered within the first 2^30 bytes and no further, and the run ends with status 9."""
import struct
import subprocess
import threading

from lib.frame import Differs, check, program, same, write

LIMIT = 2 ** 30
PAYLOAD = 135_168
UNIQUE = 7
ENOSYS = 38


def feed(pipe, frame):
    """Writes the frame until nobody reads it any more."""
    try:
        while True:
            pipe.write(frame)
    except BrokenPipeError:
        pass


def body():
    ours = program("guest")
    write("plan", b"plan 1\n")
    write("tape", b"guest-tape 1\n")
    write("entropy", b"")
    message = struct.pack("<IIQQIIII", PAYLOAD, 999, UNIQUE, 1, 0, 0, 0, 0).ljust(PAYLOAD, b"\0")
    frame = struct.pack("<IB3x", PAYLOAD, 0) + message
    reply = struct.pack("<IB3x", 16, 0) + struct.pack("<IiQ", 16, -ENOSYS, UNIQUE)
    run = subprocess.Popen([ours, "replay", "plan", "tape", "entropy"], stdin=subprocess.PIPE, stdout=subprocess.PIPE, stderr=subprocess.PIPE, bufsize=0)
    feeder = threading.Thread(target=feed, args=(run.stdin, frame), daemon=True)
    feeder.start()
    out = run.stdout.read()
    log = run.stderr.read()
    status = run.wait()
    same("the replies", out, reply * (LIMIT // len(frame)))
    same("the log", log, b"end 9 much\n")
    if status != 9:
        raise Differs(f"status {status}")


check(body)
