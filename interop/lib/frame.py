"""What the checks share: finding tools and programs, running them, and telling the first difference."""
import os
import shutil
import subprocess
import sys
import tempfile

TOP = os.path.abspath(f"{os.path.dirname(__file__)}/../..")


class Skipped(Exception):
    """Something that the check needs isn't there."""


class Differs(Exception):
    """Two answers that should be the same aren't."""


def tool(name):
    """The path of a tool that we didn't write."""
    path = shutil.which(name)
    if path is None:
        raise Skipped(f"no {name}")
    return path


def program(name):
    """The path of a program of this repository."""
    path = f"{TOP}/crates/{name}/out/{name}"
    if not os.access(path, os.X_OK):
        raise Skipped(f"no crates/{name}/out/{name}")
    return path


def run(*words, quiet=False):
    """What a program prints. One that fails makes the check fail, and a warning too where `quiet` is wanted."""
    words = [str(word) for word in words]
    done = subprocess.run(words, stdin=subprocess.DEVNULL, capture_output=True, timeout=300)
    if done.returncode != 0 or (quiet and done.stderr):
        said = (done.stderr or done.stdout).decode(errors="replace").strip()
        raise Differs(f"{' '.join([os.path.basename(words[0]), *words[1:]])}: status {done.returncode}: {said[:300]}")
    return done.stdout.decode(errors="replace")


def printed(lines):
    """What `test_formats` prints for these lines."""
    data = "".join(f"{line}\n" for line in lines).encode()
    done = subprocess.run([program("test_formats")], input=data, capture_output=True, timeout=300)
    if done.returncode != 0:
        raise Differs(f"test_formats: status {done.returncode}: {done.stderr.decode(errors='replace')[:300]}")
    return done.stdout.decode()


def same(what, ours, theirs):
    """Fails with the first place where the two differ."""
    if ours == theirs:
        return
    if isinstance(ours, str) and isinstance(theirs, str) and "\n" in ours + theirs:
        ours, theirs = ours.splitlines(), theirs.splitlines()
    if isinstance(ours, (bytes, list)) and isinstance(theirs, (bytes, list)):
        at = next((i for i, (x, y) in enumerate(zip(ours, theirs)) if x != y), min(len(ours), len(theirs)))
        ours, theirs = (f"{it[at]!r}" if at < len(it) else f"an end after {at}" for it in (ours, theirs))
        what = f"{what}, at {at}"
    raise Differs(f"{what}: ours {ours}, theirs {theirs}")


def write(name, data):
    """Writes a file in the check's folder."""
    with open(name, "wb") as file:
        file.write(data)
    return name


def read(name):
    """The bytes of a file."""
    with open(name, "rb") as file:
        return file.read()


def content(size, seed=1):
    """Bytes that look drawn and are always the same: each page differs from every other."""
    out = bytearray()
    block = bytes((seed * 31 + i * 7 + (i * i >> 3)) % 256 for i in range(4096))
    for index in range(-(-size // 4096)):
        out += index.to_bytes(8, "little") + block[8:]
    return bytes(out[:size])


def check(body):
    """Runs a check in a folder of its own and prints its line."""
    name = os.path.splitext(os.path.basename(sys.argv[0]))[0]
    os.environ["LC_ALL"] = "C"
    before = os.getcwd()
    status = 0
    with tempfile.TemporaryDirectory(prefix="interop-") as folder:
        os.chdir(folder)
        try:
            body()
            line = f"ok {name}"
        except Skipped as it:
            line = f"skipped {name}: {it}"
        except Differs as it:
            line, status = f"FAIL {name}: {it}", 1
        except Exception as it:
            line, status = f"FAIL {name}: {type(it).__name__}: {it}", 1
        os.chdir(before)
    print(" ".join(line.split("\n")), flush=True)
    sys.exit(status)
