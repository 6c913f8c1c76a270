"""guest serve beside fsverity-utils: a file that the host holds is opened by the digest that they give, and by no other."""
import subprocess

from lib.frame import check, content, program, run, same, tool, write

SALTS = ("-", "ab", "ff" * 32)

SIZES = (0, 1, 4096, 4097, 128 * 4096 + 1)


def served(ours, digest):
    """The status and the log of a session without frames, over a host that holds the file as number 3."""
    write("plan", f"plan 1\nfile config 3 {digest}\n".encode())
    done = subprocess.run(
        [ours, "serve", "plan", "store", "entropy", "tape"], stdin=subprocess.DEVNULL, capture_output=True, timeout=300
    )
    return done.returncode, done.stderr.decode(errors="replace")


def body():
    ours, theirs = program("guest"), tool("fsverity")
    write("entropy", b"")
    for size in SIZES:
        write("file", content(size))
        for salt in SALTS:
            words = [] if salt == "-" else [f"--salt={salt}"]
            said = run(theirs, "digest", "--compact", "--hash-alg=sha256", "--block-size=4096", *words, "file").strip()
            write("store", f"store 1\nverity 3 file {salt}\n".encode())
            same(f"{size} bytes, salt {salt}", served(ours, said), (0, ""))
            other = ("1" if said[0] == "0" else "0") + said[1:]
            status, log = served(ours, other)
            same(f"{size} bytes, salt {salt}, another digest", (status, log.startswith("end 8 boot 2 file digestmismatch ")), (8, True))


check(body)
