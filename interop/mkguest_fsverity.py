"""mkguest measure beside fsverity-utils: the digests of files of many sizes under salts of 0 to 32 bytes."""
from lib.frame import check, content, program, run, same, tool, write

SALTS = ("-", "ab", "00112233445566778899aabbccddeeff", "ff" * 32)

# Around a page, around the blocks of one tree page, and around a part of a file.
SIZES = (1, 4095, 4096, 4097, 128 * 4096, 128 * 4096 + 1, 256 * 4096 - 1, 256 * 4096, 256 * 4096 + 1, 300 * 4096, 512 * 4096)


def compared(ours, theirs, size, salt):
    words = [] if salt == "-" else [f"--salt={salt}"]
    digest = run(theirs, "digest", "--compact", "--hash-alg=sha256", "--block-size=4096", *words, "file").strip()
    measure, line = run(ours, "measure", "file", salt).splitlines()
    what = f"{size} bytes, salt {salt}"
    same(f"{what}: blocks and salt", measure.split()[:3], ["measure", str(-(-size // 4096)), salt])
    same(f"{what}: digest", line, f"digest {digest}")


def body():
    ours, theirs = program("mkguest"), tool("fsverity")
    for size in SIZES:
        write("file", content(size))
        for salt in SALTS:
            compared(ours, theirs, size, salt)


check(body)
