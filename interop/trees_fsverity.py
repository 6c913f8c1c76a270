"""Trees beside fsverity-utils: digests, roots, descriptors and stored trees of files of many sizes and salts."""
from lib.frame import check, content, printed, program, read, run, same, tool, write

SALTS = ("-", "ab", "00112233445566778899", "ff" * 32)

SIZES = (0, 1, 4095, 4096, 4097, 8192, 128 * 4096 - 1, 128 * 4096, 128 * 4096 + 1, 600_000, 16_384 * 4096, 16_384 * 4096 + 1)


def compared(theirs, size, salt):
    words = [] if salt == "-" else [f"--salt={salt}"]
    digest = run(theirs, "digest", "--compact", "--hash-alg=sha256", "--block-size=4096",
                 "--out-merkle-tree=theirs", "--out-descriptor=descriptor", *words, "file").strip()
    said = dict(line.split(" ", 1) for line in printed([f"file_tree file {salt} ours"]).splitlines())
    what = f"{size} bytes, salt {salt}"
    same(f"{what}: size", said["size"], str(size))
    same(f"{what}: digest", said["digest"], digest)
    same(f"{what}: root", said["root"], read("descriptor")[16:48].hex())
    same(f"{what}: stored tree", read("ours"), read("theirs"))


def body():
    _, theirs = program("test_formats"), tool("fsverity")
    for size in SIZES:
        write("file", content(size))
        for salt in SALTS if size < 10_000_000 else SALTS[:2]:
            compared(theirs, size, salt)


check(body)
