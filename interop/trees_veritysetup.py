"""Trees beside veritysetup: the root and the stored tree of whole blocks, without salt, as dm-verity has them."""
from lib.frame import check, content, printed, program, read, run, same, tool, write

# Not one block: dm-verity then still has a page of hashes, and fs-verity has none.
BLOCKS = (2, 3, 127, 128, 129, 200, 16_384, 16_385)


def body():
    _, theirs = program("test_formats"), tool("veritysetup")
    for blocks in BLOCKS:
        write("file", content(4096 * blocks))
        write("theirs", b"")
        said = run(theirs, "format", "--no-superblock", "--format=1", "--hash=sha256", "--salt=-",
                   "--data-block-size=4096", "--hash-block-size=4096", "file", "theirs")
        root = next(line.split()[-1] for line in said.splitlines() if line.startswith("Root hash:"))
        ours = dict(line.split(" ", 1) for line in printed(["file_tree file - ours"]).splitlines())
        same(f"{blocks} blocks: root", ours["root"], root)
        same(f"{blocks} blocks: stored tree", read("ours"), read("theirs"))


check(body)
