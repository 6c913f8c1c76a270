"""mkguest composite beside sgdisk: the disk that is put together from a list finds no problem there, and has the list's parts."""
from lib.frame import check, content, program, read, run, same, tool, write

PARTS = (("apk", "ro", 300 * 4096), ("idsig", "ro", 16_445), ("instance", "rw", 8192), ("small", "ro", 1))


def put_together(name, files):
    """The files one behind the other, each from a whole number of blocks on, between the two ends of the table."""
    padded = [data + bytes(-len(data) % 4096) for data in files]
    return write(name, read("disk.head") + b"".join(padded) + read("disk.tail"))


def body():
    ours, theirs = program("mkguest"), tool("sgdisk")
    files = [content(size, seed) for seed, (_, _, size) in enumerate(PARTS)]
    for (name, _, _), data in zip(PARTS, files):
        write(f"{name}.img", data)
    write("list", b"parts 1\n" + b"".join(f"part {name} {mode} {name}.img\n".encode() for name, mode, _ in PARTS))
    same("what mkguest prints", run(ours, "composite", "list", "disk"), "")
    disk = put_together("whole", files)
    said = run(theirs, "-v", disk)
    same(f"sgdisk -v: {said.strip()[:200]}", "No problems found" in said, True)
    first = 40
    for number, (name, _, size) in enumerate(PARTS, 1):
        told = dict(line.split(": ", 1) for line in run(theirs, "-i", number, disk).splitlines() if ": " in line)
        sectors = 8 * -(-size // 4096)
        found = (told["Partition name"].strip("'"), int(told["First sector"].split()[0]), int(told["Last sector"].split()[0]))
        same(f"part {number}", found, (name, first, first + sectors - 1))
        first += sectors


check(body)
