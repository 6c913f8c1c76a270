"""host_calls beside a model of the hosts: on the lines of its table, and on drawn ones."""
import random
import subprocess

from lib.frame import TOP, Differs, check, program, read, same
from lib.hosts import answers

RUNS = 60

CALLS = 40


def asked(ours, lines):
    """What the program prints for these lines."""
    done = subprocess.run([ours], input=lines.encode(), capture_output=True, timeout=300)
    if done.returncode != 0:
        raise Differs(f"status {done.returncode}: {done.stderr.decode(errors='replace')[:300]}")
    return done.stdout.decode()


def call(draw):
    """A call of small numbers, near the ends of blocks, pages and files."""
    disk, file = draw.choice((0, 0, 0, 1)), draw.choice((1, 1, 1, 2, 2, 2, 4))
    dir_, other = draw.choice((3, 3, 3, 1)), draw.randrange(6)
    at = draw.choice((0, 1, 511, 4095, 4096, 4097, 8191, 10_000, draw.randrange(20_000)))
    count, byte = draw.choice((0, 1, 2, 3, 511, 4095, 4096)), draw.randrange(256)
    data = f"{count}*{byte:02x}" if count else "-"
    sectors = draw.randrange(4)
    whole = f"{512 * sectors}*{byte:02x}" if sectors else "-"
    return draw.choice((
        f"block_size {disk}",
        f"block_read {disk} {draw.randrange(5)} {sectors}",
        f"block_write {disk} {draw.randrange(5)} {whole}",
        f"block_sync {disk}",
        f"file_read {file} {at} {draw.choice((0, 1, 4096, 9000, 69_632))}",
        f"file_read {file} {at} {count}",
        f"file_write {file} {at} {data}",
        f"file_write {file} {at} {data}",
        f"resize {file} {at}",
        f"tree_read {file} {draw.randrange(3)} {draw.randrange(3)}",
        f"tree_write {file} {draw.randrange(3)} {draw.randrange(3)} 4096*{byte:02x}",
        f"descriptor {file}",
        f"create {dir_} {draw.choice('abc')} {other}",
        f"mkdir {dir_} {draw.choice('abc')} {other}",
        f"delete {dir_} {draw.choice('abc')}",
        "counts",
    ))


def held(draw):
    """A host in memory with something of each kind, and listed calls or bends."""
    size = draw.choice((1, 4095, 4096, 4097, 9000))
    yield "memory"
    yield f"disk 0 {512 * draw.randrange(1, 5)}%{draw.randrange(256)}"
    yield f"verity 1 {draw.choice(('-', '0a', '0102'))} {size}%{draw.randrange(256)}"
    yield "empty 2"
    yield "dir 3"
    kind = draw.randrange(3)
    if kind == 1:
        yield " ".join(["fail_at", *(str(draw.randrange(CALLS)) for _ in range(4))])
    elif kind == 2:
        bends = (f"{draw.randrange(CALLS)}={draw.choice(('fail:', 'number:7', 'bytes:5000*01', 'flip:3'))}" for _ in range(12))
        yield " ".join(["bent", *bends])


def played(draw):
    """A tape, and half of the times a recorder over it."""
    records = (draw.choice(("00", "01", "02" + "11" * 8, "0302000000aabb", "030010000000" + "+4095*05")) for _ in range(CALLS // 2))
    yield "+".join(["tape 67756573742d7461706520310a", *records])
    if draw.randrange(2):
        yield "recorder"


def run_of(draw):
    memory = draw.randrange(3) > 0
    yield from held(draw) if memory else played(draw)
    for _ in range(CALLS):
        yield call(draw)


def body():
    ours = program("host_calls")
    table = read(f"{TOP}/crates/host_calls/stdin").decode()
    expected = read(f"{TOP}/crates/host_calls/stdout").decode()
    same("the table", expected, answers(table))
    same("the table's run", asked(ours, table), expected)
    draw = random.Random(1)
    for run in range(RUNS):
        lines = "".join(f"{line}\n" for line in run_of(draw))
        same(f"run {run}", asked(ours, lines), answers(lines))


check(body)
