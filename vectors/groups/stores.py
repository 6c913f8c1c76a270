"""Store lists: what is carried out and kept, and what stops a list."""
from models import case, composite, counted, ran, tape

ORIGIN = "The order of the grammar's rules and what each line asks for, by hand (docs/FORMATS.md: store list); composite files by models.py"

PLAN = b"plan 1\n"

SERVE = "serve plan store entropy tape"

LISTS = (
    ("store 2\n", 1, "header"),
    ("plan 1\n", 1, "header"),
    ("store 1\nfile 1 a\n", 2, "word"),
    ("store 1\nkeep 1 a\n", 2, "fields"),
    ("store 1\nkeep dir 1 a\n", 2, "word"),
    ("store 1\ndisk 0 a\ncomposite 0 b\n", 3, "twice"),
    ("store 1\nempty 1\ndir 1\n", 3, "twice"),
    ("store 1\nkeep file 1 a\ndir 1\n", 2, "missing"),
    ("store 1\nkeep disk 0 d.out\n", 2, "missing"),
    ("store 1\nverity 1 a ABCD\n", 2, "hex"),
    ("store 1\nverity 1 a abc\n", 2, "hex"),
    ("store 1\nempty \n", 2, "number"),
    ("store 1\nempty 007\n", 2, "number"),
    ("store 1\nempty 2147483648\n", 2, "range"),
    ("store 1\ndisk 0 a b\n", 2, "fields"),
    ("store 1\ndisk 0 a\x7fb\n", 2, "name"),
    ("store 1\ndisk 0 odd\n", 2, "length"),
    ("store 1\ndir 9\ncomposite 0 odd\n", 3, "spec"),
    ("store 1\ncomposite 0 alias\n", 2, "spec"),
)

MISSING = (("store 1\nverity 7 none -\n", "none"), ("store 1\ncomposite 0 c.spec\n", "p"), ("store 1\nverity 1 a/b ab0f\n", "a/b"))

EACH = (b"store 1\ndisk 0 d.bin\ncomposite 1 c.spec\nverity 7 c.bin ab\nempty 8\ndir 2147483647\nkeep disk 0 d.out\nkeep disk 1 p.out\n"
        b"keep file 7 c.out\nkeep file 8 e.out\nkeep disk 1 d.out\n")

ONE = composite(4096, [("p", 0, False)])

ALIAS = composite(4096, [("p", 0, False), ("p", 2048, True)])


def cases():
    disk = counted(1024)
    held = disk[:100].ljust(4096, b"\0")
    files = {"plan": PLAN, "entropy": b""}
    yield case("each line", "what is kept is what the host held; of two lines of one name the last counts",
               dict(files, store=EACH, **{"d.bin": disk, "c.spec": ONE, "p": disk[:100], "c.bin": disk}),
               ran(SERVE, stored={"tape": tape(), "d.out": held, "p.out": held, "c.out": disk, "e.out": b""}))
    odd = dict(files, odd=counted(513), **{"c.spec": ONE, "alias": ALIAS})
    for at, (text, line, kind) in enumerate(LISTS):
        yield case(f"{kind} {at}", f"line {line} is refused as {kind}", dict(odd, store=text.encode()),
                   ran(SERVE, 4, b"", f"end 4 store {line} {kind}\n"))
    for text, name in MISSING:
        yield case(f"no {name}", "a file that isn't there", dict(odd, store=text.encode()), ran(SERVE, 3, b"", f"end 3 file {name}\n"))
    for words, name in (("serve none store entropy tape", "none"), ("serve plan none entropy tape", "none"),
                        ("serve plan store none tape", "none"), ("serve plan store entropy none/tape", "none/tape")):
        yield case(words, "a file that can't be loaded or stored", dict(files, store=b"store 1\n"), ran(words, 3, b"", f"end 3 file {name}\n"))
    yield case("bad frame", "a session that doesn't come to the end of its input stores nothing",
               dict(files, store=b"store 1\nempty 1\nkeep file 1 e.out\n"),
               ran(SERVE, 7, b"", "end 7 frame 0\n", b"\x10\0\0"))
    yield case("empty list", "no line", dict(files, store=b"store 1\n"), ran(SERVE, stored={"tape": tape()}))
