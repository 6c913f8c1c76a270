"""Plans that are in no grammar: the first bad line, and the first rule that it breaks."""
from models import case, ran, tape

ORIGIN = "The order of the grammar's rules, by hand (docs/FORMATS.md: rules of all texts, plan)"

ZEROS = 64 * "0"

UUID = "0fc63daf-8483-4772-8e79-3d69d8477de4"

BAD = (
    ("", 1, "end"),
    ("plan 1", 1, "end"),
    ("plan 2\n", 1, "header"),
    ("plan 1\nwrite a 1", 2, "end"),
    ("plan 1\n\n", 2, "word"),
    ("plan 1\nsecret 00 00\n", 2, "fields"),
    ("plan 1\nwrite a 1 \n", 2, "fields"),
    ("plan 1\nwrite a  1\n", 2, "fields"),
    ("plan 1\nwrite a 01\n", 2, "number"),
    ("plan 1\nwrite a +7\n", 2, "number"),
    ("plan 1\nwrite a \n", 2, "number"),
    ("plan 1\nwrite a 2147483648\n", 2, "range"),
    ("plan 1\nwrite a 99999999999999999999999\n", 2, "range"),
    ("plan 1\nblob 7 1 - 00\n", 2, "range"),
    (f"plan 1\nblob 7 1 - {ZEROS}\n", 2, "range"),
    (f"plan 1\nblob 7 1048577 - {ZEROS}\n", 2, "range"),
    ("plan 1\nblob 7 2 - 00\n", 2, "hex"),
    ("plan 1\nblob 7 2 AB 00\n", 2, "hex"),
    (f"plan 1\nblob 7 2 abc {ZEROS}\n", 2, "hex"),
    ("plan 1\nfile a 2 00\n", 2, "hex"),
    ("plan 1\nwrite a/b 1\n", 2, "name"),
    ("plan 1\nwrite .. 1\n", 2, "name"),
    ("plan 1\nwrite a 1\nwrite a 2\n", 3, "twice"),
    ("plan 1\nwrite a 1\nwritedir b 1\n", 3, "twice"),
    ("plan 1\ninstance 0 a\ninstance 0 b\n", 3, "twice"),
    ("plan 1\nwrite a 1\ninstance 0 vm\n", 3, "missing"),
    ("plan 1\napk 0 a b\n", 2, "fields"),
    ("plan 1\napk 0 a b other x\n", 2, "word"),
    ("plan 1\napk 0 a b first x\n", 2, "fields"),
    ("plan 1\napk 0 a b record 0\n", 2, "uuid"),
    (f"plan 1\napk 0 a b record {UUID}\n", 2, "missing"),
    ("plan 1\n" + 4096 * "apk 0 a b first\n", 4097, "lines"),
)

# Each form of a line, up to the first that isn't served yet.
GOOD = (f"plan 1\nblob 7 1048576 - {ZEROS}\napk 0 a b fixed 299 ab {ZEROS}\napk 0 a b first\nfile r 2147483647 {ZEROS}\n"
        f"apk 1 c .. record {UUID}\ninstance 2 vm\nwrite a.bin 3\nwritedir d 4\nsalt {ZEROS}{ZEROS}\nsecret {ZEROS}\n")


def cases():
    files = {"tape": tape(), "entropy": b""}
    for at, (text, line, kind) in enumerate(BAD):
        yield case(f"{kind} {at}", f"line {line} is refused as {kind}", dict(files, plan=text.encode()),
                   ran("replay plan tape entropy", 2, b"", f"end 2 plan {line} {kind}\n"))
    yield case("each form", "in the grammar: what ends the run is the first line that isn't served yet", dict(files, plan=GOOD.encode()),
               ran("replay plan tape entropy", 12, b"", "end 12 unbuilt plan 9\n"))
    yield case("header alone", "a plan without lines is served", dict(files, plan=b"plan 1\n"), ran("replay plan tape entropy"))
