"""Instance images that mkguest makes of lists of partitions, and what it refuses."""
import struct
import uuid

from models import SECTOR, case, ran

ORIGIN = ("Images by struct, UUIDs by Python's uuid, refusals written out (docs/FORMATS.md: list of an image's partitions, instance "
          "image, the kinds of faults and their order)")

SALT = bytes(range(64))

A = uuid.UUID("00112233-4455-6677-8899-aabbccddeeff")

B = uuid.UUID("f7e3985a-bc56-50e0-9464-8666343dc1b0")

NIL = uuid.UUID(int=0)

HEAD = f"image 1\nsalt {SALT.hex()}\n"

MOST = 1048576


def image(parts, salt=SALT):
    """The disk header, a header and zeros for each partition, and zeros up to a multiple of 4096."""
    out = [struct.pack("<19sxH64s426x", b"Android-VM-instance", 1, salt)]
    for unique, sectors in parts:
        out += [struct.pack("<16sQI484x", unique.bytes, 0, sectors), bytes(SECTOR * sectors)]
    data = b"".join(out)
    return data + bytes(-len(data) % 4096)


def lines(parts):
    return "".join(f"part {unique} {sectors}\n" for unique, sectors in parts)


def many(count, sectors=1):
    return [(uuid.UUID(int=1000 + i), sectors) for i in range(count)]


def made(name, why, parts, salt=SALT):
    return case(name, why, {"list": f"image 1\nsalt {salt.hex()}\n{lines(parts)}"},
                ran("instance list out", stored={"out": image(parts, salt)}, program="mkguest"))


def refused(name, why, text, status, words):
    return case(name, why, {"list": text, "out": "as before"}, ran("instance list out", status, f"end {status} {words}\n".encode(), program="mkguest"))


def images():
    two = [(A, 4), (B, 4)]
    used = SECTOR * (1 + sum(1 + sectors for _, sectors in two))
    assert (used, len(image(two))) == (5632, 8192)
    assert image(two)[6 * SECTOR:6 * SECTOR + 16] == B.bytes
    yield made("two partitions", "4 sectors each: 5,632 bytes are used, 8,192 stored", two)
    yield made("one sector", "the smallest image, 3 sectors used", [(A, 1)])
    yield made("whole blocks", "8 sectors used, so no zeros behind them", [(A, 6)])
    yield made("a sector more", "9 sectors used, 16 stored", [(A, 7)])
    yield made("zero salt", "a salt of zeros, and a UUID of ones", [(uuid.UUID(int=2 ** 128 - 1), 2)], bytes(64))
    yield made("most partitions", "256 of them", many(256))
    yield case("OUT is replaced", "what stood there before is longer", {"list": HEAD + lines(two), "out": bytes(20000)},
               ran("instance list out", stored={"out": image(two)}, program="mkguest"))
    yield case("OUT is the list", "the list was loaded before OUT is stored", {"list": HEAD + lines(two)},
               ran("instance list list", stored={"list": image(two)}, program="mkguest"))


def unfit():
    yield refused("no partitions", "a list that has its salt alone", HEAD, 11, "unfit noparts")
    yield refused("a partition too many", "257 of them", HEAD + lines(many(257)), 11, "unfit toomany")
    yield refused("a sector too many", "1 + 1,048,577 + 1,048,575 sectors, one above 2^21", HEAD + lines([(A, MOST), (B, MOST - 2)]), 11, "unfit toomany")


LONG = "1" + 40 * "0"

TEXTS = (
    ("empty", "no line", "", 1, "end"),
    ("header", "that of another version", "image 2\n", 1, "header"),
    ("other list", "a list of parts", "parts 1\n", 1, "header"),
    ("header without its end", "End comes before Header", "image", 1, "end"),
    ("no salt", "the list ends behind its header", "image 1\n", 1, "missing"),
    ("partition first", "the second line is no salt", f"image 1\n{lines([(A, 4)])}salt {SALT.hex()}\n", 2, "word"),
    ("bad partition first", "the word comes before the count of fields", "image 1\npart\n", 2, "word"),
    ("empty second line", "the empty word", f"image 1\n\nsalt {SALT.hex()}\n", 2, "word"),
    ("salt alone", "no digits", "image 1\nsalt\n", 2, "fields"),
    ("salt of two fields", "one too many", f"image 1\nsalt {SALT.hex()} \n", 2, "fields"),
    ("short salt", "126 digits", f"image 1\nsalt {SALT.hex()[2:]}\n", 2, "hex"),
    ("long salt", "130 digits", f"image 1\nsalt {SALT.hex()}00\n", 2, "hex"),
    ("salt in upper case", "digits are in lower case", f"image 1\nsalt {SALT.hex().upper()}\n", 2, "hex"),
    ("salt without its end", "no line feed", f"image 1\nsalt {SALT.hex()}", 2, "end"),
    ("word", "one that no line begins with", f"{HEAD}parts {A} 4\n", 3, "word"),
    ("second salt", "in the last line", f"{HEAD}{lines([(A, 4)])}salt {SALT.hex()}\n", 4, "twice"),
    ("second salt that is none", "its digits come before Twice", f"{HEAD}salt 00\n", 3, "hex"),
    ("two fields", "no sectors", f"{HEAD}part {A}\n", 3, "fields"),
    ("four fields", "one too many", f"{HEAD}part {A} 4 4\n", 3, "fields"),
    ("UUID in upper case", "digits are in lower case", f"{HEAD}part {str(A).upper()} 4\n", 3, "uuid"),
    ("UUID without hyphens", "32 digits", f"{HEAD}part {A.hex} 4\n", 3, "uuid"),
    ("UUID before number", "fields from the left", f"{HEAD}part x y\n", 3, "uuid"),
    ("nil UUID", "it closes an image's list", f"{HEAD}part {NIL} 4\n", 3, "range"),
    ("nil UUID before number", "a field's range comes before the next one's form", f"{HEAD}part {NIL} x\n", 3, "range"),
    ("number", "a leading zero", f"{HEAD}part {A} 04\n", 3, "number"),
    ("sign", "a sign", f"{HEAD}part {A} +4\n", 3, "number"),
    ("no sectors", "a partition has at least one", f"{HEAD}part {A} 0\n", 3, "range"),
    ("a sector more than a partition has", "1,048,577", f"{HEAD}part {A} {MOST + 1}\n", 3, "range"),
    ("long number", "41 digits", f"{HEAD}part {A} {LONG}\n", 3, "range"),
    ("UUID twice", "with another size", f"{HEAD}{lines([(A, 4), (B, 4), (A, 5)])}", 5, "twice"),
    ("range before twice", "a UUID that stands before, and no sectors", f"{HEAD}{lines([(A, 4), (A, 0)])}", 4, "range"),
    ("first bad line", "two lines are bad", f"{HEAD}part {A} x\nword\n", 3, "number"),
    ("4,097 lines", "one more than a text may have", HEAD + lines(many(4095)), 4097, "lines"),
    ("text behind the last line", "no line feed", f"{HEAD}{lines([(A, 4)])}p", 4, "end"),
)


ONE = {"list": f"{HEAD}part {A} 4\n"}


def words():
    for wrong in ("instance list", "instance list out out", "instances list out"):
        yield case(f"words: {wrong}", "none of the forms", ONE, ran(wrong, 1, b"end 1 usage\n", program="mkguest"))
    yield case("no list", "a file that isn't there", {}, ran("instance list out", 3, b"end 3 file list\n", program="mkguest"))
    yield case("no folder for OUT", "a name below a folder that isn't there", ONE,
               ran("instance list other/out", 3, b"end 3 file other/out\n", program="mkguest"))
    long = "o" * 251
    yield case("long OUT", "251 bytes, which the OUT of a composite disk may not have", ONE,
               ran(f"instance list {long}", stored={long: image([(A, 4)])}, program="mkguest"))


def cases():
    yield from images()
    yield from unfit()
    for name, why, text, line, kind in TEXTS:
        yield refused(name, why, text, 2, f"list {line} {kind}")
    yield from words()
