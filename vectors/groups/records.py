"""Records of an instance image: sealed, written, read again, and bent by the host."""
import hashlib
import hmac
import struct
import uuid

from lib.devices import DONE, FAILED, Device, number, told
from models import SECTOR, Table, case, composite, counted, idsig, ran, reply, request, tape

ORIGIN = ("Sealed forms by Python's cryptography (AES-GCM) with keys by HKDF over hmac and hashlib, tables and composite files by models.py "
          "(docs/FORMATS.md: instance image, frames, log)")

SALT, SECRET = bytes(range(64)), bytes(range(100, 132))

ENTROPY = bytes(j % 251 for j in range(100, 1300))

A, B, C = (uuid.UUID(int=0xaa00 + n) for n in range(3))

GUID = uuid.uuid5(uuid.UUID(int=0), "disk")

KEYS = f"plan 1\nsecret {SECRET.hex()}\nsalt {SALT.hex()}\n"

PLAN = KEYS + "instance 0 vm\n"


def key_of(unique):
    """HKDF with SHA-256 (RFC 5869), one block of output."""
    first = hmac.new(SALT, SECRET, hashlib.sha256).digest()
    return hmac.new(first, b"guest-record" + unique.bytes + b"\1", hashlib.sha256).digest()


def header(unique, size, sectors):
    return struct.pack("<16sQI484x", unique.bytes, size, sectors)


def record(unique, text, sectors, nonce):
    """A header and its payload, with zeros up to a whole sector."""
    from cryptography.hazmat.primitives.ciphers.aead import AESGCM
    head = header(unique, 28 + len(text), sectors)
    payload = nonce + AESGCM(key_of(unique)).encrypt(nonce, text, head + SALT)
    return head + payload + bytes(-len(payload) % SECTOR)


def image(parts):
    """An image of partitions: UUID, sectors, and a text, where there is a record, with its nonce."""
    out = struct.pack("<19sxH64s426x", b"Android-VM-instance", 1, SALT)
    for unique, sectors, *sealed in parts:
        front = record(unique, sealed[0], sectors, sealed[1]) if sealed else header(unique, 0, sectors)
        out += front + bytes(SECTOR * (1 + sectors) - len(front))
    return out + bytes(-len(out) % 4096)


class Disk:
    """A disk with an image as its part `vm`, and the answers to the calls for it."""

    def __init__(self, parts):
        self.parts, self.image = parts, image(parts)
        self.table = Table(GUID, [("vm", uuid.uuid5(GUID, "vm"), len(self.image) // SECTOR)])
        self.bytes = self.table.head + self.image + self.table.tail

    def files(self, plan=PLAN, store="store 1\ndisk 0 disk.bin\n"):
        return {"plan": plan.encode(), "store": store.encode(), "disk.bin": self.bytes, "entropy": ENTROPY}

    def boot(self):
        """Table, first sector, headers, and the empty header that closes the list, where the image doesn't end there."""
        at, out = SECTOR, [number(self.table.sectors), told(self.table.head), told(self.table.tail), told(self.image[:SECTOR])]
        for _, sectors, *_ in self.parts:
            out.append(told(self.image[at:at + SECTOR]))
            at += SECTOR * (1 + sectors)
        return out + ([told(self.image[at:at + SECTOR])] if at < len(self.image) else [])


def framed(channel, payload):
    return struct.pack("<IBxxx", len(payload), channel) + payload


def get(unique):
    return framed(2, unique.bytes)


def put(unique, text):
    return framed(3, unique.bytes + text)


def code(channel, number):
    return framed(channel, struct.pack("<I", number))


def text(data):
    return framed(2, bytes(4) + data)


def nonce(puts):
    """The nonce of a put, by the number of those before it that took one."""
    return ENTROPY[12 * puts:12 * puts + 12]


EMPTY = Disk([(A, 4), (B, 4)])

FULL = Disk([(A, 4, b"hello", b"n" * 12), (B, 4, b"world", b"m" * 12)])


def served(name, why, disk, stream, replies, records, log="", status=0, kept=None, plan=PLAN, entropy=ENTROPY):
    """A session over the disk, whose tape is compared and played again; and what is kept of the disk."""
    keep = "keep disk 0 after.bin\n" if kept else ""
    files = dict(disk.files(plan, "store 1\ndisk 0 disk.bin\n" + keep), entropy=entropy)
    stored = dict({"tape": tape(*(disk.boot() + records))}, **({"after.bin": kept} if kept else {}))
    return case(name, why, files, ran("serve plan store entropy tape", status, replies, log, stream, stored),
                ran("replay plan tape entropy", status, replies, log, stream))


def changed(disk, unique, front):
    """The disk's bytes where the record of a UUID has these sectors in front."""
    at = 40 * SECTOR + SECTOR
    for other, sectors, *_ in disk.parts:
        if other == unique:
            return disk.bytes[:at] + front + disk.bytes[at + len(front):]
        at += SECTOR * (1 + sectors)
    raise KeyError(unique)


def heard(front, size):
    """The answer to a get of a payload of that many bytes."""
    return told(front[:SECTOR * (1 + -(-size // SECTOR))])


def sessions():
    hello = record(A, b"hello", 4, nonce(0))
    yield served("put and get", "an empty record, a put, its text, and the other record, which is empty still", EMPTY,
                 get(A) + put(A, b"hello") + get(A) + get(B), code(2, 2) + code(3, 0) + text(b"hello") + code(2, 2),
                 [DONE, heard(hello, 33)], kept=changed(EMPTY, A, hello))
    one, two = record(B, b"", 4, nonce(0)), record(B, counted(2020), 4, nonce(1))
    yield served("put twice", "an empty text, and then the longest that has room: each put has a nonce of its own", EMPTY,
                 put(B, b"") + get(B) + put(B, counted(2020)) + get(B), code(3, 0) + text(b"") + code(3, 0) + text(counted(2020)),
                 [DONE, heard(one, 28), DONE, heard(two, 2048)], kept=changed(EMPTY, B, two))
    yield served("texts that are there", "both records of an image that an earlier session wrote", FULL, get(B) + get(A),
                 text(b"world") + text(b"hello"), [heard(record(B, b"world", 4, b"m" * 12), 33), heard(record(A, b"hello", 4, b"n" * 12), 33)])
    yield served("no partition", "a UUID that isn't in the image", EMPTY, get(C) + put(C, b"x"), code(2, 2) + code(3, 2), [])
    yield case("no image", "a plan without an instance line", {"plan": b"plan 1\n", "tape": tape(), "entropy": ENTROPY},
               ran("replay plan tape entropy", 0, code(2, 2) + code(3, 2), "", get(A) + put(A, b"x")))
    small = Disk([(A, 1)])
    longest = record(A, counted(484), 1, nonce(0))
    yield served("room of one sector", "484 bytes fit, 485 don't; a text that doesn't fit takes no entropy", small,
                 put(A, counted(485)) + put(A, counted(484)) + get(A), code(3, 27) + code(3, 0) + text(counted(484)), [DONE, heard(longest, 512)])
    none = Disk([(A, 0), (B, 4)])
    yield served("no reserved sector", "no text fits", none, put(A, b"") + get(A), code(3, 27) + code(2, 2), [])
    wide = Disk([(A, 129)])
    full = record(A, counted(65536), 129, nonce(0))
    yield served("65,536 bytes", "the longest text, and one byte more", wide, put(A, counted(65537)) + put(A, counted(65536)) + get(A),
                 code(3, 27) + code(3, 0) + text(counted(65536)), [DONE, heard(full, 65564)])
    first = record(A, b"a", 4, nonce(0))
    yield served("entropy that runs out", "12 bytes for the first put, 11 are left; too long a text is refused before that", EMPTY,
                 put(A, b"a") + put(A, b"b") + put(A, counted(4000)) + put(C, b"c") + get(A),
                 code(3, 0) + code(3, 200) + code(3, 27) + code(3, 2) + text(b"a"), [DONE, heard(first, 29)], entropy=ENTROPY[:23])
    yield served("mixed with reads of items", "an item of channel 1 that isn't there, between gets", FULL, get(A) + request(0, 0, 1) + get(A),
                 text(b"hello") + reply(2) + text(b"hello"), 2 * [heard(record(A, b"hello", 4, b"n" * 12), 33)])


def bent(name, why, answer, log, stream=None, replies=None):
    """A replay in which the answer to a get of A's record, or to what the stream asks, is this one."""
    files = {"plan": PLAN.encode(), "tape": tape(*(FULL.boot() + [answer])), "entropy": ENTROPY}
    return case(name, why, files, ran("replay plan tape entropy", 0, replies or code(2, 5), log, stream or get(A)))


def bends():
    good = record(A, b"hello", 4, b"n" * 12)
    tag = good[SECTOR + 17:SECTOR + 33]
    for at in list(range(0, 28)) + [28, 300, 511] + list(range(SECTOR, SECTOR + 33)):
        flipped = good[:at] + bytes([good[at] ^ 1]) + good[at + 1:]
        found = flipped[SECTOR + 17:SECTOR + 33]
        log = "eio 0 changed 1\n" if at < 24 else f"eio 0 tag {found.hex()}\n"
        yield bent(f"byte {at} flipped", "one bit of the header or the payload is another", told(flipped), log)
    yield bent("zeros behind the payload", "what follows the payload isn't looked at", told(good[:-1] + b"x"), "", replies=text(b"hello"))
    other = record(B, b"world", 4, b"m" * 12)
    yield bent("another's record", "the record of another UUID, whole", told(other), "eio 0 changed 1\n")
    yield bent("another's payload", "the payload of another UUID under this header", told(good[:SECTOR] + other[SECTOR:]),
               f"eio 0 tag {other[SECTOR + 17:SECTOR + 33].hex()}\n")
    older = record(A, b"older", 4, b"o" * 12)
    yield bent("an older record", "of the same size: a host may put it back", told(older), "", replies=text(b"older"))
    yield bent("a longer record", "another size than the one that is kept", told(record(A, b"hello!", 4, b"n" * 12)), "eio 0 changed 1\n")
    yield bent("short", "one sector in place of two", told(good[:SECTOR]), "eio 0 short 1024 512\n")
    yield bent("no bytes", "none in place of two sectors", told(b""), "eio 0 short 1024 0\n")
    yield bent("failed", "the read fails", FAILED, "eio 0 failed 1\n")
    put_first = put(A, b"other")
    yield bent("put failed", "the write fails: what is kept is as it was", FAILED, "eio 0 failed 1\n", put_first, code(3, 5))
    files = {"plan": PLAN.encode(), "tape": tape(*(EMPTY.boot() + [FAILED, DONE, heard(record(A, b"two", 4, nonce(1)), 31)])), "entropy": ENTROPY}
    yield case("put failed and again", "a failed put has taken its entropy, and keeps no size", files,
               ran("replay plan tape entropy", 0, code(3, 5) + code(2, 2) + code(3, 0) + text(b"two"), "eio 0 failed 1\n",
                   put(A, b"one") + get(A) + put(A, b"two") + get(A)))


def refused(name, why, records, words, plan=PLAN, line=4):
    return case(name, why, {"plan": plan.encode(), "tape": tape(*records), "entropy": ENTROPY},
                ran("replay plan tape entropy", 8, b"", f"end 8 boot {line} {words}\n"))


def boots():
    table, first = EMPTY.boot()[:3], EMPTY.image[:SECTOR]
    yield refused("short first sector", "511 bytes", table + [told(first[:511])], "image short 512 511")
    yield refused("magic", "one byte of it", table + [told(b"a" + first[1:])], "image magic")
    yield refused("version", "2", table + [told(first[:20] + b"\2" + first[21:])], "image version 2")
    yield refused("not zero", "the first sector's last byte", table + [told(first[:511] + b"\1")], "image notzero 0")
    yield refused("another salt", "its last byte", table + [told(first[:85] + b"\0" + first[86:])], "image saltmismatch")
    yield refused("two rules", "magic and salt: the first is named", table + [told(b"a" + first[1:85] + b"\0" + first[86:])], "image magic")
    for name, head in (("reserved past the end", header(A, 0, 16)), ("27 bytes", header(A, 27, 4)), ("more than is reserved", header(A, 2049, 4)),
                       ("65,565 bytes", header(A, 65565, 4)), ("behind the fields", header(A, 0, 4)[:28] + b"\1" + bytes(483))):
        yield refused(f"header: {name}", "the first header breaks a rule", table + [told(first), told(head)], "image header 1")
    yield refused("header twice", "a UUID that stood before", table + [told(first), told(header(A, 0, 4)), told(header(A, 0, 4))], "image header 6")
    yield refused("short header", "none of it", table + [told(first), told(b"")], "image short 512 0")
    yield refused("failed at the image", "the first sector", table + [FAILED], "image failed 1")
    yield refused("failed at the table", "the size of the disk", [FAILED], "failed 1")
    yield refused("no part", "the disk has none of this name", table, "nopart other", KEYS + "instance 0 other\n")
    device = Device(counted(8192))
    blob = f"blob 7 2 - {device.root.hex()}\n"
    yield refused("first, wherever it stands", "the image is opened before the lines above it", table + [told(first[:511])], "image short 512 511",
                  f"plan 1\n{blob}instance 0 vm\nsecret {SECRET.hex()}\nsalt {SALT.hex()}\n", 3)
    many = [(uuid.UUID(int=1000 + n), 0) for n in range(257)]
    crowd = Disk(many)
    yield refused("257 headers", "one more than an image has", crowd.boot()[:4 + 257], "image toomany 257")
    most = Disk(many[:256])
    yield case("256 headers", "as many as an image has; the list ends with zeros", {"plan": PLAN.encode(), "tape": tape(*most.boot()), "entropy": b""},
               ran("replay plan tape entropy", 0, code(2, 2), "", get(many[0][0])))
    closed = struct.pack("<16sQI484x", bytes(16), 5, 5)
    yield case("list closed by a nil UUID", "whatever else that header holds", {"plan": PLAN.encode(), "tape": tape(*(table + [told(first), told(closed)])), "entropy": b""},
               ran("replay plan tape entropy", 0, code(2, 2), "", get(A)))


def twice():
    """Two sessions in a row, the image made by mkguest and put on a composite disk; the second reads what the first put."""
    lst = f"image 1\nsalt {SALT.hex()}\npart {A} 4\npart {B} 4\n"
    made, table, hello = EMPTY.image, EMPTY.table, record(A, b"hello", 4, nonce(0))
    spec = composite(len(EMPTY.bytes), [("disk.head", 0, False), ("vm.img", 20480, True), ("disk.tail", 20480 + len(made), False)])
    boot = EMPTY.boot()
    later = boot[:4] + [told(hello[:SECTOR])] + boot[5:] + [heard(hello, 33)]
    files = {"images": lst.encode(), "parts": b"parts 1\npart vm rw vm.img\n", "plan": PLAN.encode(), "entropy": ENTROPY,
             "store": b"store 1\ncomposite 0 disk\nkeep disk 0 after.bin\n", "again": b"store 1\ndisk 0 after.bin\n"}
    yield case("two sessions", "what is put in the first is got in the second", files,
               ran("instance images vm.img", stored={"vm.img": made}, program="mkguest"),
               ran("composite parts disk", stored={"disk": spec, "disk.head": table.head, "disk.tail": table.tail}, program="mkguest"),
               ran("serve plan store entropy tape", 0, code(3, 0), "", put(A, b"hello"), {"after.bin": changed(EMPTY, A, hello), "tape": tape(*boot, DONE)}),
               ran("serve plan again entropy tape", 0, text(b"hello") + code(2, 2), "", get(A) + get(B), {"tape": tape(*later)}))


class ApkWithImage:
    """A disk with an APK, its idsig and an image, and the answers to the calls of its boot."""

    def __init__(self, device, parts):
        self.parts, self.image, self.idsig = parts, image(parts), idsig(device)
        sizes = [len(device.content), -(-len(self.idsig) // SECTOR) * SECTOR, len(self.image)]
        self.table = Table(GUID, [(name, uuid.uuid5(GUID, name), size // SECTOR) for name, size in zip(("apk", "idsig", "vm"), sizes)])
        self.front = self.idsig.ljust(sizes[1], b"\0")
        self.bytes = self.table.head + device.content + self.front + self.image + self.table.tail

    def boot(self):
        """The instance line's calls: the table, and the image as `Disk` has it."""
        at, out = SECTOR, [number(self.table.sectors), told(self.table.head), told(self.table.tail), told(self.image[:SECTOR])]
        for _, sectors, *_ in self.parts:
            out.append(told(self.image[at:at + SECTOR]))
            at += SECTOR * (1 + sectors)
        return out + ([told(self.image[at:at + SECTOR])] if at < len(self.image) else [])


def measure(device):
    """The text that a record keeps of a measure."""
    return f"{len(device.levels[0])} {device.salt.hex() or '-'} {device.root.hex()}".encode()


APK = Device(counted(3 * 4096), b"\x2a")

KEPT = PLAN + f"apk 0 apk idsig record {A}\n"


def measures():
    """APKs whose measure is in a record: put where it is empty, and got where it isn't."""
    said = measure(APK)
    empty, store = ApkWithImage(APK, [(A, 4), (B, 4)]), b"store 1\ndisk 0 disk.bin\nkeep disk 0 after.bin\n"
    put_first = record(A, said, 4, nonce(0))
    full = ApkWithImage(APK, [(A, 4, said, nonce(0)), (B, 4)])
    size = 28 + len(said)
    read = request(0, 4090, 12) + get(A) + get(B)
    answers = reply(0, APK.content[4090:4102]) + text(said) + code(2, 2)

    def pages(at, count):
        first = 40 * SECTOR
        for level, index, _ in APK.pages(at, count):
            place = first + 4096 * index if level == 0 else first + len(APK.content) + 61 + 1
            yield told(empty.bytes[place // SECTOR * SECTOR:-(-(place + 4096) // SECTOR) * SECTOR])

    files = {"plan": KEPT.encode(), "store": store, "again": b"store 1\ndisk 0 after.bin\n", "disk.bin": empty.bytes, "entropy": ENTROPY[:12], "none": b""}
    begun = empty.boot() + [told(empty.front), DONE] + list(pages(4090, 12)) + [heard(put_first, size)]
    later = full.boot() + [heard(put_first, size), told(full.front)] + list(pages(4090, 12)) + [heard(put_first, size)]
    yield case("measure in a record", "the first boot puts the measure of the APK, with the twelve bytes of entropy; the second gets it, and needs none", files,
               ran("serve plan store entropy tape", 0, answers, "", read, {"after.bin": full.bytes, "tape": tape(*begun)}),
               ran("serve plan again none tape", 0, answers, "", read, {"tape": tape(*later)}),
               ran("replay plan tape none", 0, answers, "", read))
    two = KEPT + f"apk 0 apk idsig record {A}\n"
    yield case("two lines of one record", "the first puts its measure, the second gets it", {"plan": two.encode(), "entropy": ENTROPY[:12],
               "tape": tape(*(empty.boot() + [told(empty.front), DONE, heard(put_first, size), told(empty.front)]))},
               ran("replay plan tape entropy", 0, code(2, 5), "eio 0 failed 1\n", get(A)))

    def told_as(name, why, records, words, plan=KEPT, entropy=ENTROPY, line=5):
        return case(name, why, {"plan": plan.encode(), "tape": tape(*records), "entropy": entropy},
                    ran("replay plan tape entropy", 8, b"", f"end 8 boot {line} {words}\n"))

    opened = empty.boot() + [told(empty.front)]
    yield told_as("eleven bytes of entropy", "one fewer than a put takes: nothing is written", opened, "noentropy 11", entropy=ENTROPY[:11])
    yield told_as("write of a measure fails", "the record stays empty", opened + [FAILED], "put failed 1")
    none = ApkWithImage(APK, [(A, 0)])
    yield told_as("no room for a measure", "the partition has no sector: told before the entropy is looked at", none.boot() + [told(none.front)],
                  f"put toolarge {len(said)} 0", entropy=b"")
    yield told_as("no such record", "a UUID that the image lacks: told before the APK is opened", empty.boot(), "get norecord",
                  PLAN + f"apk 0 apk idsig record {C}\n")
    yield told_as("no part before the record", "a part and a UUID that aren't there: the part is told", empty.boot(), "nopart nope",
                  PLAN + f"apk 0 nope idsig record {C}\n")
    yield told_as("refused before it is put", "the APK is opened first: its idsig is bent, and there is no entropy", empty.boot() + [told(b"\3" + empty.front[1:])],
                  "apk idsig version 3", entropy=b"")
    yield told_as("get of a measure fails", "the read of the record", full.boot() + [FAILED], "get failed 1")
    yield told_as("measure came short", "one sector in place of two", full.boot() + [told(put_first[:SECTOR])], "get short 1024 512")
    flipped = put_first[:SECTOR + 20] + bytes([put_first[SECTOR + 20] ^ 1]) + put_first[SECTOR + 21:]
    yield told_as("measure with another tag", "one bit of the sealed text", full.boot() + [heard(flipped, size)],
                  f"get tag {put_first[SECTOR + size - 16:SECTOR + size].hex()}")
    yield told_as("measure under another header", "another size than the kept one", full.boot() + [heard(record(A, said + b"x", 4, nonce(0)), size)], "get changed 1")
    for name, words in (("no measure", b"hello"), ("line feed behind a measure", said + b"\n"), ("one block", said.replace(b"3 ", b"1 ", 1)),
                        ("no salt said", said.replace(b" 2a ", b"  ", 1)), ("capital digits", said.upper())):
        other = record(A, words, 4, nonce(0))
        disk = ApkWithImage(APK, [(A, 4, words, nonce(0))])
        yield told_as(f"text: {name}", "a text that isn't that of a measure", disk.boot() + [heard(other, 28 + len(words))], "measuretext")
    changed_apk = Device(counted(3 * 4096, 1), b"\x2a")
    fresh = ApkWithImage(changed_apk, [(A, 4, said, nonce(0)), (B, 4)])
    yield told_as("another APK", "the record's measure isn't the idsig's: the root", fresh.boot() + [heard(put_first, size), told(fresh.front)],
                  f"apk rootmismatch {APK.root.hex()} {changed_apk.root.hex()}")
    salted = Device(counted(3 * 4096), b"\x2b")
    fresh = ApkWithImage(salted, [(A, 4, said, nonce(0)), (B, 4)])
    yield told_as("another salt of the APK", "the record's measure isn't the idsig's: the salt", fresh.boot() + [heard(put_first, size), told(fresh.front)],
                  "apk saltmismatch")


def cases():
    yield from sessions()
    yield from measures()
    yield from bends()
    yield from boots()
    yield from twice()
