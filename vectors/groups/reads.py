"""Measured reads over tapes."""
from lib.devices import DONE, FAILED, Device, told
from models import case, counted, ran, replayed, reply, request, tape

ORIGIN = "Digests by hashlib over the tree's definition; replies are slices of the content (docs/FORMATS.md: hash trees, frames, tape, log)"

BLOB = Device(counted(8192))

DEEP = Device(counted(129 * 4096))


def told_by(device, *reads):
    """The honest records of these reads."""
    return [told(page) for at, size in reads for _, _, page in device.pages(at, size)]


def log_of(device, at, level, index, page):
    good = device.levels[level][index]
    return f"eio {at} mismatch {level} {index} {device.hash(good).hex()} {device.hash(page).hex()}\n"


def asked(*reads):
    return b"".join(request(*read) for read in reads)


def blobs():
    plan, content = BLOB.plan(), BLOB.content
    honest = told_by(BLOB, (4090, 12))
    flipped = bytes([content[4096] ^ 1]) + content[4097:]
    stream = asked((0, 4090, 12))
    yield replayed("over a border", "twelve bytes of two blocks", plan, honest, stream, reply(0, content[4090:4102]))
    yield replayed("changed block", "one bit of the second block is flipped", plan, honest[:3] + [told(flipped)], stream, reply(5),
                   log=log_of(BLOB, 0, 0, 1, flipped))
    yield replayed("changed block later", "a read before it is answered", plan, told_by(BLOB, (0, 4)) + honest[:3] + [told(flipped)],
                   asked((0, 0, 4), (0, 4090, 12)), reply(0, content[:4]) + reply(5), log=log_of(BLOB, 24, 0, 1, flipped))
    yield replayed("tape at its end", "the second call has no record", plan, honest[:1], stream, reply(5), log="eio 0 failed 1\n")
    yield replayed("record of another kind", "Done in place of bytes", plan, [DONE] + honest[1:2], stream, reply(5), log="eio 0 failed 1\n")
    yield replayed("short block", "three bytes in place of a block", plan, [honest[0], told(flipped[:3])], asked((0, 4096, 1)), reply(5),
                   log="eio 0 short 4096 3\n")
    yield replayed("cut at the end", "a read past the end, and the longest read", plan, told_by(BLOB, (8190, 100), (0, 131072)),
                   asked((0, 8190, 100), (0, 0, 131072)), reply(0, content[8190:]) + reply(0, content))
    yield replayed("no call", "reads at and past the end and of no bytes; codes 22 and 2, of which 2 comes first", plan, [],
                   asked((0, 8192, 5), (0, 2**64 - 1, 1), (0, 0, 131073), (1, 0, 1), (1, 0, 131073), (0, 3, 0)),
                   reply(0) + reply(0) + reply(22) + reply(2) + reply(2) + reply(0))


def trees():
    plan, last = DEEP.plan(), DEEP.content[-4096:]
    stream = asked((0, 128 * 4096, 4096))
    yield replayed("two levels", "the last of 129 blocks: pages (2, 0), (1, 1) and the block", plan,
                   told_by(DEEP, (128 * 4096, 4096)), stream, reply(0, last))
    wrong = DEEP.hash(bytes(4096)).ljust(4096, b"\0")
    yield replayed("page of another block", "a page of the tree, and a block that fits it", plan,
                   [told(DEEP.levels[2][0]), told(wrong), told(bytes(4096))], stream, reply(5), log=log_of(DEEP, 0, 1, 1, wrong))
    wide = Device(bytes(16385 * 4096))
    spans = [(0, 4), (524286, 4), (67112956, 100)]
    yield replayed("three levels", "16,385 blocks of zeros: the first bytes, both sides of a page's border, the last ones", wide.plan(),
                   told_by(wide, *spans), asked(*((0, *span) for span in spans)), 3 * reply(0, bytes(4)))


def cuts():
    stream = asked((0, 0, 4), (0, 4, 4))
    replies = [reply(0, BLOB.content[:4]), reply(0, BLOB.content[4:8])]
    files = {"plan": BLOB.plan(), "tape": tape(*told_by(BLOB, (0, 4), (4, 4))), "entropy": b""}
    runs = []
    for cut in range(len(stream)):
        status, log = (0, "") if cut % 24 == 0 else (7, f"end 7 frame {cut // 24 * 24}\n")
        runs.append(ran("replay plan tape entropy", status, b"".join(replies[:cut // 24]), log, stream[:cut]))
    yield case("cut anywhere", "the first 0 to 47 bytes of two frames", files, *runs)


def bends():
    """Two reads of four calls each, where the answer to one call is failed, empty, or has a flipped bit."""
    spans = [(4090, 12), (0, 8192)]
    good = [reply(0, BLOB.content[at:at + size]) for at, size in spans]
    pages = [list(BLOB.pages(*span)) for span in spans]
    for call in range(8):
        read, at = divmod(call, 4)
        level, index, page = pages[read][at]
        flipped = bytes([page[0] ^ 1]) + page[1:]
        first = [told(it) for _, _, it in pages[0]]
        before, after = ([], [told(it) for _, _, it in pages[1]]) if read == 0 else (first, [])
        replies = [reply(5), good[1]] if read == 0 else [good[0], reply(5)]
        for kind, record, log in (("failed", FAILED, f"eio {24 * read} failed 1\n"), ("empty", told(b""), f"eio {24 * read} short 4096 0\n"),
                                  ("flipped", told(flipped), log_of(BLOB, 24 * read, level, index, flipped))):
            records = before + [told(it) for _, _, it in pages[read][:at]] + [record] + after
            yield replayed(f"call {call} {kind}", "one answer of two reads is bent: the other read is answered", BLOB.plan(), records,
                           asked(*((0, *span) for span in spans)), b"".join(replies), log=log)


def ends():
    plan, read = BLOB.plan(), asked((0, 4090, 12))
    files = {"plan": plan, "tape": tape(), "entropy": b""}
    for name, words, status, log in (("no words", "", 1, "end 1 usage\n"), ("no such soak", "soak 9", 1, "end 1 usage\n"),
                                     ("soak", "soak 1", 12, "end 12 unbuilt command 0\n"),
                                     ("no plan", "replay none tape entropy", 3, "end 3 file none\n"),
                                     ("no tape", "replay plan none entropy", 3, "end 3 file none\n"),
                                     ("no entropy", "replay plan tape none", 3, "end 3 file none\n")):
        yield case(name, "the words, and files that aren't there", files, ran(words, status, b"", log))
    for name, text, status, log in (("writable", b"plan 1\nwritedir w 3\n", 12, "end 12 unbuilt plan 2\n"),):
        yield case(name, "a line that isn't served yet", dict(files, plan=text), ran("replay plan tape entropy", status, b"", log))
    for name, text, log in (("no magic", b"", "end 4 tape 0\n"), ("cut record", tape(b"\3\2"), "end 4 tape 13\n")):
        yield case(name, "a tape that isn't in its grammar", dict(files, tape=text), ran("replay plan tape entropy", 4, b"", log))
    yield case("empty stream", "no frame", files, ran("replay plan tape entropy"))
    yield case("three bytes", "a stream of three bytes", files, ran("replay plan tape entropy", 7, b"", "end 7 frame 0\n", read[:3]))
    yield case("three bytes less", "a frame without its last three bytes", files,
               ran("replay plan tape entropy", 7, b"", "end 7 frame 0\n", read[:-3]))
    yield case("input that fails", "standard input is a folder", files, ran("replay plan tape entropy", 5, b"", "end 5 read\n", broken=["stdin"]))
    yield case("output that fails", "no space for the reply", files, ran("replay plan tape entropy", 6, b"", "", asked((1, 0, 1)), broken=["stdout"]))
    yield case("log that fails", "no space for the end line", files, ran("nothing", 6, broken=["stderr"]))
    yield case("log not needed", "no space in the log, and no line for it", files,
               ran("replay plan tape entropy", 0, reply(2), "", asked((1, 0, 1)), broken=["stderr"]))


def cases():
    for part in (blobs, trees, cuts, bends, ends):
        yield from part()
