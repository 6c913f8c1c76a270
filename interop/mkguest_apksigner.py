"""mkguest idsig and guest serve beside apksigner: its idsigs are ours but for the signing information, and open over a disk."""
import struct
import subprocess
import zipfile

from lib.devices import reply, request
from lib.frame import check, content, program, read, run, same, tool, write

SIZES = (1, 100_000, 528_384, 1_228_800)

DAY = (2020, 1, 1, 0, 0, 0)


def package(size):
    """An archive with two uncompressed files, of which the second has this size."""
    with zipfile.ZipFile("unsigned.apk", "w") as archive:
        archive.writestr(zipfile.ZipInfo("AndroidManifest.xml", DAY), b"manifest")
        archive.writestr(zipfile.ZipInfo("assets/data.bin", DAY), content(size))


def sized(data, at):
    """The bytes behind their size of four bytes, and where they end."""
    size, = struct.unpack_from("<i", data, at)
    return data[at + 4:at + 4 + size], at + 4 + size


def split(data):
    """Version and hashing information, signing information, and the tree with all that follows."""
    _, at = sized(data, 4)
    signing, end = sized(data, at)
    return data[:at], signing, data[end:]


def served(ours, line, apk):
    """Reads around each border of the device, over a disk with the package and apksigner's idsig."""
    write("plan", f"plan 1\napk 0 app idsig {line}\n".encode())
    device = apk + bytes(-len(apk) % 4096)
    reads = [(0, 10), (4090, 12), (len(apk) - 5, 10), (len(device) - 4096, 8192), (0, 131_072)]
    frames = b"".join(request(at, size) for at, size in reads)
    done = subprocess.run([ours, "serve", "plan", "store", "entropy", "tape"], input=frames, capture_output=True, timeout=300)
    same("the log", done.stderr.decode(errors="replace"), "")
    same("the replies", done.stdout, b"".join(reply(0, device[at:at + size]) for at, size in reads))
    same("the status", done.returncode, 0)


def body():
    maker, guest, theirs, keys = program("mkguest"), program("guest"), tool("apksigner"), tool("openssl")
    run(keys, "req", "-x509", "-newkey", "rsa:2048", "-nodes", "-keyout", "key.pem", "-out", "cert.pem", "-days", "36500", "-subj", "/CN=interop")
    run(keys, "pkcs8", "-topk8", "-inform", "PEM", "-outform", "DER", "-in", "key.pem", "-out", "key.pk8", "-nocrypt")
    write("entropy", b"")
    write("parts", b"parts 1\npart app ro app.apk\npart idsig ro app.apk.idsig\n")
    write("store", b"store 1\ncomposite 0 disk\n")
    for size in SIZES:
        package(size)
        run(theirs, "sign", "--min-sdk-version", "30", "--v4-signing-enabled", "true", "--key", "key.pk8", "--cert", "cert.pem", "--out", "app.apk", "unsigned.apk")
        run(maker, "idsig", "app.apk", "-", "ours.idsig")
        (head, _, tree), (their_head, signing, their_tree) = split(read("ours.idsig")), split(read("app.apk.idsig"))
        same(f"{size} bytes: hashing information", head, their_head)
        same(f"{size} bytes: tree", tree, their_tree)
        same(f"{size} bytes: signing information is there", len(signing) > 0, True)
        run(maker, "composite", "parts", "disk")
        measure = run(maker, "measure", "app.apk", "-").splitlines()[0].removeprefix("measure ")
        for line in ("first", f"fixed {measure}"):
            served(guest, line, read("app.apk"))


check(body)
