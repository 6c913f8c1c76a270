"""Pages of 4096 bytes beside Python's hashlib: the SHA-256 of each."""
import hashlib

from lib.frame import check, content, printed, same, write


def body():
    for size in (0, 1, 4095, 4096, 4097, 131_072, 131_073, 1_000_000):
        data = content(size)
        pages = [data[at:at + 4096].ljust(4096, b"\0") for at in range(0, size, 4096)]
        both = hashlib.sha256(b"".join(hashlib.sha256(page).digest() for page in pages)).hexdigest()
        same(f"{size} bytes", printed([f"pages {write('file', data)}"]), f"{len(pages)} {both}\n")


check(body)
