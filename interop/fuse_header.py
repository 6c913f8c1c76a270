"""Layouts of FUSE structures, the operations' numbers and the error numbers beside the kernel's headers, as a C compiler
has them; and what test_formats prints of messages whose every byte tells its place."""
import os

from lib.frame import Skipped, check, printed, run, same, tool, write
from lib.fuse import DT_DIR, DT_REG, ERRNOS, OPERATIONS, STRUCTURES, answer, dirent, layout, request

HEADER = "/usr/include/linux/fuse.h"

NAMES = (1, 7, 8, 9, 16, 17, 255)

FRONT = """#include <stdio.h>
#include <stddef.h>
#include <errno.h>
#include <dirent.h>
#include <linux/fuse.h>
#define AT(s, f) printf(#s " " #f " %zu %zu\\n", offsetof(struct s, f), sizeof(((struct s *)0)->f))
int main(void) {
printf("version %d %d\\n", FUSE_KERNEL_VERSION, FUSE_KERNEL_MINOR_VERSION);
"""


def source():
    """A program that prints each size, each place with its bytes, and each number."""
    lines = []
    for name in STRUCTURES:
        _, fields = layout(name)
        lines.append(f'printf("{name} size %zu\\n", sizeof(struct {name}));')
        lines += [f"AT({name}, {field});" for field in fields]
    lines += [f'printf("{word} opcode %d\\n", FUSE_{word.upper()});' for word in OPERATIONS]
    lines += [f'printf("{word} errno %d\\n", {word});' for word in ERRNOS]
    lines += [f'printf("{word} %d\\n", {word});' for word in ("DT_DIR", "DT_REG")]
    lines += [f'printf("entry {n} %zu\\n", (size_t)FUSE_DIRENT_ALIGN(FUSE_NAME_OFFSET + {n}));' for n in NAMES]
    return (FRONT + "\n".join(lines) + "\nreturn 0; }\n").encode()


def modelled():
    """The same lines of the model. Of fuse_init_in only the fields are compared, because editions of it differ in size."""
    lines = []
    for name in STRUCTURES:
        size, fields = layout(name)
        lines.append(f"{name} size {size}")
        lines += [f"{name} {field} {at} {width}" for field, (at, width) in fields.items()]
    lines += [f"{word} opcode {it[0]}" for word, it in OPERATIONS.items()]
    lines += [f"{word} errno {number}" for word, number in ERRNOS.items()]
    lines += [f"DT_DIR {DT_DIR}", f"DT_REG {DT_REG}"]
    lines += [f"entry {n} {len(dirent(1, 1, DT_REG, bytes(n)))}" for n in NAMES]
    return [it for it in lines if not it.startswith("fuse_init_in size")]


def marked():
    """Requests in which each byte of the structure has a value of its own, and replies in which each field has."""
    for word, (opcode, structure, _, has_name) in OPERATIONS.items():
        body = bytearray(range(1, layout(structure)[0] + 1) if structure else b"")
        if word in ("read", "readdir", "write"):
            body[16:20] = (0x10203 if word != "write" else 3).to_bytes(4, "little")
        if word == "batch_forget":
            body[0:4] = (1).to_bytes(4, "little")
        tail = {"write": b"xyz", "batch_forget": bytes(range(16))}.get(word, b"name\0" if has_name else b"")
        yield "message " + request(opcode, bytes(body) + tail, 0x0102030405060708, 0x1112131415161718).hex()
    numbers = [0x0102030405060708, 0x1112131415161718, 0x2122232425262728, 0x3132333435363738, 0x41424344, 0x5152535455565758]
    for kind, count in (("entry", 5), ("opened", 2), ("created", 6)):
        yield f"reply {kind} " + " ".join(str(it) for it in numbers[:count])
    yield "reply attr " + " ".join(str(it) for it in numbers[:3] + numbers[4:5])
    yield f"reply written 1 {0x41424344}"
    yield "reply init 1 " + " ".join(str(it) for it in [0x01020304, 0x11121314, 0x21222324, 0x31323334, 0x4142, 0x5152, 0x61626364, 0x71727374])
    yield from (f"reply error 1 {number}" for number in ERRNOS.values())
    yield "reply statfs 1"
    yield "reply names 1 0 131072 61 62/ 636465666768696a6b"


def body():
    compiler = tool("gcc")
    if not os.path.exists(HEADER):
        raise Skipped(f"no {HEADER} (linux-libc-dev)")
    write("layout.c", source())
    run(compiler, "-o", "layout", "layout.c")
    version, *lines = run("./layout").splitlines()
    if tuple(int(it) for it in version.split()[1:]) < (7, 31):
        raise Skipped(f"{HEADER} of protocol 7.31 or later")
    same("layouts and numbers", modelled(), [it for it in lines if not it.startswith("fuse_init_in size")])
    lines = list(marked())
    same("what is printed", printed(lines).splitlines(), [answer(it) for it in lines])


check(body)
