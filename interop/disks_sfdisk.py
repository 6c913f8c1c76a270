"""Partition tables beside sfdisk: it finds no error on the disks that we write and reads their entries, and we read its own."""
import json
import subprocess

from lib.disks import DISK, LENGTHS, blank, spoiled, table, written
from lib.frame import check, program, run, same, tool


def listed(theirs, disk):
    """What sfdisk reads."""
    found = json.loads(run(theirs, "--json", disk))["partitiontable"]
    entries = [(it["type"].lower(), it.get("uuid", "").lower(), it["start"], it["start"] + it["size"] - 1, it.get("name", ""))
               for it in found["partitions"]]
    return found["id"].lower(), entries


def body():
    _, theirs = program("test_formats"), tool("sfdisk")
    for lengths in LENGTHS:
        disk, entries = written(lengths)
        said = run(theirs, "--verify", disk, quiet=True)
        same(f"sfdisk --verify, {lengths}", "No errors detected" in said, True)
        for copy in (disk, spoiled(disk)):
            same(f"what sfdisk reads of {copy}, {lengths}", (DISK, entries), listed(theirs, copy))
    disk = blank("their", 16)
    script = b"label: gpt\nsize=1M, type=L, name=apk\nsize=3M, type=U, name=idsig\ntype=L\n"
    subprocess.run([theirs, "--quiet", disk], input=script, check=True, capture_output=True)
    for copy in (disk, spoiled(disk)):
        same(f"what we read of sfdisk's {copy}", table(copy), listed(theirs, disk))


check(body)
