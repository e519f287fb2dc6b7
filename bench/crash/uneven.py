#!/usr/bin/env python3
"""Shows the limit that docs/TESTED.md tells: an update that a stop cut off behind its first member, a run that makes no update, and that member away.

Two cases. In each the first run is stopped where the superblock of m0 is written and synced, and the others' not yet; the second run assembles and goes
on, and ends; then m0 is zeros, and what the third run reads is shown. Status 1 where it isn't what was flushed."""

import argparse
import os
import shutil
import sys
import tempfile

import runs
from runs import SECTOR, UUID

CASES = {
    "a row half-written": {
        "members": (3, 56),
        "first": [f"create {UUID} level=5 disks=3 chunk=8 size=40 offset=16", "write 0 16 3", "flush", "read 0 1", "write 0 1 4"],
        "second": ["assemble", "write 8 1 5"],
        "writes": 1,
        "third": ["assemble", "read 0 8"],
        "wanted": ["refused 25 DirtyDegraded 0", "refused 28 NotRunning"],
    },
    "a window behind the checkpoint": {
        "members": (5, 144),
        "first": [f"create {UUID} level=5 disks=4 chunk=8 size=128 offset=16", "add 4", "write 0 96 3", "flush", "grow disks=5", "step 5", "read 0 1", "step 1"],
        "second": ["assemble", "step 1", "stop"],
        "writes": None,
        "third": ["assemble", "read 0 96"],
        "wanted": [None, "read 0 96: seed 3 x96"],
    },
}


def left_of(run, files, count):
    """The files as they stand behind so many writes to them, or where none is told behind the first sync of m0's superblock that follows the read."""
    files, names, told, written, writes = {name: bytearray(content) for name, content in files.items()}, {}, False, False, 0
    for kind, file, offset, _, data in run.records():
        if kind == runs.NAMED:
            names[file] = os.path.basename(data.decode())
        elif kind == runs.SHOWN:
            told = told or data.startswith(b"read")
        elif kind == runs.WRITTEN:
            files[names[file]][offset : offset + len(data)] = data
            writes += 1
            written = written or told and names[file] == "m0" and offset == 8 * SECTOR
        elif kind == runs.SYNCED and count is None and written and names[file] == "m0":
            break
        if count is not None and writes == count:
            break
    return {name: bytes(content) for name, content in files.items()}


def main():
    parser = argparse.ArgumentParser(description=__doc__)
    parser.add_argument("--program", help="the program, that of the gate if none is named")
    options = parser.parse_args()
    work = tempfile.mkdtemp(prefix="uneven.", dir="/dev/shm")
    wrong = 0
    try:
        place = runs.Place(os.path.join(work, "files"), runs.program_of(options.program), runs.build_library(work))
        for name, case in CASES.items():
            slots = [f"m{k}" for k in range(case["members"][0])]
            files = {slot: bytes(case["members"][1] * SECTOR) for slot in slots} | {"backup": bytes(104 * SECTOR)}
            place.put(files)
            files = left_of(place.run("\n".join(case["first"]), slots, "backup"), files, None)
            place.put(files)
            second = place.run("\n".join(case["second"]), slots, "backup")
            files = left_of(second, files, case["writes"]) if case["writes"] else place.get(files)
            place.put(files | {"m0": bytes(len(files["m0"]))})
            third = place.run("\n".join(case["third"]), slots, "backup", log=False)
            good = all(want in (None, reply) for want, reply in zip(case["wanted"], third.replies))
            wrong += not good
            print(f"{name}: {'as it should be' if good else 'WRONG'}")
            for line, reply in zip(case["first"] + case["second"] + case["third"], [""] * len(case["first"]) + second.replies + third.replies):
                print(f"    {line}" + (f": {reply[:100]}" if reply else ""))
    finally:
        shutil.rmtree(work)
    sys.exit(1 if wrong else 0)


if __name__ == "__main__":
    main()
