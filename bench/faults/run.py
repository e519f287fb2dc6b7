#!/usr/bin/env python3
"""Lets each call of an image file fail in turn, and damages bytes. README.md says what is tried and what is printed."""

import argparse
import collections
import os
import shutil
import struct
import sys
import tempfile

sys.path.insert(0, os.path.join(os.path.dirname(os.path.abspath(__file__)), "../crash"))
import runs
from runs import SECTOR, Model, Shape, plan_of, text_of

LEFT = "left-symmetric"
UUID = bytes.fromhex(runs.UUID.replace("-", ""))


def grow(text, old, shapes, size):
    return ("grow", text, plan_of(old, shapes, size))


def scripts():
    """Each script: its name, its lines, the sectors of a member and of the backup. The first is the one that each call's failure is asked of."""
    four, five = Shape(5, LEFT, 8, 4), Shape(5, LEFT, 8, 5)
    made = [("create", four, 40, 16), ("add", 4), ("write", 119, 1, 8)]
    ended = [("wait",), ("read", 118, 4), ("read", 159, 1)]
    yield "grow", made + [grow("disks=5", four, [five], 40)] + ended, 56, 104
    lines = made + [("flush",), ("write", 20, 30, 2), grow("disks=5", four, [five], 40), ("step", 3), ("write", 0, 9, 3), ("read", 0, 60)]
    yield "grow, flushed", lines + [("flush",)] + ended + [("write", 150, 5, 4), ("stop",)], 56, 104
    lines = [("create", five, 40, 16), ("write", 3, 90, 1), ("flush",), ("array-size", 120), grow("disks=4", five, [four], 40), ("step", 4)]
    yield "shrink", lines + [("write", 100, 9, 2), ("read", 90, 30), ("wait",), ("read", 0, 100), ("flush",), ("read", 100, 20)], 56, 104
    six = Shape(6, LEFT, 8, 5)
    lines = [("create", six, 48, 16), ("add", 5), ("write", 0, 128, 3), ("flush",), grow("chunk=16", six, [Shape(6, LEFT, 16, 5)], 48)]
    yield "in place", lines + [("step", 5), ("write", 2, 30, 4), ("read", 0, 128), ("flush",), ("wait",), ("read", 0, 128), ("stop",)], 64, 104
    took = Shape(6, LEFT + "-6", 8, 5)
    lines = [("create", four, 40, 16), ("add", 4), ("write", 0, 3, 1), ("flush",), grow("level=6 disks=5 layout=preserve", four, [took], 40)]
    lines += [("step", 2), ("write", 0, 1, 2), ("wait",), ("flush",), grow("level=5", took, [four], 40), ("wait",), ("read", 0, 4)]
    yield "takeover", lines + [("write", 1, 1, 5), ("flush",), ("read", 0, 4)], 56, 104


class Tried:
    """One script, each call of which fails in turn."""

    def __init__(self, place, name, lines, members, backup, options):
        self.place, self.name, self.lines, self.options = place, name, lines, options
        self.slots = [f"m{k}" for k in range(7)]
        self.sizes = {slot: members for slot in self.slots} | {"backup": backup}
        self.text = "".join(text_of(line) + "\n" for line in lines)
        self.counts = collections.Counter()

    def run(self, settings):
        for name, size in self.sizes.items():
            with open(self.place.path(name), "wb") as file:
                file.truncate(size * SECTOR)
        return self.place.run(self.text, self.slots, "backup", settings)

    def failed(self, run):
        """The files of which a call failed."""
        names, found = {}, set()
        for kind, file, _, _, data in run.records():
            if kind == runs.NAMED:
                names[file] = os.path.basename(data.decode())
            elif kind == runs.FAILED:
                found.add(names[file])
        return found

    def judge(self, run, wanted):
        """What is wrong about a run in which a call failed."""
        failed = self.failed(run)
        if run.status not in (0, 1) or len(run.replies) != len(self.lines):
            return [f"status {run.status}, {len(run.replies)} replies: {run.said}"]
        if (run.status == 1) != any("refused" in reply for reply in run.replies):
            return [f"status {run.status}"]
        wrong, model, same = [], Model(), True
        for name in failed:
            model.fault(name)
        for line, reply, own in zip(self.lines, run.replies, wanted):
            same = same and (line[0] != "write" or reply == own)
            if line[0] == "read" and same and reply != own and not reply.startswith("refused "):
                wrong.append(f"{text_of(line)}: {reply}")
            wrong += model.end(line, [reply])
            if line[0] == "create" and reply != "created":
                self.counts["not created"] += 1
                return wrong
        model.open()
        longest = max(model.lengths + ([model.plan["new"], model.plan["old"]] if model.plan else []))
        asked = [("assemble",)] + [("read", at, 8) for at in range(0, longest, 8)]
        after = self.place.run("".join(text_of(line) + "\n" for line in asked), self.slots, "backup", log=False)
        if after.replies and after.replies[0].startswith("refused"):
            if model.may_refuse(after.replies[0], 0):
                self.counts["then " + " ".join(after.replies[0].split()[:3])] += 1
                return wrong
            return wrong + ["then " + after.replies[0]]
        self.counts["then assembled"] += 1
        for line, reply in zip(asked, after.replies):
            wrong += ["then " + text for text in model.end(line, [reply])]
        return wrong

    def each(self, **settings):
        """Lets each call fail in turn, until a run meets no failure."""
        first = self.run({})
        wanted, number = first.replies, 0
        while True:
            run = self.run({"CALLS_FAIL": str(number)} | settings)
            if not self.failed(run):
                break
            self.counts["runs"] += 1
            self.counts["with status 0" if run.status == 0 else "with status 1"] += 1
            wrong = self.judge(run, wanted)
            if wrong:
                self.counts["wrong"] += 1
                print(f"WRONG {self.name}, call {number} {settings}: {'; '.join(wrong[:3])}")
            number += self.options.every
        told = ", ".join(f"{what} {count}" for what, count in sorted(self.counts.items()))
        print(f"{self.name}, {' '.join(settings) or 'one call'}: {told}", flush=True)
        wrong, self.counts = self.counts["wrong"], collections.Counter()
        return wrong


    def pieces(self):
        """Lets calls move a part only, or be interrupted. Each run's replies and files must be those of the run without."""
        first = self.run({})
        files, wrong = self.place.get(self.sizes), 0
        for settings in {"CALLS_SHORT": "512"}, {"CALLS_SHORT": "700"}, {"CALLS_SHORT": "1600"}, {"CALLS_BROKEN": "2"}, {"CALLS_BROKEN": "3", "CALLS_SHORT": "512"}:
            run = self.run(settings)
            if run.replies != first.replies or run.status != first.status or self.place.get(self.sizes) != files:
                wrong += 1
                print(f"WRONG {self.name} {settings}: status {run.status}")
        print(f"{self.name}, short or interrupted calls: 5 runs, {wrong} wrong", flush=True)
        return wrong


def sum_of(head):
    """The checksum of a superblock of two sectors."""
    count = 256 + 2 * struct.unpack_from("<I", head, 220)[0]
    data = bytearray(head[:count])
    data[216:220] = bytes(4)
    total = sum(struct.unpack_from("<I", data, at)[0] for at in range(0, count - 3, 4))
    if count % 4:
        total += struct.unpack_from("<H", data, count - 2)[0]
    return ((total & 0xFFFFFFFF) + (total >> 32)) & 0xFFFFFFFF


def damaged(place, options):
    """The files of an array that was halted in a window, changed in one place each, and assembled."""
    four, five = Shape(5, LEFT, 8, 4), Shape(5, LEFT, 8, 5)
    lines = [("create", four, 128, 16), ("add", 4), ("write", 0, 96, 3), ("flush",), grow("disks=5", four, [five], 128), ("step", 4), ("halt",)]
    slots = [f"m{k}" for k in range(7)]
    for name in slots + ["backup"]:
        with open(place.path(name), "wb") as file:
            file.truncate((104 if name == "backup" else 144) * SECTOR)
    run = place.run("".join(text_of(line) + "\n" for line in lines), slots, "backup", log=False)
    files = place.get(slots + ["backup"])

    def put(offset, form, value, **more):
        def change(head):
            struct.pack_into(form, head, offset, value)

        return change

    def flip(head):
        head[0] ^= 1

    def other(at):
        def change(head):
            head[at] ^= 0x40

        return change

    def lower(head):
        struct.pack_into("<Q", head, 200, struct.unpack_from("<Q", head, 200)[0] - 2)

    def more(head):
        struct.pack_into("<I", head, 8, struct.unpack_from("<I", head, 8)[0] | 512)

    found = "assembled level 5 disks 5 chunk 8 size 128 layout left-symmetric visible 384 left {}"
    table = [
        ("nothing", "m0", None, found.format(24), None),
        ("slot 1: a bit of the magic", "m1", flip, found.format(24), 1),
        ("slot 3: another uuid", "m3", other(16), found.format(24), 3),
        ("slot 2: two events fewer", "m2", lower, found.format(24), 2),
        ("slot 0: level 4", "m0", put(72, "<I", 4), "refused 22 BadField 72", None),
        ("slot 2: feature bit 512 besides", "m2", more, "refused 21 Unsupported 512", None),
        ("slot 0: position 40", "m0", put(104, "<Q", 40), "refused 26 PositionNotOnUnit 40 96", None),
        ("backup: another uuid", "backup", other(16), found.format(25), None),
        ("backup: length 95", "backup", put(56, "<Q", 95), found.format(25), None),
    ]
    wrong = int(run.status != 0)
    for what, name, change, wanted, missing in table:
        content = bytearray(files[name])
        at = 0 if name == "backup" else 8 * SECTOR
        head = content[at : at + 2 * SECTOR]
        if change:
            change(head)
        if name != "backup":
            struct.pack_into("<I", head, 216, sum_of(head))
        content[at : at + 2 * SECTOR] = head
        place.put(files | {name: bytes(content)})
        text = f"assemble\ndetail\n" + "".join(f"read {x} 8\n" for x in range(0, 384, 8))
        run = place.run(text, slots, "backup", log=False)
        told = [int(reply.split()[1]) for reply in run.replies if reply.startswith("role ") and reply.endswith(" missing")]
        reads = [reply for reply in run.replies if reply.startswith("read ")]
        good = run.replies[0] == wanted and told == ([missing] if missing is not None else [])
        if wanted.startswith("assembled"):
            own = ["seed 3 x8"] * 12 + ["zero x8"] * 36
            # (with no window held nothing is known of the 48 sectors whose places the two copies took)
            known = 6 if name == "backup" else 0
            good = good and [reply.split(": ", 1)[1] for reply in reads][known:] == own[known:]
        wrong += not good
        print(f"{what}: {run.replies[0]}{''.join(f', role {role} missing' for role in told)}: {'as wanted' if good else 'WRONG'}")
    return wrong


def texts(place):
    """Two scripts with a bad line."""
    wrong = 0
    for text, number in ("together\na: read 0 1\n", 3), ("write 0 1 4294967296\n", 1):
        run = place.run(text, ["m0"], None, log=False)
        good = run.status == 3 and run.said.startswith(f"mdgrow: bad line {number}\n") and not run.replies
        wrong += not good
        print(f"bad line {number}: {'as wanted' if good else 'WRONG'}")
    return wrong


def main():
    parser = argparse.ArgumentParser(description=__doc__)
    parser.add_argument("--program", help="the program, that of the gate if none is named")
    parser.add_argument("--scripts", default="", help="some of the scripts, by name, with commas between")
    parser.add_argument("--every", type=int, default=1, help="let only each so many-th call fail")
    parser.add_argument("--pieces", action="store_true", help="short and interrupted calls alone")
    parser.add_argument("--damaged", action="store_true", help="damaged bytes and bad lines alone, which want no gcc")
    parser.add_argument("--pretend", choices=["silent"], help="what fails isn't done, but answers as if it were")
    options = parser.parse_args()
    work = tempfile.mkdtemp(prefix="faults.", dir="/dev/shm" if os.path.isdir("/dev/shm") else None)
    wrong = 0
    try:
        library = None if options.damaged else runs.build_library(work)
        place = runs.Place(os.path.join(work, "files"), runs.program_of(options.program), library)
        wrong += damaged(place, options)
        wrong += texts(place)
        for name, lines, members, backup in scripts():
            if options.damaged or options.scripts and name not in options.scripts.split(","):
                continue
            tried = Tried(place, name, lines, members, backup, options)
            if options.pretend:
                wrong += tried.each(CALLS_FAIL_SILENT="1")
                continue
            wrong += tried.pieces()
            if options.pieces:
                continue
            wrong += tried.each()
            wrong += tried.each(CALLS_FAIL_DONE="1")
            wrong += tried.each(CALLS_FAIL_ON="1")
    finally:
        shutil.rmtree(work)
    print(f"wrong in all: {wrong}")
    sys.exit(1 if wrong else 0)


if __name__ == "__main__":
    main()
