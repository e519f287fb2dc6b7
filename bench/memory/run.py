#!/usr/bin/env python3
"""Refuses memory to the program, at each allocation in turn. README.md says what is tried and what is printed."""

import argparse
import collections
import os
import re
import shutil
import subprocess
import sys
import tempfile

sys.path.insert(0, os.path.join(os.path.dirname(os.path.abspath(__file__)), "../crash"))
import runs
from runs import SECTOR, Model, Shape, plan_of, text_of

LEFT = "left-symmetric"


def grow(text, old, shapes, size):
    return ("grow", text, plan_of(old, shapes, size))


def rows():
    """Each script: its name, its lines, what it answers, the sectors of a member and of the backup."""
    three, four, six = Shape(5, LEFT, 8, 3), Shape(5, LEFT, 8, 4), Shape(5, LEFT, 128, 6)
    yield "written", [("create", three, 40, 16), ("write", 0, 1, 7), ("read", 0, 2)], "created / wrote 0 1 / read 0 2: seed 7 x1 zero x1", 56, 0
    lines = [("create", four, 128, 16), ("add", 4), ("write", 0, 96, 3), ("flush",)]
    lines += [grow("disks=5", four, [Shape(5, LEFT, 8, 5)], 128), ("step", 4), ("halt",), ("assemble",), ("read", 0, 96)]
    text = "created / added 4 / wrote 0 96 / flushed / planned 26 / stepped 4 left 22 / halted / assembled level 5 disks 5 chunk 8 size 128 "
    yield "window", lines, text + "layout left-symmetric visible 384 left 24 / read 0 96: seed 3 x96", 144, 104
    took = Shape(6, LEFT + "-6", 8, 5)
    for name, wish, shapes in ("taken", "preserve", [took]), ("normalised", "normalise", [took, Shape(6, LEFT, 8, 5)]):
        lines = [("create", four, 40, 16), ("add", 4), ("write", 0, 3, 1), ("flush",)]
        lines += [grow(f"level=6 disks=5 layout={wish}", four, shapes, 40), ("step", 2), ("write", 0, 1, 2)]
        text = "created / added 4 / wrote 0 3 / flushed / planned {} / stepped 2 left {} / wrote 0 1 / {}halted / {}"
        found = "assembled level 6 disks 5 chunk 8 size 40 layout left-symmetric-6 visible 120 left 12"
        numbers = (7, 5) if wish == "preserve" else (24, 22)
        yield name, lines + [("halt",), ("assemble",)], text.format(*numbers, "", found), 56, 128
        failed = lines + [("fail", 0), ("halt",), ("assemble",)]
        yield name + " and failed", failed, text.format(*numbers, "failed 0 / ", "refused 25 DirtyDegraded 0"), 56, 128
    lines = [("create", six, 4096, 2048), ("write", 0, 128, 1), ("write", 20352, 128, 2), ("flush",)]
    lines += [grow("chunk=1024", six, [Shape(5, LEFT, 1024, 6)], 4096)]
    block = [("a", ("write", 128, 64, 3)), ("a", ("read", 128, 64)), ("b", ("write", 10240, 64, 4)), ("b", ("flush",)), ("b", ("read", 10240, 64))]
    lines += [("together", block, 10240), ("stop",), ("assemble",)]
    lines += [("read", 0, 128), ("read", 128, 64), ("read", 10240, 64), ("read", 20352, 128)]
    text = "created / wrote 0 128 / wrote 20352 128 / flushed / planned 14 / a: wrote 128 64 / a: read 128 64: seed 3 x64 / b: wrote 10240 64 / "
    text += "b: flushed / b: read 10240 64: seed 4 x64 / worker: left 0 / stopped / assembled level 5 disks 6 chunk 1024 size 4096 layout "
    text += "left-symmetric visible 20480 left 0 / read 0 128: seed 1 x128 / read 128 64: seed 3 x64 / read 10240 64: seed 4 x64 / "
    yield "together", lines, text + "read 20352 128: seed 2 x128", 6144, 6144


def is_beginning(replies, wanted, lines):
    """Whether these replies are those before memory was refused: the first ones; of a block the first ones of each lane, and the worker's."""
    at = 0
    for line in lines:
        count = runs.replies_of(line)
        part, rest = wanted[at : at + count], replies[at:]
        if line[0] == "together" and rest[:count] != part:
            for lane in "ab":
                for reply in (reply for reply in part if reply.startswith(lane + ":")):
                    if rest and rest[0] == reply:
                        rest = rest[1:]
            if rest and re.match(r"worker: left \d+$", rest[0]):
                rest = rest[1:]
            return not rest
        if len(rest) <= count and rest == part[: len(rest)]:
            return True
        if rest[:count] != part:
            return False
        at += count
    return False


def judge_after(place, slots, backup, lines, replies):
    """What the files hold behind the run, judged by the lines that were answered and the one that was begun."""
    model, at, opened = Model(), 0, False
    for line in lines:
        count = runs.replies_of(line)
        if len(replies) - at < count:
            model.begin(line)
            break
        if line[0] == "assemble":
            model.open()
        if not (line[0] == "assemble" and replies[at].startswith("refused")):
            model.end(line, replies[at : at + count])
        at += count
        opened = True
    if not opened:
        return []
    model.open()
    longest = max(model.lengths + ([model.plan["new"], model.plan["old"]] if model.plan else []))
    asked = [("assemble",)] + [("read", first, 8) for first in range(0, longest, 8)]
    run = place.run("".join(text_of(line) + "\n" for line in asked), slots, backup, log=False)
    if run.replies and run.replies[0].startswith("refused") and model.may_refuse(run.replies[0], 0):
        return []
    if run.status not in (0, 1) or len(run.replies) != len(asked):
        return [f"afterwards: status {run.status}"]
    return [text for line, reply in zip(asked, run.replies) for text in model.end(line, [reply])]


def main():
    parser = argparse.ArgumentParser(description=__doc__)
    parser.add_argument("--program", help="the program, that of the gate if none is named")
    parser.add_argument("--rows", default="", help="some of the scripts, by name, with commas between")
    parser.add_argument("--over", default="files,memory", help="over what they are run")
    parser.add_argument("--every", type=int, default=1, help="try each so many-th allocation alone")
    options = parser.parse_args()
    program = runs.program_of(options.program)
    work = tempfile.mkdtemp(prefix="memory.", dir="/dev/shm")
    here = os.path.dirname(os.path.abspath(__file__))
    library = runs.build_library(work, os.path.join(here, "refuse.c"))
    wrong = 0
    try:
        place = runs.Place(os.path.join(work, "files"), program, library)
        for name, lines, text, members, backup in rows():
            if options.rows and name not in options.rows.split(","):
                continue
            wanted = text.split(" / ")
            script = "".join(text_of(line) + "\n" for line in lines)
            slots = [f"m{k}" for k in range(7)]
            for over in options.over.split(","):
                for on in False, True:
                    counts, number = collections.Counter(), 0
                    while True:
                        settings = {"REFUSE_AT": str(number), "REFUSE_TOLD": os.path.join(work, "told")}
                        if on:
                            settings["REFUSE_ON"] = "1"
                        if over == "files":
                            for slot in slots + ["backup"]:
                                with open(place.path(slot), "wb") as file:
                                    file.truncate((backup if slot == "backup" else members) * SECTOR)
                            run = place.run(script, slots, "backup" if backup else None, settings, log=False)
                        else:
                            environment = dict(os.environ, LD_PRELOAD=library, **settings)
                            done = subprocess.run([program, "memory"], input=script.encode(), env=environment, capture_output=True, timeout=120)
                            run = runs.Run(done.returncode, done.stdout.decode().split("\n")[:-1], done.stderr.decode(), b"")
                        refused = os.path.exists(os.path.join(work, "told"))
                        if refused:
                            os.unlink(os.path.join(work, "told"))
                        own = run.replies == wanted and run.status == int(any(reply.startswith("refused") for reply in wanted))
                        short = run.status == 6 and is_beginning(run.replies, wanted, lines)
                        counts["the script's own answers" if own else "status 6" if short else "wrong"] += 1
                        if not own and not short:
                            print(f"WRONG {name} over {over}, allocation {number}{' on' if on else ''}: status {run.status}, {run.replies}, {run.said}")
                        elif over == "files":
                            found = judge_after(place, slots, "backup" if backup else None, lines, run.replies)
                            if found:
                                counts["wrong afterwards"] += 1
                                print(f"WRONG {name}, allocation {number}{' on' if on else ''}: {found[:3]}")
                        if not refused:
                            break
                        number += options.every
                    wrong += counts["wrong"] + counts["wrong afterwards"]
                    told = ", ".join(f"{what} {count}" for what, count in sorted(counts.items()))
                    print(f"{name} over {over}, {'each behind it too' if on else 'one alone'}: {number} allocations: {told}", flush=True)
    finally:
        shutil.rmtree(work)
    sys.exit(1 if wrong else 0)


if __name__ == "__main__":
    main()
