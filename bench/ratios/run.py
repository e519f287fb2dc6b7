#!/usr/bin/env python3
"""run.py PROGRAM OTHER [TIMES] [WORK..]: times two programs on the same scripts, in turns, and prints the ratio.

Each is run TIMES times on each script (15 if that isn't said), one after the other, and the best run of each counts: processor time, that of
the user and of the system together, of the whole process. The time of the empty script is taken off the others. The replies have to be the same.
Behind the ratio stands the most memory that each had. WORK names some of the kinds of work; without it all are timed.
"""
import os
import sys
import tempfile

UUID = "6ba7b810-9dad-11d1-80b4-00c04fd430c8"
SMALL = f"create {UUID} level=5 disks=3 chunk=8 size=4096 offset=16"
WIDE = f"create {UUID} level=6 disks=6 chunk=128 size=4096"


def small(kind, lines):
    for i in range(lines):
        at, count = i * 7919 % 8180, i % 4 + 1
        yield f"write {at} {count} {i + 1}" if kind == "write" else f"read {at} {count}"


def long(kind, lines):
    for i in range(lines):
        at = i * 128 % 16384
        yield f"write {at} 128 {i + 1}" if kind == "write" else f"read {at} 128"


def pairs(lines):
    for i in range(lines):
        yield f"write {i * 7 % 8190} 1 {i + 1}"
        yield "flush"


def openings(count):
    for _ in range(count):
        yield "halt"
        yield "assemble"


def mixed(lines):
    for i in range(1, lines):
        count = i // 2 % 4 + 1
        at = i // 2 * 7 % (81 - count)
        yield f"write {at} {count} {i}" if i % 2 else f"read {at} {count}"


WORKS = {
    "the first line": [],
    "create": [SMALL],
    "small writes": [SMALL, *small("write", 6000)],
    "small reads": [SMALL, *small("write", 1500), *small("read", 6000)],
    "long writes": [WIDE, *long("write", 600)],
    "long reads": [WIDE, *long("write", 128), *long("read", 1800)],
    "long reads of zeros": [WIDE, *long("read", 1800)],
    "write and flush": [SMALL, *pairs(3000)],
    "60,000 lines": [f"create {UUID} level=5 disks=3 chunk=8 size=40 offset=16", *mixed(60000)],
    "openings": [SMALL, "write 0 4 1", *openings(3000)],
}


def timed(program, script, replies):
    """Seconds of processor time and kilobytes of memory of one run."""
    child = os.fork()
    if child == 0:
        with open(script) as into, open(replies, "w") as out:
            os.dup2(into.fileno(), 0)
            os.dup2(out.fileno(), 1)
            os.execv(program, [program, "memory"])
    _, status, usage = os.wait4(child, 0)
    if status:
        sys.exit(f"{program}: status {status}")
    return usage.ru_utime + usage.ru_stime, usage.ru_maxrss


def compared(programs, lines, times, room):
    script = f"{room}/script"
    with open(script, "w") as it:
        it.write("".join(f"{line}\n" for line in lines))
    best = [(1e9, 0), (1e9, 0)]
    for _ in range(times):
        for i, program in enumerate(programs):
            best[i] = min(best[i], timed(program, script, f"{room}/replies-{i}"))
    same = open(f"{room}/replies-0").read() == open(f"{room}/replies-1").read()
    return best, same


def main(words):
    if len(words) < 2:
        sys.exit(__doc__)
    programs = [os.path.abspath(it) for it in words[:2]]
    times = int(words[2]) if len(words) > 2 else 15
    start = [0, 0]
    print(f"load average {os.getloadavg()[0]:.0f}")
    print(f"{'work':22} {'ms':>8} {'ms':>8} {'ratio':>6}   {'MB':>4} {'MB':>4}")
    with tempfile.TemporaryDirectory() as room:
        for name, lines in WORKS.items():
            if lines and words[3:] and name not in words[3:]:
                continue
            best, same = compared(programs, lines, times, room)
            took = [max(it[0] - off, 1e-6) for it, off in zip(best, start)]
            if not lines:
                start = [it[0] for it in best]
            print(f"{name:22} {took[0] * 1000:8.1f} {took[1] * 1000:8.1f} {took[0] / took[1]:6.2f}   {best[0][1] // 1024:4} {best[1][1] // 1024:4}" + ("" if same else "   OTHER REPLIES"), flush=True)


if __name__ == "__main__":
    main(sys.argv[1:])
