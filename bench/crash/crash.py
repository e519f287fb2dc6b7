#!/usr/bin/env python3
"""Explores what crashes leave of image files. README.md says what it does and what it prints."""

import argparse
import collections
import itertools
import multiprocessing
import os
import random
import shutil
import subprocess
import sys
import tempfile
import time

import runs
from runs import LAYOUTS_5, LAYOUTS_6, SECTOR, Model, Shape, text_of

KINDS = ["grow", "shrink", "in-place", "takeover", "twice", "degraded", "lanes", "faults"]
OFFSET = 16


class Case:
    """A script with its files."""

    def __init__(self, rng, kind):
        self.rng, self.kind, self.lines, self.seed = rng, kind, [], 0
        self.window, self.most = 0, 0
        inner = kind if kind in KINDS[:4] else rng.choice(KINDS[:4])
        self.shape, self.size = self.first_shape(inner)
        self.length = self.shape.data() * self.size
        self.spares, self.missing = 0, 0
        self.lines.append(("create", self.shape, self.size, OFFSET))
        self.most = self.shape.disks
        self.mixed(rng.randint(0, 5), steps=False)
        self.reshape(inner)
        if kind == "twice":
            self.lines += [("wait",), ("array-size", "max")]
            self.length = self.shape.data() * self.size
            self.mixed(rng.randint(0, 3), steps=False)
            self.reshape(rng.choice(KINDS[:4]))
        if rng.random() < 0.6:
            self.lines.append(("wait",))
            self.length = min(self.length, self.shape.data() * self.size) if kind == "degraded" else self.shape.data() * self.size
            self.mixed(rng.randint(0, 4))
        if rng.random() < 0.3:
            self.lines.append(("stop",))
        self.slots = [f"m{k}" for k in range(self.most + rng.randint(0, 1))]
        self.files = {name: OFFSET + self.size + rng.randint(0, 5) for name in self.slots}
        self.files["backup"] = 8 + self.window + rng.choice([0, 0, 1, 40, self.window + 8])

    def first_shape(self, inner):
        rng = self.rng
        level = rng.choice([5, 6])
        chunk = rng.choice([8, 8, 8, 16])
        disks = rng.randint(4, 6) if level == 6 else rng.randint(3, 5)
        layouts = LAYOUTS_6 if level == 6 else LAYOUTS_5
        if inner == "shrink":
            disks += 1
        if inner == "takeover" and level == 6 and rng.random() < 0.5:
            layouts = LAYOUTS_6[5:]
        return Shape(level, rng.choice(layouts), chunk, disks), 32 * rng.randint(1, 4) if rng.random() < 0.6 else 16 * rng.randint(2, 7)

    def write(self, lo=0, hi=None):
        hi = self.length if hi is None else hi
        count = self.rng.choice([1, 1, 2, 3, 8, 12, 24, 48, 96, 128])
        count = min(count, hi - lo)
        at = self.rng.randint(lo, hi - count)
        self.seed += 1
        return ("write", at, count, self.seed)

    def read(self, lo=0, hi=None):
        hi = self.length if hi is None else hi
        count = min(self.rng.choice([1, 2, 8, 32, 96]), hi - lo)
        return ("read", self.rng.randint(lo, hi - count), count)

    def mixed(self, count, steps=True):
        rng = self.rng
        for _ in range(count):
            what = rng.random()
            if what < 0.45:
                self.lines.append(self.write())
            elif what < 0.65:
                self.lines.append(("flush",))
            elif what < 0.72 and self.kind == "degraded" and steps and self.missing < self.shape.level - 4:
                self.missing += 1
                if rng.random() < 0.5:
                    self.add(1)
                self.lines.append(("fail", rng.randrange(self.shape.disks)))
            elif what < 0.75 or not steps:
                self.lines.append(self.read())
            else:
                self.lines.append(("step", rng.choice([1, 1, 2, 3, 5, 8, 13])))

    def add(self, count):
        for _ in range(count):
            self.lines.append(("add", self.most))
            self.most += 1
            self.spares += 1

    def wish(self, inner):
        """A wish's level, disks, chunk and layout, None where nothing is wished, and whether it can be."""
        rng, old = self.rng, self.shape
        level = disks = chunk = layout = None
        layouts = LAYOUTS_6 if old.level == 6 else LAYOUTS_5
        least = 4 if old.level == 6 else 3
        if inner == "grow":
            disks = old.disks + rng.choice([1, 1, 2])
        elif inner == "shrink" and old.disks > least:
            disks = rng.randint(max(least, old.disks - 2), old.disks - 1)
        elif inner == "takeover" and old.level == 5 and old.disks >= 3:
            level, layout = 6, rng.choice(["preserve", "preserve", "normalise", None, rng.choice(LAYOUTS_6)])
            disks = rng.choice([None, old.disks + 1, old.disks + 2]) if layout != "preserve" else None
        elif inner == "takeover":
            level, layout = 5, rng.choice([None, None, rng.choice(LAYOUTS_5)])
            disks = rng.choice([None, None, max(3, old.disks - 2)])
        if inner in ("in-place", "grow", "shrink") and (inner == "in-place" or rng.random() < 0.4):
            if rng.random() < 0.6:
                layout = rng.choice([name for name in layouts if name != old.layout])
            if layout is None or rng.random() < 0.5:
                chunk = rng.choice([size for size in (8, 16, 32) if size != old.chunk])
        return level, disks, chunk, layout

    def phases(self, level, disks, chunk, layout):
        """The shapes on the way to a wish, by the rules of a plan."""
        old = self.shape
        if (level or old.level) == old.level:
            return [Shape(old.level, layout or old.layout, chunk or old.chunk, disks or old.disks)]
        plain = old.layout.removesuffix("-6")
        if level == 6:
            kept = old.layout if old.layout == "parity-last" else old.layout + "-6"
            named = {"preserve": kept, "normalise": plain, None: old.layout}.get(layout, layout)
            taken = Shape(6, kept, old.chunk, old.disks + 1)
            target = Shape(6, named, chunk or old.chunk, disks or old.disks + 1)
            return [taken] + [target] * (target != taken)
        target = Shape(5, layout or plain, chunk or old.chunk, disks or old.disks - 1)
        before = Shape(6, target.layout if target.layout == "parity-last" else target.layout + "-6", target.chunk, target.disks + 1)
        return [before] * (before != old) + [target]

    def reshape(self, inner):
        rng, old = self.rng, self.shape
        level, disks, chunk, layout = self.wish(inner)
        shapes = self.phases(level, disks, chunk, layout)
        chunks = [shape.chunk for shape in shapes]
        if shapes == [old] or any(self.size % chunk for chunk in chunks):
            return self.mixed(rng.randint(1, 4))
        words = zip(("level", "disks", "chunk", "layout"), (level, disks, chunk, layout))
        text = " ".join(f"{key}={value}" for key, value in words if value is not None)
        plan = runs.plan_of(old, shapes, self.size)
        self.window = max(self.window, plan["backup"])
        takes = max(shape.disks for shape in [old] + shapes) - old.disks
        if takes > self.spares:
            self.add(takes - self.spares)
        if rng.random() < 0.2:
            self.add(1)
        new_length = plan["new"]
        if new_length < self.length:
            self.lines.append(("array-size", new_length))
        self.lines.append(("grow", text, plan))
        self.spares -= plan["takes"]
        self.length = min(self.length, new_length)
        if self.kind == "lanes":
            self.mixed(rng.randint(0, 4))
            self.block()
        else:
            self.mixed(rng.randint(2, 14))
        self.shape = shapes[-1]

    def block(self):
        rng = self.rng
        half = self.length // 2
        lines = []
        for _ in range(rng.randint(2, 10)):
            lane = rng.choice("ab")
            span = (0, half) if lane == "a" else (half, self.length)
            what = rng.random()
            lines.append((lane, self.write(*span) if what < 0.6 else ("flush",) if what < 0.8 else self.read(*span)))
        self.lines.append(("together", lines, half))


class Disk:
    """A file as a crash may leave it: what it held at its last sync, and what was written to each sector since."""

    def __init__(self, content):
        self.content, self.since = bytearray(content), {}

    def write(self, offset, data):
        for at in range(0, len(data), SECTOR):
            self.since.setdefault((offset + at) // SECTOR, []).append(data[at : at + SECTOR])

    def sync(self):
        for sector, written in self.since.items():
            self.content[sector * SECTOR : sector * SECTOR + SECTOR] = written[-1]
        self.since = {}

    def left(self, choose):
        """One of the files that may be left: `choose` answers how many of a sector's writes are there, the last of which it holds."""
        content = bytearray(self.content)
        for sector, written in self.since.items():
            count = choose(sector, len(written))
            if count:
                content[sector * SECTOR : sector * SECTOR + SECTOR] = written[count - 1]
        return bytes(content)


def chooser(rng, backup):
    """A way to choose what is there of the writes since the last sync, for one file."""

    def some(share):
        return lambda _, count: rng.randint(1, count) if rng.random() < share else 0

    def head(sector):
        return sector == 0 if backup else sector in (8, 9)

    ways = {
        "none": lambda _, count: 0,
        "all": lambda _, count: count,
        "some": some(rng.choice([0.1, 0.3, 0.5, 0.7, 0.9])),
        "heads": lambda sector, count: count if head(sector) else 0,
        "data": lambda sector, count: 0 if head(sector) else count,
        "heads and some": lambda sector, count: count if head(sector) else some(0.5)(sector, count),
    }
    return ways


class Explorer:
    def __init__(self, place, options, kind):
        self.place, self.options, self.kind = place, options, kind
        self.counts = collections.Counter()
        self.wrong = []

    def tell(self, chain, what, files):
        self.counts["wrong " + what[0]] += len(what[1])
        if len(self.wrong) < 20:
            self.wrong.append((list(chain), what[1][:3]))
        if self.options.keep and self.counts["kept"] < 10:
            folder = os.path.join(self.options.keep, f"{chain[0][0]}-{self.counts['kept']}")
            os.makedirs(folder, exist_ok=True)
            for name, content in files.items():
                with open(os.path.join(folder, name), "wb") as file:
                    file.write(content)
            with open(os.path.join(folder, "what"), "w") as file:
                for title, lines in chain:
                    file.write(f"== {title}\n" + "".join(text_of(line) + "\n" for line in lines))
                file.write("\n".join(what[1]) + "\n")
            self.counts["kept"] += 1

    def explore(self, rng, chain, files, slots, model, lines, depth, cuts, gone):
        """Runs the lines over the files and judges each reply; then crashes it at so many places, and explores what is left. `gone` has what
        the members held that were taken away before."""
        names = slots + ["backup"]
        self.place.put(files)
        text = "".join(text_of(line) + "\n" for line in lines)
        settings = {}
        if depth == self.options.depth and chain[0][0].startswith("faults"):
            kinds = [record[0] for record in self.place.run(text, slots, "backup").records() if record[0] != runs.NAMED]
            made = kinds.index(runs.SHOWN)
            self.place.put(files)
            settings["CALLS_FAIL"] = str(rng.randrange(made, len([kind for kind in kinds if kind != runs.SHOWN])))
            if rng.random() < 0.3:
                settings["CALLS_FAIL_DONE"] = "1"
            if rng.random() < 0.2:
                settings["CALLS_FAIL_ON"] = "1"
            chain[0] = (f"{chain[0][0]} {settings}", lines)
        run = self.place.run(text, slots, "backup", settings)
        self.counts["runs"] += 1
        if self.options.beside and not settings and self.kind != "lanes":
            self.compare(chain, files, slots, text, run)
        if run.status not in (0, 1):
            self.tell(chain, ("status", [f"status {run.status}: {run.said}"]), files)
            return
        records = [record for record in run.records() if record[0] != runs.READ]
        opened = next(at for at, record in enumerate(records) if record[0] == runs.SHOWN)
        marks = sorted(rng.randint(opened + 1, len(records)) for _ in range(cuts))
        if depth > 0 and rng.random() < 0.5:
            marks.append(len(records))
        disks = {name: Disk(files[name]) for name in names}
        # Whether an update was cut off before this run, so that not all members tell the same.
        events = {runs.events_of(files[name]) for name in slots}
        uneven = len(chain) > 1 and max(events) - 1 in events - {0}
        files_of, failed, at_line, shown, skipped = {}, set(), 0, [], rng.randint(0, 1)
        self.counts["operations"] += len(records)
        crashes = []
        for at in range(len(records) + 1):
            while marks and marks[0] == at:
                marks.pop(0)
                begun = model.copy()
                if at_line < len(lines):
                    begun.begin(lines[at_line])
                crashes.append((at, at_line, begun.open(), self.images(rng, disks, slots, at == len(records), gone, uneven)))
            if at == len(records):
                break
            kind, file, offset, _, data = records[at]
            if kind == runs.NAMED:
                files_of[file] = os.path.basename(data.decode())
            elif kind == runs.WRITTEN:
                name = files_of[file]
                pretended = self.options.pretend == "headers" and name == "backup" and offset == 0
                pretended |= self.options.pretend == "sections" and name == "backup" and offset > 0
                if not pretended:
                    disks[name].write(offset, data)
            elif kind == runs.SYNCED:
                skipped += 1
                if self.options.pretend != "syncs" or skipped % 2:
                    disks[files_of[file]].sync()
            elif kind == runs.FAILED:
                if files_of[file] not in failed:
                    failed.add(files_of[file])
                    model.fault(files_of[file])
            else:
                shown += data.decode().split("\n")[:-1]
                while at_line < len(lines) and len(shown) >= runs.replies_of(lines[at_line]):
                    line, count = lines[at_line], runs.replies_of(lines[at_line])
                    wrong = model.end(line, shown[:count])
                    del shown[:count]
                    at_line += 1
                    self.counts["replies"] += count
                    if wrong:
                        self.tell(chain, ("sectors" if wrong[0].startswith("sector") else "replies", wrong), files)
                        if line[0] == "assemble":
                            return
        if at_line < len(lines):
            self.tell(chain, ("replies", [f"{len(lines) - at_line} lines without a reply"]), files)
        if depth <= 0:
            return
        for at, line, begun, (image, taken, away, how) in crashes:
            title = f"cut at {at} of {len(records)}, in line {line + 1}, {how}"
            self.judge(rng, chain, title, image, slots, begun, taken, depth - 1, away)

    def compare(self, chain, files, slots, text, run):
        """Runs the same lines by another program over the same files, and compares replies and superblocks."""
        found = self.place.get(slots)
        self.place.put(files)
        with open(self.place.path("script"), "w") as file:
            file.write(text)
        words = self.options.beside.split() + ["run", "--backup", "backup", "script"] + slots
        other = subprocess.run(words, cwd=self.place.folder, capture_output=True, timeout=120)
        self.counts["runs beside another program"] += 1
        theirs = other.stdout.decode().split("\n")[:-1]
        pairs = list(itertools.zip_longest(run.replies, theirs))
        if theirs != run.replies:
            at = next(at for at, (one, two) in enumerate(pairs) if one != two)
            self.tell(chain, ("beside", [f"reply {at + 1}: {pairs[at][0]}, where the other program answers {pairs[at][1]}"]), files)
        else:
            heads = slice(8 * SECTOR, 10 * SECTOR)
            content = self.place.get(slots)
            differ = [name for name in slots if found[name][heads] != content[name][heads]]
            if differ:
                self.tell(chain, ("beside", [f"the superblocks of {differ} differ from the other program's"]), files)
        self.place.put(found)

    def images(self, rng, disks, slots, ended, gone, uneven):
        """One image of these disks. In a share of the cases members are taken away, in all where the run has ended; or in a share of them those
        come back that were taken away before, with what they held then. (Not both: without the others, who know better, old members look whole.)"""
        manner = rng.choice(["none", "all", "some", "some", "some", "heads", "data", "heads and some", "files", "files", "ways"])
        image = {}
        for name, disk in disks.items():
            ways = chooser(rng, name == "backup")
            way = rng.choice(["none", "all"]) if manner == "files" else rng.choice(list(ways)) if manner == "ways" else manner
            image[name] = disk.left(ways[way])
        taken, away = 0, {}
        if gone and rng.random() < self.options.back:
            image.update(gone)
            self.counts["images with members that came back"] += 1
            manner += f", with {' '.join(gone)} back"
        elif ended or rng.random() < self.options.away:
            taken = rng.choice([1, 1, 2])
            away = {name: image[name] for name in rng.sample(slots, taken)}
            others = max(runs.events_of(image[name]) for name in slots if name not in away)
            alone = max(runs.events_of(content) for content in away.values()) > others
            if alone and uneven and not self.options.uneven:
                self.counts["images whose members were left, since they alone knew of an update before the run"] += 1
                return image, 0, {}, manner
            image.update({name: bytes(len(content)) for name, content in away.items()})
            manner += f", without {' '.join(away)}"
            # (what such members hold would win over what the others do without them)
            away = {} if alone else away
        return image, taken, away, manner

    def judge(self, rng, chain, title, image, slots, model, taken, depth, away):
        """Assembles an image, reads all of it, goes on, and judges what is read."""
        self.counts["images"] += 1
        self.counts[f"images at depth {len(chain)}"] += 1
        if taken:
            self.counts["images with members taken away"] += 1
        lines = self.lines(rng, model)
        chain = chain + [(title, lines)]
        self.place.put(image)
        # Is it refused, and rightly so? (An assembly writes nothing.)
        first = self.place.run(text_of(("assemble",)) + "\n", slots, "backup", log=False)
        if first.status == 1 and first.replies and first.replies[0].startswith("refused"):
            if model.may_refuse(first.replies[0], taken):
                self.counts["rightly " + " ".join(first.replies[0].split()[:3])] += 1
            else:
                self.tell(chain, ("refusals", [first.replies[0]]), image)
            return
        model.missing += taken
        self.explore(rng, chain, image, slots, model, lines, depth, self.options.nested if depth > 0 else 0, away)

    def lines(self, rng, model):
        """What is asked of an image."""
        longest = max(model.lengths + ([model.plan["new"], model.plan["old"]] if model.plan else []))
        whole = [("read", at, 8) for at in range(0, longest, 8)]
        least = min(model.lengths + ([model.plan["new"], model.plan["old"]] if model.plan else []))
        lines = [("assemble",)] + whole
        changes = rng.random() < 0.8
        for _ in range(rng.randint(1, 8) if changes else 0):
            what = rng.random()
            if what < 0.4:
                count = min(rng.choice([1, 2, 8, 24, 96]), least)
                lines.append(("write", rng.randint(0, least - count), count, rng.randint(10_000, 4_000_000_000)))
            elif what < 0.6:
                lines.append(("flush",))
            else:
                lines.append(("step", rng.choice([1, 2, 3, 5, 8, 20])))
        if changes:
            lines += whole
        if rng.random() < self.options.waits:
            lines += [("wait",)] + whole
            if rng.random() < 0.5:
                lines.append(("stop",))
        return lines


def explore_seed(task):
    seed, kind, options = task
    rng = random.Random(f"{seed} {kind}")
    folder = tempfile.mkdtemp(prefix="crash.", dir=options.folder)
    try:
        explorer = Explorer(runs.Place(folder, options.program, options.library), options, kind)
        case = Case(rng, kind)
        files = {name: bytes(count * SECTOR) for name, count in case.files.items()}
        chain = [(f"{kind}-{seed}", case.lines)]
        explorer.explore(rng, chain, files, case.slots, Model(), case.lines, options.depth, options.cuts, {})
        return kind, seed, explorer.counts, explorer.wrong
    finally:
        shutil.rmtree(folder)


def main():
    parser = argparse.ArgumentParser(description=__doc__)
    parser.add_argument("--program", help="the program, that of the gate if none is named")
    parser.add_argument("--kind", default="all", help=f"all, or some of {' '.join(KINDS)}, with commas between")
    parser.add_argument("--seeds", type=int, default=20, help="how many scripts of each kind")
    parser.add_argument("--first", type=int, default=0, help="the first seed")
    parser.add_argument("--cuts", type=int, default=12, help="crashes of each script")
    parser.add_argument("--nested", type=int, default=2, help="crashes of each run over an image")
    parser.add_argument("--depth", type=int, default=2, help="how often a run is crashed, one in another")
    parser.add_argument("--away", type=float, default=0.2, help="the share of images without a member or two")
    parser.add_argument("--back", type=float, default=0.3, help="where members were taken away, the share of later images in which they are back")
    parser.add_argument("--waits", type=float, default=0.5, help="the share of runs that go on to the end")
    parser.add_argument("--beside", help="another program and its first words, which is given the same files and lines, and must answer the same")
    parser.add_argument("--uneven", action="store_true", help="take members away also where they alone knew of an update before the run")
    parser.add_argument("--pretend", choices=["syncs", "headers", "sections"], help="leave out one sync in two, or each header or section")
    parser.add_argument("--jobs", type=int, default=2)
    parser.add_argument("--folder", default="/dev/shm", help="where the files are, on a file system in memory")
    parser.add_argument("--keep", help="a folder for what was found wrong")
    options = parser.parse_args()
    options.program = runs.program_of(options.program)
    work = tempfile.mkdtemp(prefix="crash.")
    options.library = runs.build_library(work)
    kinds = KINDS if options.kind == "all" else options.kind.split(",")
    tasks = [(seed, kind, options) for seed in range(options.first, options.first + options.seeds) for kind in kinds]
    totals, by_kind, told, done = collections.Counter(), collections.defaultdict(collections.Counter), 0, 0
    begun = time.time()
    with multiprocessing.Pool(options.jobs) as pool:
        for kind, seed, counts, wrong in pool.imap_unordered(explore_seed, tasks):
            totals += counts
            by_kind[kind] += counts
            done += 1
            if done % 20 == 0:
                print(f"{done} of {len(tasks)} scripts, {totals['images']} images, {time.time() - begun:.0f} s", file=sys.stderr, flush=True)
            for chain, what in wrong[: 0 if told > 20 else 3]:
                told += 1
                print(f"WRONG {kind} {seed}: {' > '.join(title for title, _ in chain[1:])}: {'; '.join(what)}", flush=True)
    shutil.rmtree(work)
    for kind in kinds:
        found = by_kind[kind]
        wrong = sum(count for what, count in found.items() if what.startswith("wrong"))
        print(f"{kind}: {options.seeds} scripts, {found['images']} images, {found['wrong sectors']} wrong sectors, {wrong} wrong in all")
    for what in sorted(totals):
        print(f"{what}: {totals[what]}")
    print(f"seconds: {time.time() - begun:.0f}")
    sys.exit(1 if any(what.startswith("wrong") for what in totals) else 0)


if __name__ == "__main__":
    main()
