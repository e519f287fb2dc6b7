"""Runs of the program over image files, logged by calls.c, and what a script's own lines say of each sector."""

import os
import re
import struct
import subprocess
import sys
from math import lcm

SECTOR = 512
UUID = "6ba7b810-9dad-11d1-80b4-00c04fd430c8"
NAMED, WRITTEN, SYNCED, SHOWN, READ, FAILED = range(1, 7)
HEAD = struct.Struct("<IIQQ")
HERE = os.path.dirname(os.path.abspath(__file__))
FIXED_5 = ["left-asymmetric", "right-asymmetric", "left-symmetric", "right-symmetric", "parity-first"]
LAYOUTS_5 = FIXED_5 + ["parity-last"]
LAYOUTS_6 = LAYOUTS_5 + [name + "-6" for name in FIXED_5]


def build_library(into, source="calls.c"):
    """Builds a library that is preloaded, and answers its path."""
    path = os.path.join(into, os.path.basename(source) + ".so")
    subprocess.run(["gcc", "-O2", "-Wall", "-shared", "-fPIC", "-o", path, os.path.join(HERE, source)], check=True)
    return path


def program_of(path):
    """The program that is tried: that of the gate, unless another one is named."""
    path = os.path.abspath(path or os.path.join(HERE, "../../crates/mdgrow/out/mdgrow"))
    if not os.access(path, os.X_OK):
        sys.exit(f"no program at {path}: build it by ./mdgrow prove, or name another one by --program")
    return path


class Shape(tuple):
    """A level, a layout, a chunk and a disk count."""

    def __new__(cls, level, layout, chunk, disks):
        return tuple.__new__(cls, (level, layout, chunk, disks))

    def __getnewargs__(self):
        return tuple(self)

    level, layout, chunk, disks = (property(lambda self, k=k: self[k]) for k in range(4))

    def data(self):
        return self.disks - (2 if self.level == 6 else 1)


def largest_window(old, new, size):
    unit = lcm(old.chunk * old.data(), new.chunk * new.data())
    return min(unit, min(old.data(), new.data()) * size)


def plan_of(old, shapes, size):
    """What is known beforehand of a plan: the lengths of the list and the shapes, the steps behind the reshape, the spares that become members, the
    roles that lack until it has ended, and at most how many steps a window has."""
    way = [old] + shapes
    windows = [largest_window(a, b, size) for a, b in zip(way, way[1:]) if a.level == b.level]
    plan = {"old": old.data() * size, "new": shapes[-1].data() * size, "shapes": shapes}
    plan["tail"] = int(shapes[-1].level < old.level)
    plan["lacks"] = int(shapes[-1].level > old.level)
    plan["takes"] = shapes[-1].disks - old.disks
    plan["window"] = max(windows, default=0) // 8 + 3
    plan["backup"] = max(windows, default=0)
    return plan


def events_of(content):
    """The event count of the superblock that stands in a slot, 0 where none does."""
    head = content[8 * SECTOR : 9 * SECTOR]
    return struct.unpack_from("<Q", head, 200)[0] if head[:4] == b"\xfc\x4e\x2b\xa9" else 0


class Run:
    """What a run did: its status, its replies, and its log."""

    def __init__(self, status, replies, said, log):
        self.status, self.replies, self.said, self.log = status, replies, said, log

    def records(self):
        at, log = 0, self.log
        while at < len(log):
            kind, file, offset, length = HEAD.unpack_from(log, at)
            at += HEAD.size
            count = length if kind in (NAMED, WRITTEN, SHOWN) else 0
            yield kind, file, offset, length, log[at : at + count]
            at += count


def text_of(line):
    """The text of a line, which is a tuple: its word and its values."""
    word, values = line[0], line[1:]
    if word == "create":
        shape, size, offset = values
        return f"create {UUID} level={shape.level} disks={shape.disks} chunk={shape.chunk} size={size} layout={shape.layout} offset={offset}"
    if word == "grow":
        return f"grow {values[0]}"
    if word == "assemble":
        return f"assemble {UUID}"
    if word == "together":
        return "\n".join(["together"] + [f"{lane}: {text_of(line)}" for lane, line in values[0]] + ["end"])
    return " ".join([word] + [str(value) for value in values])


def replies_of(line):
    """How many replies a line has."""
    return len(line[1]) + 1 if line[0] == "together" else 1


class Place:
    """A folder of image files, on a file system in memory, in which the program is run; with a library preloaded, if one is named."""

    def __init__(self, folder, program, library):
        self.folder, self.program, self.library = folder, program, library
        os.makedirs(folder, exist_ok=True)

    def path(self, name):
        return os.path.join(self.folder, name)

    def put(self, files):
        for name, content in files.items():
            with open(self.path(name), "wb") as file:
                file.write(content)

    def get(self, names):
        found = {}
        for name in names:
            with open(self.path(name), "rb") as file:
                found[name] = file.read()
        return found

    def run(self, text, slots, backup, settings=None, log=True, seconds=120):
        """Runs a script over these slots (the names of their files)."""
        with open(self.path("script"), "w") as file:
            file.write(text)
        words = [self.program, "run"] + (["--backup", backup] if backup else []) + ["script"] + slots
        environment = dict(os.environ, **(settings or {}))
        if self.library:
            environment["LD_PRELOAD"] = self.library
        if log:
            environment["CALLS_LOG"] = "log"
        done = subprocess.run(words, cwd=self.folder, env=environment, stdout=subprocess.PIPE, stderr=subprocess.PIPE, timeout=seconds)
        content = b""
        if log:
            with open(self.path("log"), "rb") as file:
                content = file.read()
        return Run(done.returncode, done.stdout.decode().split("\n")[:-1], done.stderr.decode(), content)


READ_REPLY = re.compile(r"read (\d+) (\d+):((?: (?:zero|seed \d+|hex [0-9a-f]+) x\d+)+)$")
RUN_OF = re.compile(r" (?:(zero)|seed (\d+)|(hex [0-9a-f]+)) x(\d+)")
ASSEMBLED = re.compile(r"assembled level (\d+) disks (\d+) chunk (\d+) size (\d+) layout (\S+) visible (\d+) left (\d+)$")


def values_of(reply):
    """The values of a read's sectors: a seed, 0 for zeros, and a text for what is neither. None if it isn't a read's reply."""
    if not READ_REPLY.match(reply):
        return None
    values = []
    for zero, seed, digits, count in RUN_OF.findall(reply.split(":", 1)[1]):
        values += [0 if zero else int(seed) if seed else digits[:44]] * int(count)
    return values


class Model:
    """What a script's own writes and flushes say: for each sector the values that a crash may leave (`flushed` and `later`), and those that a
    read may answer (`now`). A run of the program is followed line by line, by `begin` and `end`."""

    def __init__(self):
        self.shapes, self.size, self.plan = [], 0, None
        self.lengths, self.limit = [0], None
        self.flushed, self.later, self.now = [], [], []
        self.left = 0  # the steps that are left, as the last reply told
        # whether a write may have been since the last flush; whether a resync may be pending
        self.dirty = self.resync = self.wrote = False
        # roles that were taken away and spares that were given, and whether a call of a file failed
        self.missing, self.spares, self.faulty = 0, 0, False
        # the sectors that weren't written since they were read, in a run that began with an assembly
        self.opened, self.seen = False, {}

    def copy(self):
        other = Model.__new__(Model)
        other.__dict__.update(self.__dict__)
        for name in ("shapes", "lengths", "flushed", "later", "now"):
            setattr(other, name, list(getattr(self, name)))
        other.seen = dict(self.seen)
        return other

    def allowed(self, x):
        return self.flushed[x] | self.later[x]

    def visible(self):
        """What may be told as visible."""
        return [length if self.limit is None else min(length, self.limit) for length in self.lengths]

    def _write(self, at, count, seed, sure):
        value = frozenset([seed])
        for x in range(at, at + count):
            self.later[x] |= value
            self.now[x] = value if sure else self.now[x] | value
            self.seen.pop(x, None)
        self.dirty = self.wrote = True

    def _flush(self, span):
        for x in span:
            self.flushed[x], self.later[x] = self.now[x], frozenset()

    def _resize(self, length):
        """The list gets this long."""
        nothing = frozenset([0])
        for name, value in (("flushed", nothing), ("later", frozenset()), ("now", nothing)):
            values = getattr(self, name)
            values[length:] = []
            values += [value] * (length - len(values))
        self.lengths = [length]
        self.seen = {x: value for x, value in self.seen.items() if x < length}

    def _steps(self, most):
        """That many steps may be done."""
        plan = self.plan
        if plan is None:
            return
        self.shapes = list(dict.fromkeys(self.shapes + plan["shapes"]))
        # (a write may have done the rest of an open window, which no reply has told yet)
        least = self.left - most - (plan["window"] if self.wrote else 0)
        if plan["new"] < plan["old"] or self.missing or least <= plan["tail"]:
            self.lengths = sorted(set(self.lengths + [plan["new"]]))
            for name, value in (("flushed", frozenset([0])), ("later", frozenset()), ("now", frozenset([0]))):
                values = getattr(self, name)
                values += [value] * (plan["new"] - len(values))

    def _stepped(self, left):
        """So many steps are left, and some were done."""
        plan = self.plan
        if plan is not None:
            if left == 0 and self.missing >= max(shape.disks for shape in self.shapes + plan["shapes"]):
                # (no member is left on which the end could be recorded)
                self._steps(0)
            elif left == 0:
                if self.lengths != [plan["new"]]:
                    self._resize(plan["new"])
                self.spares -= plan["takes"]
                self.shapes, self.plan = [plan["shapes"][-1]], None
            else:
                self._steps(0)
                if plan["new"] < plan["old"] and left < plan["begins"] and not self.missing:
                    self._resize(plan["new"])
        self.left = left
        if left == 0:
            rebuilt = 0 if self.faulty else min(self.missing, self.spares)
            self.missing, self.spares = self.missing - rebuilt, self.spares - rebuilt
            if self.resync:
                self.resync, self.dirty = False, self.wrote

    def begin(self, line):
        """The line was begun: it may be done or not."""
        word = line[0]
        if word == "write":
            self._write(*line[1:], False)
        elif word == "step":
            self._steps(line[1])
        elif word == "wait":
            self._steps(1 << 40)
        elif word == "fail":
            self.missing += 1
        elif word == "together":
            self._steps(1 << 40)
            for _, inner in line[1]:
                if inner[0] == "write":
                    self._write(*inner[1:], False)

    def end(self, line, replies):
        """The line was answered so. Answers what is wrong about the replies, as a list of texts."""
        word, reply = line[0], replies[0]
        if word == "together":
            return self._end_block(line, replies)
        refused = reply.startswith("refused ")
        if refused and word not in ("read", "assemble"):
            return self._refused(line, reply)
        if word == "create":
            shape, self.size, _ = line[1:]
            self.shapes = [shape]
            self._resize(shape.data() * self.size)
        elif word == "read":
            return self._read(line, reply)
        elif word == "write":
            self._write(*line[1:], True)
        elif word in ("flush", "stop"):
            self._flush(range(len(self.now)))
            self.wrote = False
            self.dirty = self.resync
        elif word == "array-size":
            self.limit = None if line[1] == "max" else line[1]
        elif word == "grow":
            self.plan, self.left = dict(line[2]), int(reply.split()[1])
            self.plan["begins"] = self.left
        elif word in ("step", "wait"):
            text = reply.split(" refused ")
            done = word == "wait" or int(text[0].split()[1]) > 0
            left = int(text[0].split()[-1])
            if done:
                self._stepped(left)
            if len(text) > 1 and not self.missing and not self.faulty:
                return [f"{text_of(line)}: {reply}"]
            if word == "wait" and left and len(text) == 1:
                return [f"{text_of(line)}: {reply}"]
        elif word == "add":
            self.spares += 1
        elif word == "fail":
            self.missing += 1
        elif word == "assemble":
            return self._assembled(reply)
        return []

    def _refused(self, line, reply):
        number = int(reply.split()[1])
        if line[0] == "write" and number == 2:
            self._write(*line[1:], False)
        if self.faulty or number in (2, 3, 5, 11, 15) and self.missing:
            return []
        if number == 19 and line[0] == "step" and self.left <= (self.plan["window"] if self.plan and self.wrote else 0):
            self._stepped(0)
            return []
        return [f"{text_of(line)}: {reply}"]

    def _read(self, line, reply):
        at, count = line[1], line[2]
        wrong = []
        if reply.startswith("refused "):
            number = int(reply.split()[1])
            if number == 1 and int(reply.split()[3]) in self.visible() and at + count > int(reply.split()[3]):
                return []
            if number in (2, 3) and self.missing or self.faulty:
                return []
            return [f"read {at} {count}: {reply}"]
        values = values_of(reply)
        if values is None or len(values) != count or at + count > max(self.visible()):
            return [f"read {at} {count}: {reply}"]
        for x, value in zip(range(at, at + count), values):
            if x >= len(self.now) or value not in self.now[x]:
                wanted = sorted(self.now[x]) if x < len(self.now) else "nothing"
                wrong.append(f"sector {x}: {value}, where {wanted} may stand")
            elif self.seen.get(x, value) != value:
                wrong.append(f"sector {x}: {value}, which was read as {self.seen[x]} before")
            elif self.opened and not self.later[x]:
                self.seen[x] = value
        return wrong

    def open(self):
        """The run ended here, perhaps in a crash. The next one finds what this one may have left."""
        self.flushed = [self.allowed(x) for x in range(len(self.now))]
        self.later = [frozenset()] * len(self.now)
        self.now = list(self.flushed)
        self.resync, self.wrote, self.limit, self.opened = self.dirty, False, None, True
        return self

    def fault(self, name):
        """A call of this file failed."""
        self.faulty = True
        self.missing += name != "backup"

    def may_refuse(self, reply, taken):
        """Whether an assembly may be refused so, where the driver took so many members away."""
        words = reply.split()
        number, gone = int(words[1]), self.missing + taken
        if number == 20:
            return gone >= min(shape.disks for shape in self.shapes)
        lacking = self.plan["lacks"] if self.plan else 0
        return bool(number == 25 and self.dirty and gone or number == 24 and gone + lacking >= int(words[3]))

    def _assembled(self, reply):
        told = ASSEMBLED.match(reply)
        if not told:
            return [f"assemble: {reply}"]
        level, disks, chunk, size = (int(told[k]) for k in range(1, 5))
        shape, visible, left = Shape(level, told[5], chunk, disks), int(told[6]), int(told[7])
        if shape not in self.shapes or size != self.size or visible not in self.lengths:
            return [f"assemble: {reply}, where the shapes {self.shapes} and the lengths {self.lengths} may be"]
        if left == 0 and visible != shape.data() * size:
            return [f"assemble: {reply}, which is not as long as its shape"]
        # Spares that were taken are members by now; those that become free are so at the reshape's end.
        takes = shape.disks - self.shapes[0].disks
        if takes > 0 or not left:
            self.spares, takes = self.spares - takes, 0
        # What was planned and hadn't begun is forgotten.
        self._resize(visible)
        self.left = left
        if left:
            lacking = self.plan["lacks"] if self.plan else 0
            window = self.plan["window"] if self.plan else 0
            self.plan = {"old": visible, "new": shape.data() * size, "shapes": [shape], "tail": 0, "begins": 0, "takes": takes}
            self.plan.update(lacks=lacking, window=window)
        else:
            self.plan, self.resync, self.dirty = None, False, False
        self.shapes = [shape]
        return []

    def _end_block(self, line, replies):
        wrong = []
        half = line[2]
        spans = {"a": range(0, half), "b": range(half, len(self.now))}
        # (what `begin` said of the writes is put aside: each lane's are done in order, each in its own part of the list)
        order = [(lane, inner) for lane in "ab" for at, inner in line[1] if at == lane]
        for (lane, inner), reply in zip(order, replies):
            if not reply.startswith(lane + ": "):
                wrong.append(f"{lane}: {text_of(inner)}: {reply}")
                continue
            if inner[0] == "flush" and not reply.startswith(lane + ": refused"):
                self._flush(spans[lane])
                continue
            wrong += self.end(inner, [reply[3:]])
        if any(inner[0] == "write" for _, inner in line[1]):
            self.dirty = self.wrote = True
        told = re.match(r"worker: left (\d+)( refused .*)?$", replies[-1])
        if not told or told[2] and not self.missing and not self.faulty:
            return wrong + [f"together: {replies[-1]}"]
        self._stepped(int(told[1]))
        return wrong
