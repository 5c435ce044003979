"""A folder of logs (docs/FORMATS.md), read once. `check` says before that it keeps every rule, so nothing is tested here."""
import array
import os
import re
import struct
import subprocess
import sys
from collections import defaultdict
from functools import lru_cache
from typing import NamedTuple

ROOT = os.path.dirname(os.path.dirname(os.path.realpath(__file__)))
SCRIPT, BUILT = os.path.join(ROOT, "sword"), os.path.join(ROOT, "crates", "sword", "out", "sword")

RECORD, STEP = struct.Struct(">BBHIQq"), struct.Struct(">IHH")
HEADER, ROW = 8, 48
LOCK, UNLOCK, BARRIER, REGION = 3, 4, 5, 6
ACCESSES = {1: "read", 2: "write", 9: "update"}
OTHERS = re.compile(b"[^\x01\x02\x09]")


class Program:
    """The program. The script builds it if need be, and hands the first words on; the later ones go to what it built."""

    def __init__(self):
        self.path = os.environ.get("SWORD") or SCRIPT

    def ask(self, *words):
        """Returns the status and what is printed."""
        ran = subprocess.run([self.path, *map(str, words)], stdout=subprocess.PIPE, text=True)
        if self.path == SCRIPT:
            self.path = BUILT
        return ran.returncode, ran.stdout


class Interval(NamedTuple):
    """A barrier interval of a team: the path of the task that forked it, the number of its region there, and that of the interval, from 0."""

    above: tuple
    region: int
    phase: int


class Stretch:
    """Accesses of a task with no region or barrier in between."""

    def __init__(self, first):
        self.first, self.last, self.accesses = first, first, 0


class Task:
    """A log: its barrier intervals, each a list of stretches and numbers of regions, and what accesses each has."""

    def __init__(self, path, records):
        self.path, self.records = path, records
        self.name = "t" + "".join(f"-{region}.{lane}" for region, lane in path) + ".swl"
        self.phases, self.seen, self.barriers = [[]], [set()], []
        self.spans, self.lines, self.forked = [], [], []

    def read(self, kinds, heads, body):
        before = 0
        for it in OTHERS.finditer(kinds):
            at = it.start()
            if at > before:
                self.add_accesses(heads[before:at], before + 1)
            before = at + 1
            self.add_other(*RECORD.unpack_from(body, RECORD.size * at))

    def add_accesses(self, heads, first):
        if not self.phases[-1] or not isinstance(self.phases[-1][-1], Stretch):
            self.phases[-1].append(Stretch(first))
        stretch = self.phases[-1][-1]
        stretch.accesses += len(heads)
        stretch.last = first + len(heads) - 1
        self.seen[-1].update(heads)

    def add_other(self, kind, size, site, line, address, value):
        if kind == BARRIER:
            self.barriers.append(line)
            self.phases.append([])
            self.seen.append(set())
        elif kind == REGION:
            self.phases[-1].append(len(self.spans))
            self.forked.append(len(self.phases) - 1)
            self.spans.append(value)
            self.lines.append(line)

    def place(self, number):
        """The barrier interval of a record of an access, and which item of it has the record, both from 0."""
        return next(
            (phase, at)
            for phase, items in enumerate(self.phases)
            for at, it in enumerate(items)
            if isinstance(it, Stretch) and it.first <= number <= it.last
        )


class Record:
    """One access: what its record says, how often such a one was made by then, and which mutexes are held, each since which line."""

    def __init__(self, task, number, row, kinds, heads, body):
        self.task, self.number, self.row = task, number, row
        kind, self.size, self.site, self.line, self.address, self.value = RECORD.unpack_from(body, RECORD.size * (number - 1))
        self.kind = ACCESSES[kind]
        self.turn = heads[:number].count(heads[number - 1])
        self.held = held_at(kinds[:number], body)
        self.phase, self.item = task.place(number)


def held_at(kinds, body):
    held = []
    for it in OTHERS.finditer(kinds):
        kind, _, _, line, mutex, _ = RECORD.unpack_from(body, RECORD.size * it.start())
        if kind == LOCK:
            held.append((mutex, line))
        elif kind == UNLOCK:
            held.pop()
    return held


def path_of(name):
    """The path of the task whose log has this name."""
    return tuple(tuple(map(int, step.split("."))) for step in name[1:-4].split("-")[1:])


class Folder:
    """All tasks of a folder, by their paths."""

    def __init__(self, place):
        self.place, self.tasks, self.below = place, {}, defaultdict(list)
        # Most races of a folder are found in the same few logs.
        self.parts = lru_cache(maxsize=2)(self.parts)
        for path, records in self.rows():
            task = self.tasks[path] = Task(path, records)
            task.read(*self.parts(task))
            for depth, (region, _) in enumerate(path):
                self.below[path[:depth], region].append(task)
        self.records = sum(it.records for it in self.tasks.values())

    def rows(self):
        with open(os.path.join(self.place, "index.swi"), "rb") as file:
            data = file.read()
        for at in range(HEADER, len(data), ROW):
            depth, records = int.from_bytes(data[at : at + 4], "big"), int.from_bytes(data[at + 40 : at + ROW], "big")
            yield tuple(STEP.unpack_from(data, at + 8 + STEP.size * it)[:2] for it in range(depth)), records

    def parts(self, task):
        """The kinds of the records of a log, the first eight bytes of each as a number, and all bytes."""
        with open(os.path.join(self.place, task.name), "rb") as file:
            body = file.read()[HEADER:]
        words = array.array("Q", body)
        if sys.byteorder == "little":
            words.byteswap()
        return body[:: RECORD.size], words[::3], body

    def record(self, name, number, row):
        task = self.tasks[path_of(name)]
        return Record(task, number, row, *self.parts(task))

    def phase_at(self, task, depth):
        """In which barrier intervals of its team the lane above this task at this depth has the records of this task; None stands for all."""
        return self.tasks[task.path[: depth + 1]].forked[task.path[depth + 1][0]] if len(task.path) > depth + 1 else None

    def seen_in(self, interval):
        """What accesses stand in a barrier interval: for each line the kinds and sites of them."""
        found, depth = defaultdict(set), len(interval.above)
        for task in self.below[interval.above, interval.region]:
            phase = self.phase_at(task, depth)
            if phase is None:
                heads = task.seen[interval.phase] if interval.phase < len(task.seen) else ()
            else:
                heads = set().union(*task.seen) if phase == interval.phase else ()
            for head in heads:
                found[head & 0xFFFFFFFF].add((ACCESSES[head >> 56], head >> 32 & 0xFFFF))
        return found

    def began(self, task, interval):
        """The line of the barrier at which this interval began for the lane above a task; 0 for the first one."""
        lane = self.tasks[task.path[: len(interval.above) + 1]]
        return lane.barriers[interval.phase - 1] if interval.phase else 0

    def interval(self, one, other):
        """The barrier interval in which two records race, where their paths part."""
        depth = next(at for at, (a, b) in enumerate(zip(one.task.path, other.task.path)) if a != b)
        phase = self.phase_at(one.task, depth)
        return Interval(one.task.path[:depth], one.task.path[depth][0], one.phase if phase is None else phase)
