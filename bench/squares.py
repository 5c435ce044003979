#!/usr/bin/env python3
"""Times `check` and `explain` of folders that ask for as much work as their size allows, each at three sizes, of which the next is twice the last.

The shapes: two logs of writes at a line of their own each, and the same at one line; one line under many sets of mutexes in each of 64
lanes; many barrier intervals in one region; many regions of one lane, or two, each; lanes in four nested levels; one element that is read at
many lines of one lane and written in another; runs that begin at one byte with strides that grow. Work that grows with the size takes
2 times as long at the next size, and work that grows with its square 4 times. `explain` is asked for line 2 with itself.

usage: squares.py [N [PLAIN]], at the top of the repository, after `./sword` was built; N is 20000 where it isn't told. PLAIN is another
checker, which is given the folder and timed beside.
"""
import os
import struct
import subprocess
import sys
import tempfile
import time

PROGRAM = os.path.join("crates", "sword", "out", "sword")
READ, WRITE, LOCK, UNLOCK, BARRIER, REGION, END = 1, 2, 3, 4, 5, 6, 8
SIZES = (1, 2, 4)
ROUNDS = 3
LINES = 1_000_000


def record(kind, size, line, addr, value):
    return struct.pack(">BBHIQQ", kind, size, 0, line, addr, value)


def access(kind, line, element):
    return record(kind, 8, line, 4096 + 8 * element, 1)


def row(steps, records):
    fields = b"".join(struct.pack(">IHH", *step) for step in steps) + bytes(8 * (4 - len(steps)))
    return struct.pack(">II", len(steps), 0) + fields + struct.pack(">Q", records)


def put(folder, logs):
    """Puts the tasks, which are pairs of a path and records, in the order of their rows; each log gets its End."""
    os.makedirs(folder)
    rows = []
    for steps, records in logs:
        records = records + [record(END, 0, LINES, 0, 0)]
        name = "t" + "".join(f"-{region}.{lane}" for region, lane, _ in steps) + ".swl"
        with open(os.path.join(folder, name), "wb") as out:
            out.write(b"SWLOG002" + b"".join(records))
        rows.append(row(steps, len(records)))
    with open(os.path.join(folder, "index.swi"), "wb") as out:
        out.write(b"SWIDX002" + b"".join(rows))


def team(lanes):
    """A root whose one region has these lanes."""
    span = len(lanes)
    return [([], [record(REGION, 0, 1, 0, span)])] + [([(0, lane, span)], records) for lane, records in enumerate(lanes)]


def keys(count):
    return team([[access(WRITE, 1 + at, lane * count + at) for at in range(count)] for lane in range(2)])


def one_key(count):
    return team([[access(WRITE, 1, lane * count + at) for at in range(count)] for lane in range(2)])


def mutexes(count):
    each = count // 64
    return team([[part for at in range(each) for part in (
        record(LOCK, 0, 1, at, 0), access(WRITE, 2, lane * each + at), record(UNLOCK, 0, 3, at, 0))] for lane in range(64)])


def barriers(count):
    phases = min(count, 30_000)
    return team([[part for at in range(phases) for part in (access(WRITE, 2, lane), record(BARRIER, 0, 3, 0, 0))] for lane in range(2)])


def regions_of(span, rows):
    """Regions of so many lanes, which write one element, so many lanes in all."""
    count = rows // span
    root = [record(REGION, 0, 1, 0, span) for _ in range(count)]
    return [([], root)] + [([(at, lane, span)], [access(WRITE, 2 + lane, at)]) for at in range(count) for lane in range(span)]


def regions(count):
    return regions_of(1, min(count, 60_000))


def pairs(count):
    return regions_of(2, min(count, 60_000))


def nested(count):
    logs = []

    def lanes(steps, depth):
        fork = [record(REGION, 0, 1, 0, width)] if depth < 4 else []
        logs.append((steps, fork + [access(WRITE, 2, len(logs))]))
        if depth < 4:
            for lane in range(width):
                lanes(steps + [(0, lane, width)], depth + 1)

    width = max(2, min(15, int(count ** 0.25)))
    lanes([], 0)
    return logs


def readers(count):
    return team([[access(READ, 1 + at % 4000, 0) for at in range(count)], [access(WRITE, 4001, 0)]])


def strides(count):
    """Each line writes three elements at equal distances, the first of its lane; the second lane's lie between those of the first."""
    each = count // 3
    return team([[access(WRITE, 1 + lane * each + at, 2 * far * (at + 1) + lane) for at in range(each) for far in range(3)]
                 for lane in range(2)])


SHAPES = [keys, one_key, mutexes, barriers, regions, pairs, nested, readers, strides]


def least(words):
    best = None
    for _ in range(ROUNDS):
        start = time.monotonic()
        child = subprocess.Popen(words, stdout=subprocess.DEVNULL)
        _, status, usage = os.wait4(child.pid, 0)
        seconds = time.monotonic() - start
        best = min(best or seconds, seconds)
    return best, usage.ru_maxrss // 1024, os.waitstatus_to_exitcode(status)


def main():
    base = int(sys.argv[1]) if len(sys.argv) > 1 else 20_000
    plain = sys.argv[2] if len(sys.argv) > 2 else None
    with tempfile.TemporaryDirectory() as place:
        for shape in SHAPES:
            before = asked = None
            for times in SIZES:
                folder = os.path.join(place, f"{shape.__name__}{times}")
                put(folder, shape(base * times))
                size = sum(entry.stat().st_size for entry in os.scandir(folder)) / 1e6
                seconds, megabytes, status = least([PROGRAM, "check", folder, "4"])
                alone = least([PROGRAM, "check", folder, "1"])[0]
                told = f"{shape.__name__}, {size:.1f} MB: status {status}, {seconds:.3f} s by four workers, {alone:.3f} by one"
                if before:
                    told += f", {seconds / before:.1f} times"
                explained = least([PROGRAM, "explain", folder, "2", "2"])[0]
                told += f", {megabytes} MB at most; `explain` {explained:.3f} s"
                if before:
                    told += f", {explained / asked:.1f} times"
                if plain:
                    told += f"; the other {least([plain, folder])[0]:.3f} s"
                print(told, flush=True)
                before, asked = seconds, explained


if __name__ == "__main__":
    main()
