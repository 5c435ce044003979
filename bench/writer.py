#!/usr/bin/env python3
"""Writes a folder of logs by hand: that of the run of examples/shift.kernel. docs/FORMATS.md says what a writer may leave out.

usage: writer.py DIR
"""
import os
import struct
import sys

READ, WRITE, BARRIER, REGION, END = 1, 2, 5, 6, 8


def record(kind, line, size=0, site=0, address=0, value=0):
    return struct.pack(">BBHIQq", kind, size, site, line, address, value)


def row(path, records):
    steps = b"".join(struct.pack(">IHH", *step) for step in path)
    return struct.pack(">II", len(path), 0) + steps.ljust(32, b"\0") + struct.pack(">Q", len(records))


def put(folder, tasks):
    """Writes each task's log, and then the index: a path is a list of (region, lane, span), and the tasks come depth first."""
    os.makedirs(folder)
    for path, records in tasks:
        name = "t" + "".join(f"-{region}.{lane}" for region, lane, _ in path) + ".swl"
        with open(os.path.join(folder, name), "wb") as log:
            log.write(b"SWLOG002" + b"".join(records))
    with open(os.path.join(folder, "index.swi"), "wb") as index:
        index.write(b"SWIDX002" + b"".join(row(path, records) for path, records in tasks))


def shift(lane):
    """What a lane does: a[i+1] = a[i] in line 6, for its four i, where a begins at 4096 and holds zeros."""
    pairs = [(record(READ, 6, 8, 1, 4096 + 8 * i), record(WRITE, 6, 8, 0, 4104 + 8 * i)) for i in range(4 * lane, 4 * lane + 4)]
    return [access for pair in pairs for access in pair] + [record(BARRIER, 7), record(END, 8)]


if __name__ == "__main__":
    put(sys.argv[1], [([], [record(REGION, 4, value=2), record(END, 9)])] + [([(0, lane, 2)], shift(lane)) for lane in range(2)])
