#!/usr/bin/env python3
"""Writes a large folder of logs: eight lanes that write apart, a barrier, reads of each lane's neighbour, and one race.

usage: generate.py DIR N

The folder has 9 logs with 16 * N + 1 accesses in all. Its one pair of racing lines is 30 and 40.
"""
import os
import struct
import sys

READ, WRITE, BARRIER, REGION, END = 1, 2, 5, 6, 8
LANES = 8


def record(kind, size, site, line, addr, value):
    return struct.pack(">BBHIQQ", kind, size, site, line, addr, value)


def triangle(k):
    return k * (k + 1) // 2


def lane_log(lane, n):
    neighbour = (lane + 1) % LANES
    log = [record(WRITE, 8, 0, 10, 4096 + 64 * triangle(k) + 8 * lane, k) for k in range(n)]
    log.append(record(BARRIER, 0, 0, 20, 0, 0))
    log += [record(READ, 8, 1, 30, 4096 + 64 * triangle(k) + 8 * neighbour, k) for k in range(n)]
    if lane == 3:
        log.append(record(WRITE, 4, 2, 40, 4120, 0))
    log.append(record(END, 0, 0, 50, 0, 0))
    return log


def row(steps, records):
    fields = b"".join(struct.pack(">IHH", *step) for step in steps) + bytes(8 * (4 - len(steps)))
    return struct.pack(">II", len(steps), 0) + fields + struct.pack(">Q", records)


def main():
    folder, n = sys.argv[1], int(sys.argv[2])
    os.makedirs(folder, exist_ok=True)
    logs = {"t.swl": ([], [record(REGION, 0, 0, 1, 0, LANES), record(END, 0, 0, 50, 0, 0)])}
    for lane in range(LANES):
        logs[f"t-0.{lane}.swl"] = ([(0, lane, LANES)], lane_log(lane, n))
    for name, (_, records) in logs.items():
        with open(os.path.join(folder, name), "wb") as out:
            out.write(b"SWLOG002" + b"".join(records))
    with open(os.path.join(folder, "index.swi"), "wb") as out:
        out.write(b"SWIDX002" + b"".join(row(steps, len(records)) for steps, records in logs.values()))


if __name__ == "__main__":
    main()
