#!/usr/bin/env python3
"""Measures `sword check` against a plain single-threaded sweep, side by side in one run, and prints each goal beside what it gave.

usage: compare_speed.py SWORD PLAIN [--rounds N] [--runs N]

SWORD is the program, and PLAIN a sweep that takes a folder's path alone. The folders are made in a temporary directory:
  flat      8 lanes that write, and after a barrier read their neighbours' elements, N rounds
  wide      64 lanes, an eighth of the rounds, so as many accesses
  tenth     the flat folder with a tenth of the rounds
  barriers  64 lanes with 500 barrier intervals, ten writes in each
  guarded   8 lanes that each read and write one guarded element N times
  readers   64 lanes that read one element, each at 320 lines, and one of which writes it
  fewer     the same with a quarter of the lines
  walked    the flat folder with a byte too many at its end: `check` goes through it, names that place and compares nothing
Each time is the least of so many runs, in seconds. Each turn runs the plain sweep, `check` with 1 and with 4 workers, and, on the flat
folder, the walk. What comparing takes alone is the time of `check` without that of the walk. Memory is the most that was resident.
"""
import argparse
import os
import struct
import subprocess
import tempfile
import time

READ, WRITE, LOCK, UNLOCK, BARRIER, REGION, END = 1, 2, 3, 4, 5, 6, 8
WORKERS = (1, 4)
MEMORY_WORKERS = (1, 2, 4)


def record(kind, size, site, line, addr, value):
    return struct.pack(">BBHIQQ", kind, size, site, line, addr, value)


def row(steps, records):
    fields = b"".join(struct.pack(">IHH", *step) for step in steps) + bytes(8 * (4 - len(steps)))
    return struct.pack(">II", len(steps), 0) + fields + struct.pack(">Q", records)


def write_folder(folder, lanes):
    """A root with one region, whose lanes have these records."""
    os.makedirs(folder)
    span = len(lanes)
    logs = [("t.swl", [], [record(REGION, 0, 0, 1, 0, span), record(END, 0, 0, 50, 0, 0)])]
    for lane, records in enumerate(lanes):
        logs.append((f"t-0.{lane}.swl", [(0, lane, span)], records + [record(END, 0, 0, 50, 0, 0)]))
    for name, _, records in logs:
        with open(os.path.join(folder, name), "wb") as out:
            out.write(b"SWLOG002" + b"".join(records))
    with open(os.path.join(folder, "index.swi"), "wb") as out:
        out.write(b"SWIDX002" + b"".join(row(steps, len(records)) for _, steps, records in logs))


def neighbours(lane, span, rounds):
    """Writes apart, a barrier, and reads of the next lane's elements; one write of lane 3 races with a read of lane 2."""
    def address(k, other):
        return 4096 + 8 * span * (k * (k + 1) // 2) + 8 * other
    records = [record(WRITE, 8, 0, 10, address(k, lane), k) for k in range(rounds)]
    records.append(record(BARRIER, 0, 0, 20, 0, 0))
    records += [record(READ, 8, 1, 30, address(k, (lane + 1) % span), k) for k in range(rounds)]
    if lane == 3:
        records.append(record(WRITE, 4, 2, 40, 4096 + 8 * 3, 0))
    return records


def intervals(lane, span):
    """Ten writes of the lane's own in each of 500 barrier intervals."""
    records = []
    for interval in range(500):
        base = 4096 + 80 * (interval * span + lane)
        records += [record(WRITE, 8, 0, 10, base + 8 * k, k) for k in range(10)]
        records.append(record(BARRIER, 0, 0, 20, 0, 0))
    return records


def guarded(rounds):
    """Reads and writes of one element under one mutex."""
    records = []
    for k in range(rounds):
        records += [
            record(LOCK, 0, 0, 9, 1, 0),
            record(READ, 8, 0, 10, 4096, k),
            record(WRITE, 8, 1, 10, 4096, k + 1),
            record(UNLOCK, 0, 0, 11, 1, 0),
        ]
    return records


def readers(lane, lines):
    """Reads of one element at so many lines, and in one lane a write of it."""
    records = [record(READ, 8, 0, 100 + number, 4096, 0) for number in range(lines)]
    return [record(WRITE, 8, 1, 10, 4096, 0)] + records if lane == 5 else records


def lanes_of(name, rounds):
    return {
        "flat": lambda: [neighbours(lane, 8, rounds) for lane in range(8)],
        "wide": lambda: [neighbours(lane, 64, rounds // 8) for lane in range(64)],
        "tenth": lambda: [neighbours(lane, 8, rounds // 10) for lane in range(8)],
        "barriers": lambda: [intervals(lane, 64) for lane in range(64)],
        "guarded": lambda: [guarded(rounds) for _ in range(8)],
        "readers": lambda: [readers(lane, 320) for lane in range(64)],
        "fewer": lambda: [readers(lane, 80) for lane in range(64)],
        "walked": lambda: [neighbours(lane, 8, rounds) for lane in range(8)],
    }[name]()


def make(folder, name, rounds):
    """Makes the folder in a process of its own: one that is started from here counts the memory of this one as its own."""
    child = os.fork()
    if child == 0:
        write_folder(folder, lanes_of(name, rounds))
        if name == "walked":
            with open(os.path.join(folder, "t-0.7.swl"), "ab") as out:
                out.write(b"\0")
        os._exit(0)
    if os.waitpid(child, 0)[1] != 0:
        raise SystemExit(f"{name}: the folder wasn't made")
    return folder


def run(words):
    """How long the command takes, the most memory that it has, in MB, and what it prints."""
    start = time.monotonic()
    with subprocess.Popen(words, stdout=subprocess.PIPE, stderr=subprocess.DEVNULL) as child:
        text = child.stdout.read()
        _, status, usage = os.wait4(child.pid, 0)
        child.returncode = os.waitstatus_to_exitcode(status)
    took = time.monotonic() - start
    if child.returncode not in (0, 1, 4):
        raise SystemExit(f"{words[0]} ended with status {child.returncode}")
    return took, usage.ru_maxrss / 1000, text


def least_times(commands, runs):
    """The least time of each command, which are run in turn. All but the first print the same."""
    best = [float("inf")] * len(commands)
    texts = set()
    for _ in range(runs):
        for place, words in enumerate(commands):
            took, _, text = run(words)
            best[place] = min(best[place], took)
            if place > 0:
                texts.add(text)
    if len(texts) > 1:
        raise SystemExit(f"{commands[1]}: the report depends on the number of workers")
    return best


def goal(what, value, relation, limit, unit):
    holds = value <= limit if relation == "at most" else value >= limit
    print(f"{what}: {value:.2f} {unit}, goal {relation} {limit:g}{'' if holds else ', NOT REACHED'}")


def main():
    words = argparse.ArgumentParser()
    words.add_argument("sword")
    words.add_argument("plain")
    words.add_argument("--rounds", type=int, default=100_000)
    words.add_argument("--runs", type=int, default=9)
    args = words.parse_args()
    times = {}
    with tempfile.TemporaryDirectory() as top:
        print("folder", "plain", *(f"W {count}" for count in WORKERS), sep="\t")
        for name in ("flat", "wide", "tenth", "barriers", "guarded", "readers", "fewer"):
            folder = make(os.path.join(top, name), name, args.rounds)
            checks = [[args.sword, "check", folder, str(count)] for count in WORKERS]
            times[name] = least_times([[args.plain, folder], *checks], args.runs)
            plain, *took = times[name]
            print(name, f"{plain:.3f}", *(f"{each:.3f} ({each / plain:.1f} times)" for each in took), sep="\t", flush=True)
        walked = make(os.path.join(top, "walked"), "walked", args.rounds)
        flat = os.path.join(top, "flat")
        compared = [[args.sword, "check", flat, str(count)] for count in WORKERS]
        walk = [args.sword, "check", walked, "1"]
        taken = least_times([walk, *compared], 3 * args.runs)
        size = sum(os.path.getsize(os.path.join(flat, name)) for name in os.listdir(flat)) / 1e6
        memory = [run([args.sword, "check", flat, str(count)])[1] for count in MEMORY_WORKERS]
    for place, count in enumerate(WORKERS, 1):
        plain, took = times["flat"][0], times["flat"][place]
        goal(f"flat, W {count}", took / plain, "at most", 3 if count == 1 else 1.3, "times the plain sweep")
        goal(f"wide, W {count}", times["wide"][place] / took, "at most", 1.6, "times the time of flat")
        goal(f"from tenth to flat, W {count}", took / times["tenth"][place], "at most", 12, "times as long")
        goal(f"from fewer to readers, W {count}", times["readers"][place] / times["fewer"][place], "at most", 5, "times as long")
        for name, limit in (("barriers", 5), ("guarded", 1)):
            goal(f"{name}, W {count}", times[name][place] / times[name][0], "at most", limit, "times the plain sweep")
    alone = [each - taken[0] for each in taken[1:]]
    print(f"comparing flat alone: {', '.join(f'W {count} {each:.3f} s' for count, each in zip(WORKERS, alone))}, beside a walk of {taken[0]:.3f} s")
    goal("comparing flat alone, W 4 against W 1", alone[0] / alone[1], "at least", 2.8, "times as fast")
    for count, most in zip(MEMORY_WORKERS, memory):
        goal(f"memory on flat of {size:.1f} MB, W {count}", most, "at most", round(3 * size, 1), "MB")


if __name__ == "__main__":
    main()
