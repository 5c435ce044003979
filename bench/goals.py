#!/usr/bin/env python3
"""Measures what the program's speed is held to, in one run and beside a plain sweep, and prints each goal with what it gave.

usage: goals.py SWORD PLAIN [--before OLD] [--runs N] [--part NAME ..]

SWORD is the program, PLAIN a sweep that takes a folder's path alone, and OLD the program before a change, for the one goal that is set
beside it. The parts, all where none is named:
  walks    a walk through the three folders of `walk.py`, per record
  keys     two logs of 4,194,303 writes, at a line of their own each and at one line: time, and memory beside the folder
  checks   `check` of the flat folder of `compare_speed.py`, with 1 and with 4 workers
  kernel   a run of 2,400,000 records on four lanes: processor time per record
  stores   a run of a million stores with buffers of 65,536 bytes
  show     a listing of the flat folder, per record
  squares  the folders of `squares.py`: how their time grows from one size to twice that size
Each figure is the least of so many runs. What is compared runs in turn. For figures that count, nothing else may run.
"""
import argparse
import os
import subprocess
import sys
import tempfile
import time

import compare_speed
import measure
import squares
import walk
from compare_speed import goal

ROUNDS = 100_000
FLAT = 16 * ROUNDS + 1
KEYS = walk.MOST - 1
SUMS = 800_000
KERNEL = f"array a i64 {SUMS} main {{ parallel 4 {{ for i in 0 .. {SUMS} {{ a[i] = a[i] + a[{SUMS - 1} - i] }} }} }}\n"


def measured(commands, runs, made=None):
    """Of each command, which run in turn: the least time, the least processor time, and the most memory in MB. `made` is removed."""
    found = [[float("inf"), float("inf"), 0.0] for _ in commands]
    for _ in range(runs):
        for words, least in zip(commands, found):
            start = time.monotonic()
            with subprocess.Popen(words, stdout=subprocess.DEVNULL) as child:
                _, status, usage = os.wait4(child.pid, 0)
                child.returncode = os.waitstatus_to_exitcode(status)
            least[0] = min(least[0], time.monotonic() - start)
            least[1] = min(least[1], usage.ru_utime + usage.ru_stime)
            least[2] = max(least[2], usage.ru_maxrss / 1000)
            if made:
                subprocess.run(["rm", "-rf", made], check=True)
            if child.returncode not in (0, 1, 4):
                raise SystemExit(f"{words} ended with status {child.returncode}")
    return found


def make(folder, writer, *args):
    """Has a process of its own make the folder: one that is started from here counts the memory of this one as its own."""
    child = os.fork()
    if child == 0:
        writer(folder, *args)
        os._exit(0)
    if os.waitpid(child, 0)[1] != 0:
        raise SystemExit(f"{folder} wasn't made")
    return folder


def size_of(folder):
    return sum(entry.stat().st_size for entry in os.scandir(folder)) / 1e6


def write_lines(folder, own):
    """Two lanes that write as many elements as a log may have, at a line of its own each or all at one."""
    os.makedirs(folder)
    end = walk.record(walk.END, 0, 9, 0, 0)
    with open(os.path.join(folder, "t.swl"), "wb") as out:
        out.write(b"SWLOG002" + walk.record(walk.REGION, 0, 1, 0, 2) + end)
    for lane in range(2):
        with open(os.path.join(folder, f"t-0.{lane}.swl"), "wb") as out:
            out.write(b"SWLOG002")
            for at in range(KEYS):
                out.write(walk.record(walk.WRITE, 8, 1 + at if own else 1, 4096 + 8 * (lane * KEYS + at), 1))
            out.write(end)
    with open(os.path.join(folder, "index.swi"), "wb") as out:
        out.write(b"SWIDX002" + walk.row([], 2) + b"".join(walk.row([(0, lane, 2)], KEYS + 1) for lane in range(2)))


def write_walked(folder, elements):
    """A folder of `walk.py`, whose last log has a byte too many."""
    with open(walk.one_log(folder, elements), "ab") as out:
        out.write(b"\0")


def write_flat(folder, walked):
    compare_speed.write_folder(folder, compare_speed.lanes_of("flat", ROUNDS))
    if walked:
        with open(os.path.join(folder, "t-0.7.swl"), "ab") as out:
            out.write(b"\0")


def walks(args, top):
    folders = [("no stride", make(f"{top}/walked", write_flat, True), FLAT)]
    folders += [(f"{elements} element(s) in turn", make(f"{top}/again{elements}", write_walked, elements), walk.MOST) for elements in (1, 1000)]
    found = measured([[args.sword, "check", folder, "1"] for _, folder, _ in folders], args.runs)
    for (what, _, records), (took, _, most) in zip(folders, found):
        goal(f"walk, {what} ({most:.0f} MB)", 1e9 * took / records, "at most", 28, "ns a record")


def keys(args, top):
    one, own = make(f"{top}/one", write_lines, False), make(f"{top}/own", write_lines, True)
    runs = max(1, args.runs // 4)
    found = measured([[program, *words] for folder in (one, own) for program, *words in ([args.sword, "check", folder, "1"], [args.plain, folder])], runs)
    (one_took, _, one_most), one_plain, (own_took, _, own_most), own_plain = found
    print(f"keys: one line {one_took:.2f} s, {one_most:.0f} MB (plain {one_plain[0]:.2f} s, {one_plain[2]:.0f} MB); "
          f"a line each {own_took:.2f} s, {own_most:.0f} MB (plain {own_plain[0]:.2f} s, {own_plain[2]:.0f} MB)")
    goal("keys, a line each", own_took / one_took, "at most", 5, "times the time of one line")
    goal("keys, memory", own_most / size_of(own), "at most", 6, "times the folder")
    goal("keys, memory for a key", 1e6 * own_most / (2 * KEYS), "at most", 144, "bytes")


def checks(args, top):
    folder = make(f"{top}/flat", write_flat, False)
    plain, one, four = measured([[args.plain, folder], [args.sword, "check", folder, "1"], [args.sword, "check", folder, "4"]], args.runs)
    print(f"checks: plain {plain[0]:.3f} s, W 1 {one[0]:.3f} s, W 4 {four[0]:.3f} s, {four[2]:.0f} MB")
    goal("check, W 1", one[0] / plain[0], "at most", 1, "times the plain sweep")
    goal("check, W 4", four[0] / plain[0], "at most", 0.35, "times the plain sweep")


def kernel(args, top):
    path = f"{top}/sums.kernel"
    with open(path, "w") as out:
        out.write(KERNEL)
    logs = f"{top}/sums"
    ((took, work, _),) = measured([[args.sword, "run", path, logs, "4096"]], args.runs, logs)
    goal(f"kernel on four lanes ({took:.3f} s)", 1e9 * work / (3 * SUMS), "at most", 60, "ns of processor time a record")


def stores(args, top):
    path = f"{top}/stores.kernel"
    with open(path, "w") as out:
        out.write(measure.KERNEL)
    logs = f"{top}/stores"
    programs = [args.sword] + ([args.before] if args.before else [])
    now, *before = measured([[program, "run", path, logs, "65536"] for program in programs], args.runs, logs)
    print(f"stores: {now[0]:.3f} s")
    if before:
        goal("a million stores", now[0] / before[0][0], "at most", 0.6, "times the time before")


def show(args, top):
    folder = make(f"{top}/shown", write_flat, False)
    ((took, _, most),) = measured([[args.sword, "show", folder]], max(1, args.runs // 2))
    goal(f"show ({took:.2f} s, {most:.0f} MB)", 1e6 * took / FLAT, "at most", 0.4, "microseconds a record")


def write_shape(folder, shape, count):
    squares.put(folder, shape(count))


def grow(args, top):
    for shape in squares.SHAPES:
        before = None
        for times in squares.SIZES:
            folder = make(f"{top}/{shape.__name__}{times}", write_shape, shape, 20_000 * times)
            sword, one, plain = measured([[args.sword, "check", folder, "4"], [args.sword, "check", folder, "1"], [args.plain, folder]], max(1, args.runs // 3))
            print(f"{shape.__name__}, {size_of(folder):.1f} MB: W 4 {sword[0]:.3f} s, {sword[2]:.0f} MB; W 1 {one[0]:.3f} s; plain {plain[0]:.3f} s", flush=True)
            goal(f"{shape.__name__}, four workers", sword[0] / one[0], "at most", 1.5, "times the time of one")
            if before:
                goal(f"{shape.__name__}, twice the size", sword[0] / before, "at most", 2.5, "times the time")
            before = sword[0]


PARTS = {"walks": walks, "keys": keys, "checks": checks, "kernel": kernel, "stores": stores, "show": show, "squares": grow}


def main():
    words = argparse.ArgumentParser()
    words.add_argument("sword")
    words.add_argument("plain")
    words.add_argument("--before")
    words.add_argument("--runs", type=int, default=9)
    words.add_argument("--part", nargs="+", choices=PARTS, default=list(PARTS))
    args = words.parse_args()
    for name in args.part:
        with tempfile.TemporaryDirectory() as top:
            PARTS[name](args, top)
            sys.stdout.flush()


if __name__ == "__main__":
    main()
