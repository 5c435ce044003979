#!/usr/bin/env python3
"""Measures `run` and `live` on lanes: four at once against one that does as much, many phases, many regions of one phase, a mutex that all lanes want,
and updates of one element.

usage: lanes.py, at the top of the repository, after `./sword` was built. The two run in turn, and each figure is the least of several runs.
"""
import os
import subprocess
import sys
import tempfile
import time

PROGRAM = os.path.join("crates", "sword", "out", "sword")
RUNS = 5


def stores(lanes, count):
    return f"array a i64 1000000 main {{ parallel {lanes} {{ for i in 0 .. {count} {{ a[i / 4] = i }} }} }}\n"


KERNELS = [
    ("one lane, 4,000,000 stores", stores(1, 4_000_000)),
    ("four lanes, 1,000,000 stores each", stores(4, 4_000_000)),
    ("four lanes, 10,000 phases", "array a i64 1 main { parallel 4 { loop k in 0 .. 10000 { barrier } } }\n"),
    ("1,000 regions of four lanes and one phase, nine stores a lane",
     "array a i64 4 main { loop k in 0 .. 1000 { parallel 4 { loop j in 0 .. 9 { a[tid] = j } } } }\n"),
    ("64 lanes, 1,000 critical sections each",
     "array s i64 1 main { parallel 64 { loop k in 0 .. 1000 { critical { s[0] = s[0] + 1 } } } }\n"),
    ("64 lanes, 10,000 critical sections each", "array s i64 1 main { parallel 64 { loop k in 0 .. 10000 { critical { s[0] = s[0] + 1 } } } }\n"),
    ("64 lanes, 10,000 atomic updates each", "array s i64 1 main { parallel 64 { loop k in 0 .. 10000 { atomic s[0] += 1 } } }\n"),
    ("64 lanes in four nested regions of 2, 4, 2 and 4, 1,000 stores each",
     "array a i64 64 main { parallel 2 { parallel 4 { parallel 2 { parallel 4 { loop k in 0 .. 1000 { a[tid] = k } } } } } }\n"),
]


def once(command, path, folder):
    """The seconds, the memory in MB, and what was printed."""
    start = time.monotonic()
    child = subprocess.Popen([PROGRAM, command, path, folder, "4096"], stdout=subprocess.PIPE)
    text = child.stdout.read().decode().split("\n")
    _, status, usage = os.wait4(child.pid, 0)
    seconds = time.monotonic() - start
    if os.waitstatus_to_exitcode(status) != 0:
        sys.exit(f"{command} {path}: {text}")
    subprocess.run(["rm", "-rf", folder], check=True)
    return seconds, usage.ru_maxrss // 1024, text


def measured(place, kernel):
    path = os.path.join(place, "k.kernel")
    with open(path, "w") as out:
        out.write(kernel)
    found = {command: [] for command in ("run", "live")}
    for _ in range(RUNS):
        for command, times in found.items():
            times.append(once(command, path, os.path.join(place, "logs")))
    return {command: min(times) for command, times in found.items()}


def main():
    with tempfile.TemporaryDirectory() as place:
        for what, kernel in KERNELS:
            found = measured(place, kernel)
            told = "; ".join(f"{command} {seconds:.3f} s, {megabytes} MB" for command, (seconds, megabytes, _) in found.items())
            print(f"{what}: {', '.join(found['run'][2][:3])}: {told}", flush=True)


main()
