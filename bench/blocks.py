#!/usr/bin/env python3
"""Compares `run` of two programs side by side: how long each takes, and that both leave the same folder.

usage: blocks.py SWORD [OTHER] [--runs N] [--kernels N]

Without OTHER it is SWORD itself, whose writers can't be started: it preloads `bench/alone.c`, and so wants gcc, as the last case does.

Each turn runs both, and each time is the least of N (5). The last cases preload `bench/slow.c`, where gcc is there and the programs are
linked dynamically: each append takes 100 microseconds longer. Then so many random kernels (1000) that neither race nor draw are run by
both, with sizes of 24 to 4,096 bytes, and every tenth with loops that are long enough for blocks with a writer; their folders are compared byte for byte.
"""
import argparse
import filecmp
import os
import random
import shutil
import subprocess
import sys
import tempfile
import time

STORES = "array a i64 1000000 main { parallel 4 { for i in 0 .. 4000000 { a[i / 4] = i } } }\n"
REGIONS = "array a i64 64 main { loop k in 0 .. 1000 { parallel 64 { loop j in 0 .. 9 { a[tid] = j } } } }\n"
# A lane alone takes about as long to fill a block of 32,768 bytes as such an append takes.
SLOW = "array a i64 4 main {{ parallel {} {{ loop k in 0 .. 400000 {{ a[tid] = a[tid] * 3 + k }} }} }}\n"
CASES = [
    ("four lanes, 1,000,000 stores each, SIZE 65536", STORES, 65536, False),
    ("the same, SIZE 16384", STORES, 16384, False),
    ("the same, SIZE 4096", STORES, 4096, False),
    ("1,000 regions of 64 lanes, ten records each, SIZE 4096", REGIONS, 4096, False),
] + [
    (f"lanes: {lanes}, 800,000 accesses each, appends of 100 us, SIZE {size}", SLOW.format(lanes), size, True)
    for lanes in (1, 2, 4)
    for size in (16384, 32768, 65536)
]


def library(place, name):
    """The library of a source beside this script, or None without gcc."""
    path = os.path.join(place, f"{name}.so")
    source = os.path.join(os.path.dirname(os.path.abspath(__file__)), f"{name}.c")
    built = shutil.which("gcc") and subprocess.run(["gcc", "-shared", "-fPIC", "-O2", "-o", path, source, "-ldl"]).returncode == 0
    return path if built else None


def run(program, kernel, folder, size, preload=()):
    shutil.rmtree(folder, ignore_errors=True)
    env = dict(os.environ, LD_PRELOAD=":".join(preload)) if preload else None
    start = time.monotonic()
    done = subprocess.run([program, "run", kernel, folder, str(size)], capture_output=True, env=env)
    seconds = time.monotonic() - start
    if done.returncode != 0:
        sys.exit(f"{program} {size}: {done.returncode} {done.stdout[:200]}")
    return seconds


def same(one, other):
    names = sorted(os.listdir(one))
    return names == sorted(os.listdir(other)) and not filecmp.cmpfiles(one, other, names, shallow=False)[1]


def body(lane_free, depth, times):
    """Statements of a lane, which touches its own element alone. Loops in a lane of the root's run `times` as often."""
    lines = []
    for _ in range(random.randint(1, 4)):
        kind = random.randint(0, 5)
        if kind == 0:
            lines.append(f"a[{lane_free}] = a[{lane_free}] + {random.randint(1, 9)}")
        elif kind == 1:
            lines.append(f"loop v{depth}{len(lines)} in 0 .. {random.randint(1, 60) * times} {{ a[{lane_free}] = v{depth}{len(lines)} }}")
        elif kind == 2:
            lines.append("barrier")
        elif kind == 3 and depth < 2:
            span = random.randint(1, 3)
            lines.append(f"parallel {span} {{ b[{lane_free} * 4 + tid] = {random.randint(1, 99)} }}")
        else:
            lines.append(f"loop w{depth}{len(lines)} in 0 .. {random.randint(1, 9)} {{ a[{lane_free}] = w{depth}{len(lines)} * 3 }}")
    return "\n".join(lines)


def kernel_text(times):
    span = random.randint(1, 6)
    regions = []
    for _ in range(random.randint(1, 3)):
        regions.append(f"parallel {span} {{\nlet t = tid\n{body('t', 1, times)}\n}}")
    return "array a i64 64\narray b i64 256\nmain {\na[0] = 1\n" + "\n".join(regions) + "\n}\n"


def measured(args, programs, place):
    slow = library(place, "slow")
    path = os.path.join(place, "k.kernel")
    folders = [os.path.join(place, "one"), os.path.join(place, "other")]
    for what, text, size, is_slow in CASES:
        if is_slow and not slow:
            continue
        with open(path, "w") as out:
            out.write(text)
        best = [None, None]
        for _ in range(args.runs):
            for n, (program, preload) in enumerate(programs):
                seconds = run(program, path, folders[n], size, preload + ([slow] if is_slow else []))
                best[n] = seconds if best[n] is None else min(best[n], seconds)
        told = "same folder" if same(*folders) else "other folder"
        print(f"{what}: {best[0]:.3f} s against {best[1]:.3f} s, {best[1] / best[0]:.2f} times as fast, {told}", flush=True)


def compared(args, programs, place):
    path = os.path.join(place, "k.kernel")
    folders = [os.path.join(place, "one"), os.path.join(place, "other")]
    for number in range(args.kernels):
        random.seed(number)
        with open(path, "w") as out:
            out.write(kernel_text(100 if number % 10 == 1 else 1))
        size = 24 + random.randint(0, 4072)
        if number % 10 == 1:
            size = random.choice([16384, 16407, 20000, 65536])
        elif number % 3 == 0:
            size = random.choice([24, 25, 47, 48, 72, 96])
        for n, (program, preload) in enumerate(programs):
            run(program, path, folders[n], size, preload)
        if not same(*folders):
            shutil.copy(path, "differs.kernel")
            sys.exit(f"kernel {number} with SIZE {size} differs: differs.kernel")
    print(f"{args.kernels} random kernels: the same folders")


def main():
    args = argparse.ArgumentParser()
    args.add_argument("sword")
    args.add_argument("other", nargs="?")
    args.add_argument("--runs", type=int, default=5)
    args.add_argument("--kernels", type=int, default=1000)
    args = args.parse_args()
    with tempfile.TemporaryDirectory() as place:
        alone = [] if args.other else [library(place, "alone") or sys.exit("no gcc")]
        programs = [(args.sword, []), (args.other or args.sword, alone)]
        measured(args, programs, place)
        compared(args, programs, place)


main()
