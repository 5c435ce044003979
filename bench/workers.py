#!/usr/bin/env python3
"""Compares what `check` says with one worker, which reads one log after another, and with several, which read the lanes of a region at once.

usage: workers.py SWORD [--folders N]

A folder with regions of enough records is checked as it was written, and then N times (250) with a few of its logs damaged.
"""
import argparse
import os
import random
import shutil
import subprocess
import tempfile

KERNEL = """array a i64 64
array b i64 40000
main {
    parallel 4 {
        loop k in 0 .. 4000 { b[tid * 5000 + k] = k }
        a[tid + 1] = a[tid]
        if tid == 2 { parallel 2 { a[9] = tid } }
    }
    parallel 3 { loop k in 0 .. 6000 { b[k] = b[k] + tid } }
}
"""
RECORD, HEADER = 24, 8


def told(sword, folder, workers):
    done = subprocess.run([sword, "check", folder, str(workers)], capture_output=True)
    return done.returncode, done.stdout


def damage(path):
    with open(path, "rb") as log:
        data = bytearray(log.read())
    place = random.randrange(len(data))
    one, other = (HEADER + RECORD * random.randrange((len(data) - HEADER) // RECORD) for _ in range(2))
    kind = random.randrange(4)
    if kind == 0:
        data[place] = random.choice([*range(10), 255, data[place] ^ 1])
    elif kind == 1:
        del data[place:]
    elif kind == 2:
        data += bytes(random.randrange(1, 30))
    else:
        data[one:one + RECORD], data[other:other + RECORD] = data[other:other + RECORD], data[one:one + RECORD]
    with open(path, "wb") as log:
        log.write(data)


def main():
    args = argparse.ArgumentParser()
    args.add_argument("sword")
    args.add_argument("--folders", type=int, default=250)
    args = args.parse_args()
    with tempfile.TemporaryDirectory() as top:
        kernel, whole, folder = (os.path.join(top, name) for name in ("k.kernel", "whole", "damaged"))
        with open(kernel, "w") as out:
            out.write(KERNEL)
        subprocess.run([args.sword, "run", kernel, whole, "65536"], check=True, stdout=subprocess.DEVNULL)
        logs = sorted(name for name in os.listdir(whole) if name.endswith(".swl"))
        differ = 0
        for number in range(args.folders + 1):
            random.seed(number)
            shutil.copytree(whole, folder)
            for name in random.sample(logs, 0 if number == 0 else random.randint(1, 3)):
                damage(os.path.join(folder, name))
            due = told(args.sword, folder, 1)
            for workers in (2, 4, 64):
                if told(args.sword, folder, workers) != due:
                    differ += 1
                    print(f"folder {number}: {workers} workers say something else than {due}")
            shutil.rmtree(folder)
        print(f"{args.folders + 1} folders, {differ} differences")
        raise SystemExit(1 if differ else 0)


main()
