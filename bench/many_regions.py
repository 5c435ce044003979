#!/usr/bin/env python3
"""Compares what `check` finds in random folders of up to 1,500 small regions by four workers, by one, and by another checker.

usage: many_regions.py SWORD PLAIN [SECONDS [SEED]]. PLAIN is given the folder, and prints a line `race LOW HIGH` for each pair. Not part of the gate.
"""
import os
import random
import subprocess
import sys
import tempfile
import time

import squares

LINES, ELEMENTS = 60, 12


def random_folder(draw):
    root, lanes = [], []
    for region in range(draw.choice([1, 2, 5, 17, 60, 300, 1500])):
        span = draw.choice([1, 1, 2, 3])
        root.append(squares.record(squares.REGION, 0, 1, 0, span))
        for lane in range(span):
            accesses = [squares.access(draw.choice([squares.READ, squares.WRITE]), 1 + draw.randrange(LINES), draw.randrange(ELEMENTS))
                        for _ in range(draw.choice([0, 1, 2, 8]))]
            lanes.append(([(region, lane, span)], accesses))
    return [([], root)] + lanes


def found(words):
    answer = subprocess.run(words, capture_output=True, text=True)
    return [line for line in answer.stdout.split("\n") if line.startswith("race ")]


def main():
    sword, plain = sys.argv[1:3]
    seconds = int(sys.argv[3]) if len(sys.argv) > 3 else 60
    draw = random.Random(int(sys.argv[4]) if len(sys.argv) > 4 else 1)
    end, folders, differ = time.monotonic() + seconds, 0, 0
    while time.monotonic() < end:
        with tempfile.TemporaryDirectory() as top:
            folder = os.path.join(top, "d")
            squares.put(folder, random_folder(draw))
            four, one = (found([sword, "check", folder, workers]) for workers in "41")
            folders += 1
            if four != one or sorted(four) != sorted(found([plain, folder])):
                differ += 1
                print(f"folder {folders} differs", flush=True)
    print(f"{folders} folders, {differ} differ")


if __name__ == "__main__":
    main()
