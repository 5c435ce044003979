#!/usr/bin/env python3
"""Times a number that one thread gives to another and gets back: by `hand_over`, and by two channels of one place each of the crate
crossbeam_channel. Once with no work, and once with some 16 microseconds of work on both sides in between.

usage: hand_over.py, at the top of the repository. It proves and builds the program of bench/hand_over, with the two crates that it stands
on, in a folder of its own, where its sources lose the `.in` of their names.
"""
import os
import shutil
import subprocess
import sys
import tempfile

CRATES = ["sw_base", "hand_over"]
ROUNDS = 20_000
GRAPH = """sw_base: arrayvec
hand_over may_wait=5: atomic_table sw_base
times: hand_over sw_base crossbeam_channel
"""


def built_and_run(place):
    for crate in CRATES:
        shutil.copytree(os.path.join("crates", crate), os.path.join(place, "crates", crate), ignore=shutil.ignore_patterns("out"))
    with open(os.path.join(place, "crates.txt"), "w") as out:
        out.write(GRAPH)
    home = os.path.join(place, "crates", "times")
    shutil.copytree(os.path.join("bench", "hand_over"), home)
    for folder, _, files in os.walk(home):
        for file in files:
            os.rename(os.path.join(folder, file), os.path.join(folder, file.removesuffix(".in")))
    subprocess.run(["git", "init", "-q", place], check=True)
    done = subprocess.run(["rt", "run"], cwd=home, capture_output=True, text=True)
    program = os.path.join(home, "out", "times")
    if not os.path.exists(program):
        sys.exit(done.stdout + done.stderr)
    return subprocess.run([program], capture_output=True, text=True, check=True).stdout


def main():
    with tempfile.TemporaryDirectory() as place:
        lines = [line.split() for line in built_and_run(place).splitlines()]
    if not all(same == "true" for _, _, _, same in lines):
        sys.exit("the two ways came to different numbers")
    for steps in sorted({int(line[0]) for line in lines}):
        rows = [line for line in lines if int(line[0]) == steps]
        parcels, channels = (min(int(row[at]) for row in rows) / ROUNDS for at in (1, 2))
        print(f"{steps} steps of work: {parcels:,.0f} ns by parcels, {channels:,.0f} ns by channels, the least of {len(rows)}")


main()
