#!/usr/bin/env python3
"""Compares what `certify` says of each kernel of examples/ with runs of it.

Of a kernel that is certain, each of N runs (50), with buffers of several sizes, must print the text that follows `certain` and leave the same
folder, and `check` must find no race in it. Of another its verdict is printed, and must be one that its text and its runs allow: a construct
at the first line that has one, a stop that a run ends in, too, or races. What differs is printed, and the exit status is then 1.

usage: verdicts.py SWORD [--runs N] [KERNEL ..]
"""
import argparse
import filecmp
import glob
import os
import re
import shutil
import subprocess
import sys
import tempfile

SIZES = [24, 25, 100, 1000, 4096, 16384, 65536, 4194304]
EXAMPLES = os.path.join(os.path.dirname(os.path.abspath(__file__)), "..", "examples", "*.kernel")


def said(*words):
    done = subprocess.run(words, capture_output=True, text=True)
    return done.returncode, done.stdout


def is_same(one, other):
    names = sorted(os.listdir(one))
    return names == sorted(os.listdir(other)) and not any(filecmp.cmpfiles(one, other, names, shallow=False)[1:])


def run(sword, kernel, folder, size):
    shutil.rmtree(folder, ignore_errors=True)
    return said(sword, "run", kernel, folder, str(size))


def first_construct(kernel):
    with open(kernel, encoding="utf-8") as lines:
        for number, line in enumerate(lines, 1):
            if re.search(r"\b(critical|dynamic|atomic)\b", line.split("#")[0]):
                return number
    return None


def is_certain(sword, kernel, text, runs, place):
    first, other = os.path.join(place, "first"), os.path.join(place, "other")
    if run(sword, kernel, first, SIZES[-1]) != (0, text) or said(sword, "check", first, "4") != (0, "races 0\n"):
        return False
    return all(run(sword, kernel, other, SIZES[n % len(SIZES)]) == (0, text) and is_same(first, other) for n in range(runs))


def is_allowed(sword, kernel, verdict, place):
    line = first_construct(kernel)
    if line is not None or "construct" in verdict:
        return verdict == f"uncertain: construct line {line}\n"
    status, text = run(sword, kernel, os.path.join(place, "first"), 4096)
    if verdict.startswith("uncertain: stopped"):
        return status == 5 and verdict == f"uncertain: {text}"
    return status == 0 and verdict.endswith("uncertain: races\n")


def main():
    args = argparse.ArgumentParser()
    args.add_argument("sword")
    args.add_argument("kernels", nargs="*")
    args.add_argument("--runs", type=int, default=50)
    args = args.parse_args()
    wrong = 0
    with tempfile.TemporaryDirectory() as place:
        for kernel in args.kernels or sorted(glob.glob(EXAMPLES)):
            status, verdict = said(args.sword, "certify", kernel)
            head, _, rest = verdict.partition("\n")
            if status == 0 and head == "certain":
                good = is_certain(args.sword, kernel, rest, args.runs, place)
            else:
                good = status == 1 and is_allowed(args.sword, kernel, verdict, place)
            wrong += not good
            print(f"{os.path.basename(kernel)}: {verdict.splitlines()[-1] if head != 'certain' else head}{'' if good else ', and that is wrong'}", flush=True)
    print(f"{wrong} wrong")
    sys.exit(wrong > 0)


main()
