#!/usr/bin/env python3
"""Runs each kernel of examples/ from its file, and compares what `run`, `live`, `check`, `replay` and `certify` print with the table of examples/README.md.

usage: examples.py SWORD [--runs N]

Each kernel is run N times (3) by `run` and by `live`. A kernel without a row, and a row without a kernel, is a fault, too.
"""
import argparse
import collections
import glob
import os
import re
import subprocess
import sys
import tempfile

EXAMPLES = os.path.join(os.path.dirname(os.path.dirname(os.path.abspath(__file__))), "examples")

# What is due of a kernel: lines that `run` prints, each with its alternatives (none: the sums may differ); its pairs (none: it writes no index); the last
# line of `certify`, or for a kernel that is certain the first.
Due = collections.namedtuple("Due", "sums pairs verdict")


def quoted(cell):
    return re.findall(r"`([^`]*)`", cell)


def alternatives(cell):
    """The lines of a cell: those between commas, each with what may stand in its place."""
    return [quoted(part) for part in cell.split(",")]


def table():
    """What is due of each kernel, by its name."""
    due = {}
    with open(os.path.join(EXAMPLES, "README.md"), encoding="utf-8") as file:
        rows = [[cell.strip() for cell in line.strip().strip("|").split("|")] for line in file if line.startswith("| `")]
    for kernel, sums, pairs, verdict, _, _ in rows:
        told = None if sums == "may differ" else alternatives(sums)
        due[quoted(kernel)[0]] = Due(told, None if pairs == "no index" else quoted(pairs), quoted(verdict)[0])
    return due


def ask(*words):
    done = subprocess.run(words, stdout=subprocess.PIPE, text=True)
    return done.returncode, done.stdout.split("\n")[:-1]


def faults_of_run(sword, kernel, due, word, place):
    """What is wrong with one run."""
    logs = os.path.join(place, "logs")
    status, lines = ask(sword, word, kernel, logs, "4096")
    stops = due.pairs is None
    if status != (5 if stops else 0):
        yield f"{word} ends with {status}"
    told = lines if stops else [line for line in lines if line.startswith("sum ")]
    if due.sums is not None and not (len(told) == len(due.sums) and all(line in lines for line, lines in zip(told, due.sums))):
        yield f"{word} prints {told}"
    wanted = (4, ["no index"]) if stops else (int(due.pairs != []), due.pairs + [f"races {len(due.pairs)}"])
    if ask(sword, "check", logs, "2") != wanted:
        yield f"check prints {ask(sword, 'check', logs, '2')}"
    if not stops and ask(sword, "replay", kernel, logs) != (0, ["same"]):
        yield "replay doesn't print same"


def faults(sword, name, due, runs):
    kernel = os.path.join(EXAMPLES, f"{name}.kernel")
    for word in ("run", "live"):
        for _ in range(runs):
            with tempfile.TemporaryDirectory() as place:
                yield from faults_of_run(sword, kernel, due, word, place)
    status, lines = ask(sword, "certify", kernel)
    if (lines[0] if due.verdict == "certain" else lines[-1]) != due.verdict or status != (due.verdict != "certain"):
        yield f"certify ends with {status} and prints {lines}"


def main():
    reader = argparse.ArgumentParser()
    reader.add_argument("sword")
    reader.add_argument("--runs", type=int, default=3)
    given = reader.parse_args()
    due, wrong = table(), 0
    there = {os.path.basename(path)[: -len(".kernel")] for path in glob.glob(os.path.join(EXAMPLES, "*.kernel"))}
    for name in sorted(there ^ set(due)):
        print(f"{name}: {'no row' if name in there else 'no kernel'}")
        wrong += 1
    for name in sorted(there & set(due)):
        found = list(faults(given.sword, name, due[name], given.runs))
        print(f"{name}: {'; '.join(found) or 'as its row says'}")
        wrong += found != []
    print(f"{len(there) - wrong} passed, {wrong} failed")
    return wrong > 0


if __name__ == "__main__":
    sys.exit(main())
