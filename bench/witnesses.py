#!/usr/bin/env python3
"""Asks `explain` and `confirm` about every kernel of examples/: each pair of lines that `check` prints has two records, which `confirm` confirms at the
same byte, in both orders; and three pairs that it doesn't print have none.

usage: witnesses.py SWORD, anywhere
"""
import itertools
import os
import re
import subprocess
import sys
import tempfile

EXAMPLES = os.path.join(os.path.dirname(os.path.abspath(__file__)), "..", "examples")
WITNESS = re.compile(r"race row (\d+) \S+ record (\d+) row (\d+) \S+ record (\d+) byte (\d+)\n")


def ask(*words):
    done = subprocess.run(list(map(str, words)), stdout=subprocess.PIPE, text=True)
    return done.returncode, done.stdout


def are_confirmed(sword, folder, low, high):
    status, text = ask(sword, "explain", folder, low, high)
    found = WITNESS.fullmatch(text)
    if status != 1 or not found:
        return False
    row, record, other_row, other, byte = found.groups()
    due = (1, f"race byte {byte}\n")
    return due == ask(sword, "confirm", folder, row, record, other_row, other) == ask(sword, "confirm", folder, other_row, other, row, record)


def wrong_of(sword, kernel, folder):
    ask(sword, "run", kernel, folder, 4096)
    if not os.path.exists(os.path.join(folder, "index.swi")):
        return 0, []
    printed = [tuple(map(int, pair)) for pair in re.findall(r"race (\d+) (\d+)", ask(sword, "check", folder, 2)[1])]
    listing = ask(sword, "show", folder)[1]
    lines = sorted({int(it) for it in re.findall(r"^\d+ (?:read|write|update) .* line (\d+) ", listing, re.M)}) or [1]
    others = [it for it in itertools.combinations_with_replacement([*lines, lines[-1] + 1, lines[-1] + 2], 2) if it not in printed][:3]
    wrong = [it for it in printed if not are_confirmed(sword, folder, *it)]
    wrong += [it for it in others if ask(sword, "explain", folder, *it) != (0, "no race %d %d\n" % it)]
    return len(printed), wrong


def main():
    failed = 0
    for name in sorted(os.listdir(EXAMPLES)):
        if name.endswith(".kernel"):
            with tempfile.TemporaryDirectory() as place:
                pairs, wrong = wrong_of(sys.argv[1], os.path.join(EXAMPLES, name), os.path.join(place, "logs"))
            failed += len(wrong)
            print(f"{name}: {pairs} pairs" + (f", wrong: {wrong}" if wrong else ""))
    sys.exit(1 if failed else 0)


main()
