#!/usr/bin/env python3
"""Runs random small kernels, and compares what `sword` does with a plain second program (plain/kernels.rs) that follows docs/KERNELS.md.

For each number N from the seed on: a random kernel is run by `run` and by `live`, each with buffers of some size. What they print and leave must be a
run by the definitions: each log the trace of its task, each chunk drawn once, a legal history of all accesses that ends in the sums, or the stop that
is due; `check` prints the races that a search of the graph of edges finds, and `replay` prints `same`. `certify` prints what a serial run tells. Of
a damaged copy of the folder `replay`, `check` and `show` say the same as the plain program. Then of a changed text `run` says the same: its refusal,
or that it is a kernel.

What differs is printed with its number, and kept in the folder that is named; the exit status is then 1.

usage: soak.py SWORD [--runs COUNT] [--seed FIRST] [--keep DIR] [--minutes M] [--plain PROGRAM]

PROGRAM is the plain program, which is built from its source if none is given. Given as SWORD, too, it is compared with itself.
"""
import argparse
import collections
import os
import random
import shutil
import subprocess
import sys
import tempfile
import time

HERE = os.path.dirname(os.path.abspath(__file__))
LIMIT = 60


def plain_program(place):
    program = os.path.join(place, "kernels")
    source = os.path.join(HERE, "plain", "kernels.rs")
    subprocess.run(["rustc", "--edition", "2021", "-O", "-o", program, source], check=True)
    return program


class Plain:
    """The plain program, which answers line by line."""

    def __init__(self, program):
        self.process = subprocess.Popen([program, "serve"], stdin=subprocess.PIPE, stdout=subprocess.PIPE, text=True)

    def ask(self, *words):
        self.process.stdin.write(" ".join(map(str, words)) + "\n")
        self.process.stdin.flush()
        text = ""
        while True:
            line = self.process.stdout.readline()
            if line.startswith("= ") or not line:
                return (int(line[2:]) if line else -1), text
            text += line


class Soak:
    def __init__(self, sword, plain, place, keep):
        self.sword, self.plain, self.place, self.keep = sword, plain, place, keep
        self.seen = collections.Counter()
        self.differences = 0

    def path(self, name):
        return os.path.join(self.place, name)

    def ask(self, *words):
        try:
            done = subprocess.run([self.sword, *map(str, words)], capture_output=True, text=True, timeout=LIMIT)
        except subprocess.TimeoutExpired:
            return -1, f"no end after {LIMIT} seconds\n"
        return done.returncode, done.stdout + done.stderr

    def compare(self, number, what, due, found):
        if due == found:
            return True
        self.differences += 1
        kept = os.path.join(self.keep, f"{number}-{what}")
        print(f"number {number}, {what}: due {due}, found {found}, kept in {kept}", flush=True)
        shutil.copytree(self.place, kept, dirs_exist_ok=True)
        return False

    def run(self, number, command, size):
        """Runs the kernel; whether it left a whole folder."""
        kernel, folder, out = self.path("kernel"), self.path("run"), self.path("out")
        shutil.rmtree(folder, ignore_errors=True)
        status, text = self.ask(command, kernel, folder, size)
        with open(out, "w") as file:
            file.write(text)
        answer = self.plain.ask("ran", kernel, folder, out, status)
        self.seen[f"{command} with status {status}"] += 1
        if answer[0] == 2:
            self.seen["histories not found, too many states"] += 1
        else:
            self.compare(number, command, (0, "well\n"), answer)
        if status == 5:
            self.compare(number, "check", (4, "no index\n"), self.ask("check", folder, 1))
        return status == 0

    def judge(self, number, workers):
        """Asks about the folder of the run."""
        kernel, folder = self.path("kernel"), self.path("run")
        self.compare(number, "replay", (0, "same\n"), self.ask("replay", kernel, folder))
        due = self.plain.ask("check", folder)
        self.seen[f"checks with status {due[0]}"] += 1
        self.compare(number, "check", due, self.ask("check", folder, workers))

    def certify(self, number):
        kernel = self.path("kernel")
        due, found = self.plain.ask("certify", kernel), self.ask("certify", kernel)
        if due[0] == 8:
            self.seen["verdicts not found, too many records"] += 1
            return
        words = [word for word in due[1].split("uncertain: ")[-1].split() if word.isalpha()]
        self.seen[f"verdicts: {words[0]}"] += 1
        self.compare(number, "certify", due, found)

    def damage(self, number):
        kernel, folder, new = self.path("kernel"), self.path("run"), self.path("damaged")
        self.plain.ask("damage", number, folder, new)
        due = self.plain.ask("replay", kernel, new)
        self.seen[f"replays of damaged folders with status {due[0]}"] += 1
        self.compare(number, "replay-damaged", due, self.ask("replay", kernel, new))
        self.compare(number, "check-damaged", self.plain.ask("check", new), self.ask("check", new, 2))
        self.compare(number, "show-damaged", self.plain.ask("show", new), self.ask("show", new))

    def change(self, number):
        """Asks about a changed text. One that is a kernel might run for long, and so it is only read."""
        text, folder = self.path("changed"), self.path("new")
        self.plain.ask("change", number, text)
        due = self.plain.ask("kernel", text)
        self.seen[f"changed texts: {due[1].split()[-1]}"] += 1
        if due[0] == 0:
            self.compare(number, "text", (4, "no index\n"), self.ask("replay", text, folder))
            return
        self.compare(number, "text", due, self.ask("run", text, folder, 24))
        self.compare(number, "text-folder", False, os.path.exists(folder) and bool(os.listdir(folder)))
        shutil.rmtree(folder, ignore_errors=True)

    def number(self, number):
        draw = random.Random(number)
        self.plain.ask("make", number, self.path("kernel"))
        for command in ["run", "live"]:
            size = draw.choice([24, 25, 47, 48, 72, 100, 256, 4096, 65536, 4194304])
            if self.run(number, command, size):
                self.judge(number, draw.choice([1, 2, 4]))
                self.damage(number)
        self.certify(number)
        self.change(number)


def main():
    parser = argparse.ArgumentParser(description=__doc__, formatter_class=argparse.RawDescriptionHelpFormatter)
    parser.add_argument("sword")
    parser.add_argument("--runs", type=int, default=10000)
    parser.add_argument("--seed", type=int, default=1)
    parser.add_argument("--keep", default="soak-differences")
    parser.add_argument("--minutes", type=float, default=1e9)
    parser.add_argument("--plain")
    words = parser.parse_args()
    end = time.monotonic() + 60 * words.minutes
    with tempfile.TemporaryDirectory(dir="/dev/shm" if os.path.isdir("/dev/shm") else None) as place:
        program = words.plain or plain_program(place)
        work = os.path.join(place, "work")
        os.mkdir(work)
        soak = Soak(os.path.abspath(words.sword), Plain(program), work, words.keep)
        done = 0
        for number in range(words.seed, words.seed + words.runs):
            if time.monotonic() > end:
                break
            soak.number(number)
            done += 1
    print(f"{done} numbers from {words.seed} on: {soak.differences} differences")
    for what, count in sorted(soak.seen.items()):
        print(f"  {count} {what}")
    return 1 if soak.differences else 0


if __name__ == "__main__":
    sys.exit(main())
