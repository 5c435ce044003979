#!/usr/bin/env python3
"""Times `sword` beside Archer, Helgrind and DRD, and counts what each reports.

The first table has three kernels and their racing twins, and the same loops in C: on a twin that races nothing is a missed race, and on the other
one everything is a false report. The second has larger loops in C and these three without a race, recorded and checked, beside Archer: what is
recorded takes so many times its time, and recorded and checked together so many times.

usage: compare.py SWORD [--runs N] [--grinds N] [--only small|large], anywhere. It needs Debian's packages clang-14, libomp-14-dev, llvm-14,
libclang-rt-14-dev (Archer is part of LLVM's OpenMP runtime) and valgrind. A time is the least of N runs, 10 if not told, of `--grinds` runs under
Helgrind and DRD, 3 if not told: seconds by the clock, and in brackets those of processors, which other work on the machine changes less. A number of
reports is that of the last run, or in how many runs Archer reported a race.
"""
import argparse
import glob
import os
import re
import resource
import shutil
import subprocess
import tempfile
import time

HERE = os.path.dirname(os.path.abspath(__file__))
SMALL = ("stores", "heat", "counter")
LARGE = ("stencil", "gradient", "matrix", "bodies")
ARCHER = "/usr/lib/llvm-14/lib/libarcher.so"
SWORDCC = os.environ.get("SWORDCC") or os.path.join(HERE, "../../recorder/swordcc")
FLAGS = ["-g", "-O1", "-fopenmp"]
# The first line of a report by Helgrind or DRD, what it says of locks, and the place.
REPORT = r"^==\d+== (?:Possible data race|Conflicting (?:load|store)).*\n(?:==\d+== Locks held.*\n(?:==\d+==  (?! ? at ).*\n)*)?(.*)$"


def output(words, place, **environment):
    everything = {**os.environ, "OMP_WAIT_POLICY": "passive", **environment}
    done = subprocess.run(words, cwd=place, stdout=subprocess.PIPE, stderr=subprocess.STDOUT, env=everything)
    return done.stdout.decode(errors="replace")


def spent():
    """Seconds by the clock, and those of processors in all that ended."""
    used = resource.getrusage(resource.RUSAGE_CHILDREN)
    return time.monotonic(), used.ru_utime + used.ru_stime


class Seconds(tuple):
    """By the clock, and of processors."""
    def __str__(self):
        return f"{self[0]:.3f} ({self[1]:.3f})" if self[0] < 0.1 else f"{self[0]:.2f} ({self[1]:.2f})"


def tried(runs, ask):
    """The least times of so many runs, and what each run answers."""
    times, answers = [], []
    for _ in range(runs):
        before = spent()
        answers.append(ask())
        times.append([after - then for after, then in zip(spent(), before)])
    return Seconds(map(min, zip(*times))), answers


class Tools:
    def __init__(self, given, place):
        self.sword, self.place, self.runs, self.grinds = os.path.abspath(given.sword), place, given.runs, given.grinds

    def compile(self, compiler, name, race, program):
        words = [*compiler, *(["-DRACE"] if race else []), "-o", program, os.path.join(HERE, name + ".c"), "-lm"]
        subprocess.run(words, check=True, cwd=self.place)

    def races(self, folders):
        """How many pairs all folders have, or what `check` says of one that isn't whole."""
        found = 0
        for folder in folders:
            text = output([self.sword, "check", folder, "4"], self.place)
            told = re.search(r"^races (\d+)$", text, re.M)
            if not told:
                return text.strip()
            found += int(told[1])
        return found

    def kernel(self, name, race):
        def ask():
            shutil.rmtree(os.path.join(self.place, "ran"), ignore_errors=True)
            output([self.sword, "run", os.path.join(HERE, name + ("_race" if race else "") + ".kernel"), "ran", "65536"], self.place)
            return self.races(["ran"])
        seconds, answers = tried(self.runs, ask)
        return f"{seconds}, {answers[-1]}"

    def folders(self):
        return sorted(filter(os.path.isdir, glob.glob(os.path.join(self.place, "logs*"))))

    def recorded(self, name, race):
        """Times of recording and of checking, the pairs, the records, and the megabytes."""
        self.compile([SWORDCC, "-O1"], name, race, "recorded")

        def record():
            for folder in self.folders():
                shutil.rmtree(folder)
            return output(["./recorded"], self.place, SWORDREC_DIR="logs")
        seconds, _ = tried(self.runs, record)
        checking, found = tried(self.runs, lambda: self.races(self.folders()))
        sizes = [os.path.getsize(log) for folder in self.folders() for log in glob.glob(folder + "/*.swl")]
        return seconds, checking, found[-1], sum(size // 24 for size in sizes), sum(sizes) / 1e6

    def plain(self, name):
        self.compile(["clang-14", *FLAGS], name, False, "plain")
        return tried(self.runs, lambda: output(["./plain"], self.place))[0]

    def archer(self, name, race, history=""):
        """The times, and in how many runs it reported a race."""
        self.compile(["clang-14", *FLAGS, "-fsanitize=thread"], name, race, "archer")
        options = "ignore_noninstrumented_modules=1" + history

        def ask():
            return "WARNING: ThreadSanitizer: data race" in output(["./archer"], self.place, OMP_TOOL_LIBRARIES=ARCHER, TSAN_OPTIONS=options)
        seconds, answers = tried(self.runs, ask)
        return seconds, f"{seconds}, {sum(answers)} of {self.runs}"

    def valgrind(self, tool, name, race):
        """The time, and the reports: those that begin in the program, and those that begin in the runtime or in the C library."""
        self.compile(["clang-14", *FLAGS], name, race, "plain")
        seconds, answers = tried(self.grinds, lambda: output(["valgrind", "--tool=" + tool, "./plain"], self.place))
        all_reports = int(re.search(r"ERROR SUMMARY: \d+ errors from (\d+) contexts", answers[-1])[1])
        begins = re.findall(REPORT, answers[-1], re.M)
        own = sum(f"{name}.c:" in line for line in begins)
        return f"{seconds}, {own} and {all_reports - own}"


def small(tools):
    print("| Loop | `run` and `check` | recorded and checked | Archer | its longest history | Helgrind | DRD |\n|---|---|---|---|---|---|---|")
    for name in SMALL:
        for race in (False, True):
            seconds, checking, found, _, _ = tools.recorded(name, race)
            cells = [tools.kernel(name, race), f"{seconds} and {checking}, {found}"]
            cells += [tools.archer(name, race)[1], tools.archer(name, race, " history_size=7")[1]]
            cells += [tools.valgrind(tool, name, race) for tool in ("helgrind", "drd")]
            print(f"| {name}{', with a race' if race else ''} | " + " | ".join(cells) + " |", flush=True)


def large(tools):
    print("| Loop | alone | recorded | checked | pairs | records | MB | Archer | its longest history | recorded | and checked |")
    print("|---|---|---|---|---|---|---|---|---|---|---|")
    for name in LARGE + SMALL:
        recording, checking, found, records, size = tools.recorded(name, False)
        archer, told = tools.archer(name, False)
        both = [one + other for one, other in zip(recording, checking)]
        ratios = ["{:.1f} ({:.1f})".format(*(ours / its for ours, its in zip(times, archer))) for times in (recording, both)]
        cells = [tools.plain(name), recording, checking, found, f"{records:,}", f"{size:,.0f}", told]
        cells += [tools.archer(name, False, " history_size=7")[1], *ratios]
        print(f"| {name} | " + " | ".join(map(str, cells)) + " |", flush=True)


def main():
    words = argparse.ArgumentParser()
    words.add_argument("sword")
    words.add_argument("--runs", type=int, default=10)
    words.add_argument("--grinds", type=int, default=3)
    words.add_argument("--only", choices=("small", "large"))
    given = words.parse_args()
    with tempfile.TemporaryDirectory(dir="/dev/shm" if os.path.isdir("/dev/shm") else None) as place:
        tools = Tools(given, place)
        if given.only != "large":
            small(tools)
        if given.only != "small":
            print()
            large(tools)


main()
