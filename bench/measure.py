#!/usr/bin/env python3
"""Measures the program: a check and a listing of a large folder, runs of a kernel of a million stores with a small and a large buffer, and
the replay of such a run.

usage: measure.py, at the top of the repository, after `./sword` was built
"""
import os
import subprocess
import sys
import tempfile
import time

PROGRAM = os.path.join("crates", "sword", "out", "sword")
STORES = 1_000_000
KERNEL = f"array a i64 {STORES} main {{ parallel 1 {{ for i in 0 .. {STORES} {{ a[i] = i }} }} }}\n"


def measured(words):
    start = time.monotonic()
    child = subprocess.Popen(words, stdout=subprocess.PIPE)
    text = child.stdout.read().decode().split("\n")
    _, status, usage = os.wait4(child.pid, 0)
    seconds = time.monotonic() - start
    return seconds, usage.ru_maxrss // 1024, os.waitstatus_to_exitcode(status), text


def tell(what, words, count, unit):
    seconds, megabytes, status, text = measured(words)
    print(f"{what}: status {status}, {', '.join(text[:2])}: {seconds:.2f} s, "
          f"{count / seconds:,.0f} {unit} a second, {megabytes} MB at most")
    sys.stdout.flush()


def main():
    with tempfile.TemporaryDirectory() as place:
        folder = os.path.join(place, "generated")
        subprocess.run([sys.executable, os.path.join("bench", "generate.py"), folder, "12500"], check=True)
        tell("check of 9 logs, 200,001 accesses", [PROGRAM, "check", folder, "4"], 200_001, "accesses")
        tell("show of the same", [PROGRAM, "show", folder], 200_001, "accesses")
        kernel = os.path.join(place, "stores.kernel")
        with open(kernel, "w") as out:
            out.write(KERNEL)
        for size in ("24", "4096", "4194304"):
            words = [PROGRAM, "run", kernel, os.path.join(place, "logs" + size), size]
            tell(f"run of {STORES:,} stores, buffers of {size} bytes", words, STORES, "records")
        words = [PROGRAM, "replay", kernel, os.path.join(place, "logs4096")]
        tell(f"replay of {STORES:,} stores", words, STORES, "records")


if __name__ == "__main__":
    main()
