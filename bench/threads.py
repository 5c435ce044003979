#!/usr/bin/env python3
"""Refuses the start of each thread of the program in turn, and of all from each on: where a thread can't be started, its caller does its work.

So each such run ends with the same status and text as with all threads, and leaves the same folder.

usage: threads.py SWORD, at the top of the repository. It needs gcc.
"""
import os
import shutil
import subprocess
import sys
import tempfile

TOP = os.path.dirname(os.path.dirname(os.path.abspath(__file__)))
MOST = 40
KERNELS = {
    "phases": "array a i64 64 main { parallel 4 { loop k in 0 .. 3 { for i in 0 .. 64 { a[i] = a[i] + i } } } }\n",
    "nested": "array a i64 16 main { parallel 2 { parallel 2 { a[tid] = 1 barrier a[tid] = 2 } } }\n",
    "writers": "array a i64 4 main { parallel 4 { loop k in 0 .. 2000 { a[tid] = k } } }\n",
    "stops": "array a i64 8 main { parallel 4 { a[tid] = 1 barrier if tid == 2 { a[8] = 1 } } }\n",
}


def shim(place):
    path = os.path.join(place, "refuse.so")
    subprocess.run(["gcc", "-shared", "-fPIC", "-O1", "-o", path, os.path.join(TOP, "bench", "refuse.c"), "-ldl"], check=True)
    return path


def files(folder):
    found = {}
    for name in sorted(os.listdir(folder)):
        with open(os.path.join(folder, name), "rb") as file:
            found[name] = file.read()
    return found


def ask(words, **refused):
    """The status, the text and the folder of a run, and whether a thread was refused in it."""
    shutil.rmtree("new", ignore_errors=True)
    if os.path.exists("note"):
        os.remove("note")
    done = subprocess.run(words, stdout=subprocess.PIPE, env={**os.environ, "REFUSE_NOTE": "note", **refused}, timeout=60)
    return (done.returncode, done.stdout, files("new")), os.path.exists("note")


def refuse_each(words, preload, how):
    """How many threads were refused in turn, and whether each run came out as it should."""
    due, _ = ask(words)
    for number in range(1, MOST + 1):
        found, refused = ask(words, LD_PRELOAD=preload, **{how: str(number)})
        if not refused:
            return number - 1, True
        if found != due:
            print(f"WRONG: {' '.join(words[1:])}, {how} {number}: status {found[0]}, {found[1][:60]!r}")
            return number, False
    return MOST, True


def main():
    sword = os.path.abspath(sys.argv[1])
    wrong = cases = 0
    with tempfile.TemporaryDirectory() as place:
        preload = shim(place)
        os.chdir(place)
        for name, text in KERNELS.items():
            with open(f"{name}.kernel", "w", encoding="utf-8") as file:
                file.write(text)
            for word in ("run", "live"):
                for how in ("REFUSE_THREAD", "REFUSE_THREADS_FROM"):
                    count, good = refuse_each([sword, word, f"{name}.kernel", "new", "16384"], preload, how)
                    print(f"{word} {name}: {count} threads, {how}: {'the same each time' if good else 'WRONG'}", flush=True)
                    wrong += not good
                    cases += 1
        os.chdir(TOP)
    print(f"{cases - wrong} passed, {wrong} failed")
    return wrong > 0


if __name__ == "__main__":
    sys.exit(main())
