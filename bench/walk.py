#!/usr/bin/env python3
"""Measures a walk through a folder, without the comparison of its accesses.

The last log of each folder has a byte too many, so `check` goes through all of them and then names that place. The first folder
is that of `generate.py`, 38 MB in 9 logs whose accesses no stride compresses; the walk is set beside the time in which `cat` of the
folder piped to `cksum` reads it. The others have one log of 4,194,303 accesses: of one element, and of 1,000 elements in turn. The
last has a log of three records whose row tells 4,194,304. For it, and for the same with the true number in its row, the least
address space is sought in which `check` gives its answer: it counts all memory that is asked for, also what is never touched.

usage: walk.py [N], at the top of the repository, after `./sword` was built; N is 100000 where it isn't told
"""
import os
import resource
import struct
import subprocess
import sys
import tempfile
import time

PROGRAM = os.path.join("crates", "sword", "out", "sword")
WRITE, REGION, END = 2, 6, 8
MOST = 4_194_304
ROUNDS = 3


def record(kind, size, line, addr, value):
    return struct.pack(">BBHIQQ", kind, size, 0, line, addr, value)


def row(steps, records):
    fields = b"".join(struct.pack(">IHH", *step) for step in steps) + bytes(8 * (4 - len(steps)))
    return struct.pack(">II", len(steps), 0) + fields + struct.pack(">Q", records)


def one_log(folder, elements):
    """A root that forks one lane, whose log has as many records as one may have."""
    os.makedirs(folder)
    turn = b"".join(record(WRITE, 8, 5, 4096 + 8 * element, 1) for element in range(elements))
    turns, rest = divmod(MOST - 1, elements)
    end = record(END, 0, 9, 0, 0)
    with open(os.path.join(folder, "t.swl"), "wb") as out:
        out.write(b"SWLOG002" + record(REGION, 0, 1, 0, 1) + end)
    # In pieces, since a process that is started counts the memory that this one had as its own.
    with open(os.path.join(folder, "t-0.0.swl"), "wb") as out:
        out.write(b"SWLOG002")
        for _ in range(turns):
            out.write(turn)
        out.write(turn[:24 * rest] + end)
    with open(os.path.join(folder, "index.swi"), "wb") as out:
        out.write(b"SWIDX002" + row([], 2) + row([(0, 0, 1)], MOST))
    return os.path.join(folder, "t-0.0.swl")


def claiming(folder):
    """A root that forks one lane, whose row tells as many records as one may have, over a log of three."""
    last = one_log(folder, 1)
    os.truncate(last, 8 + 24 * 3)
    return last


def tell(folder, records):
    """Has the row of the lane tell so many records."""
    with open(os.path.join(folder, "index.swi"), "wb") as out:
        out.write(b"SWIDX002" + row([], 2) + row([(0, 0, 1)], records))


def answers(folder, space):
    """Whether `check` names a bad record of the folder in so many KB of address space."""
    limit = space * 1024
    done = subprocess.run([PROGRAM, "check", folder, "1"], capture_output=True,
                          preexec_fn=lambda: resource.setrlimit(resource.RLIMIT_AS, (limit, limit)))
    return done.returncode == 4


def least_space(folder):
    """The least address space in KB in which `check` answers."""
    low, high = 0, 1 << 20
    while low + 1 < high:
        middle = (low + high) // 2
        if answers(folder, middle):
            high = middle
        else:
            low = middle
    return high


def seconds_of(words):
    """The least time of some rounds, the most memory in MB, and the first line."""
    best, most, text = None, 0, ""
    for _ in range(ROUNDS):
        start = time.monotonic()
        child = subprocess.Popen(words, stdout=subprocess.PIPE)
        text = child.stdout.read().decode().split("\n")[0]
        _, _, usage = os.wait4(child.pid, 0)
        passed = time.monotonic() - start
        best = passed if best is None else min(best, passed)
        most = max(most, usage.ru_maxrss // 1024)
    return best, most, text


def walk(what, folder, last, records):
    with open(last, "ab") as out:
        out.write(b"\0")
    size = sum(os.path.getsize(os.path.join(folder, name)) for name in os.listdir(folder))
    plain, _, _ = seconds_of(["sh", "-c", f"cat {folder}/* | cksum"])
    walked, memory, text = seconds_of([PROGRAM, "check", folder, "1"])
    due = 2 * plain + 60e-9 * records
    print(f"{what}: {size / 1e6:.1f} MB, cat | cksum {plain:.3f} s, walk {walked:.3f} s "
          f"({1e9 * walked / records:.0f} ns a record, {due:.3f} s are allowed), {memory} MB at most; {text}")
    sys.stdout.flush()


def main():
    n = sys.argv[1] if len(sys.argv) > 1 else "100000"
    with tempfile.TemporaryDirectory() as place:
        folder = os.path.join(place, "generated")
        subprocess.run([sys.executable, os.path.join("bench", "generate.py"), folder, n], check=True)
        walk("9 logs, no stride", folder, os.path.join(folder, "t-0.7.swl"), 16 * int(n) + 1)
        for elements in (1, 1000):
            folder = os.path.join(place, f"again{elements}")
            last = one_log(folder, elements)
            walk(f"one log, {elements} element(s) in turn", folder, last, MOST)
        folder = os.path.join(place, "claiming")
        last = claiming(folder)
        walk("one log of three records whose row tells 4,194,304", folder, last, 3)
        claimed = least_space(folder)
        tell(folder, 3)
        print(f"least address space: {claimed} KB, and {least_space(folder)} KB where the row tells 3")


if __name__ == "__main__":
    main()
