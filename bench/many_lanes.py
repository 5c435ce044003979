#!/usr/bin/env python3
"""Runs 64 lanes in regions of four levels again and again, by `run` and by `live` in turn, with blocks that have no writers and with blocks that have,
and looks at each process every few milliseconds: how many threads it has at most, and how much memory.

A lane takes a thread, and a task with large blocks one more, its writer; both are bounded by the tasks that stand at once, 1 + 4 + 16 + 32 + 64.
Each run ends with the same sums, its folder has no race, and each command's greatest numbers of the first fifth of the time bound those of the rest: it
prints both, and ends with 1 if a run differs or the threads are more than that.

usage: many_lanes.py SWORD [--minutes M]
"""
import argparse
import os
import shutil
import subprocess
import sys
import tempfile
import time

TURNS = 200
KERNEL = f"""array a i64 256
array c i64 1
main {{
    loop t in 0 .. {TURNS} {{
        parallel 4 {{
            let one = tid
            parallel 4 {{
                let two = one * 4 + tid
                parallel 2 {{
                    let three = two * 2 + tid
                    parallel 2 {{
                        a[three * 2 + tid] = a[three * 2 + tid] + t
                        barrier
                        atomic c[0] += 1
                        barrier
                        a[128 + three * 2 + tid] = a[three * 2 + tid]
                    }}
                }}
            }}
        }}
    }}
}}
"""
TASKS = 1 + 4 + 16 + 32 + 64
SUM = 64 * TURNS * (TURNS - 1) // 2
# each lane of the last level: three reads and writes of two steps, an update, two barriers and its end; each task above: its regions and its end
RECORDS = TURNS * (64 * 8 + (4 + 16 + 32) * 2) + TURNS + 1
DUE = f"tasks {TURNS * (TASKS - 1) + 1}\nrecords {RECORDS}\nsum a {2 * SUM}\nsum c {64 * TURNS}\n"


def look(process, most):
    try:
        with open(f"/proc/{process.pid}/status", encoding="ascii") as status:
            told = dict(line.split(":", 1) for line in status)
    except (OSError, ValueError):
        return most
    if "VmRSS" not in told:
        return most
    return max(most[0], int(told["Threads"])), max(most[1], int(told["VmRSS"].split()[0]))


def run(words):
    """What the command says, and the most threads and KiB that were seen of it."""
    most = (0, 0)
    with tempfile.TemporaryFile("w+") as out:
        process = subprocess.Popen(words, stdout=out, stderr=subprocess.STDOUT)
        while process.poll() is None:
            most = look(process, most)
            time.sleep(0.004)
        out.seek(0)
        return process.returncode, out.read(), most


def main():
    parser = argparse.ArgumentParser(description=__doc__, formatter_class=argparse.RawDescriptionHelpFormatter)
    parser.add_argument("sword")
    parser.add_argument("--minutes", type=float, default=10)
    words = parser.parse_args()
    begin, length, wrong, first, rest, count = time.monotonic(), 60 * words.minutes, 0, {}, {}, 0
    with tempfile.TemporaryDirectory(dir="/dev/shm" if os.path.isdir("/dev/shm") else None) as place:
        kernel, folder = os.path.join(place, "kernel"), os.path.join(place, "folder")
        with open(kernel, "w", encoding="ascii") as file:
            file.write(KERNEL)
        while time.monotonic() - begin < length or count < 8:
            command, size = ("run", "live")[count % 2], (4096, 65536)[count // 2 % 2]
            shutil.rmtree(folder, ignore_errors=True)
            status, text, most = run([words.sword, command, kernel, folder, str(size)])
            checked = subprocess.run([words.sword, "check", folder, "4"], capture_output=True, text=True)
            if (status, text, checked.stdout) != (0, DUE, "races 0\n"):
                wrong += 1
                print(f"WRONG: {command} {size} ends with {status} and {text!r}, due {DUE!r}; check prints {checked.stdout!r}", flush=True)
            seen = first if time.monotonic() - begin < length / 5 or count < 4 else rest
            old = seen.get((command, size), (0, 0))
            seen[command, size] = max(old[0], most[0]), max(old[1], most[1])
            count += 1
    for (command, size), (threads, memory) in first.items():
        later = rest.get((command, size), (0, 0))
        # with a writer for each task
        is_well = max(threads, later[0]) <= TASKS * (2 if size >= 16384 else 1)
        wrong += not is_well
        print(f"{command} {size}: at most {threads} threads and {memory} KiB at first, {later[0]} and {later[1]} later{'' if is_well else ': WRONG'}")
    print(f"{count} runs in {(time.monotonic() - begin) / 60:.1f} minutes, {wrong} wrong")
    return 1 if wrong else 0


if __name__ == "__main__":
    sys.exit(main())
