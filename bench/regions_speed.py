#!/usr/bin/env python3
"""Measures what it costs to check a folder by its regions (`regions.py`), beside `check` of the whole: folders of 100 regions of four lanes whose accesses no
stride compresses, of several sizes. Each time is the least of so many runs, in seconds: `check` with one and with four workers, the split alone, and
split, parts and union with as many parts at once as there are processors. The folders stand in the place that TMPDIR names.

usage: regions_speed.py SWORD [--runs N] [--megabytes N ..]
"""
import argparse
import os
import shutil
import struct
import subprocess
import tempfile
import time

import regions

REGIONS, LANES = 100, 4
READ, WRITE = 1, 2


def record(kind, size, line, addr, value):
    return struct.pack(">BBHIQQ", kind, size, 0, line, addr, value)


def put(folder, name, records):
    with open(os.path.join(folder, name), "wb") as out:
        out.write(regions.LOG + b"".join(records))


def make(folder, megabytes):
    """Each lane writes elements of its own, further and further apart, and reads the next lane's at another line."""
    os.makedirs(folder)
    each = int(megabytes * 1e6) // (REGIONS * LANES * regions.RECORD)
    end = record(regions.END, 0, 9, 0, 0)
    rows = [regions.row_of((), REGIONS + 1)]
    put(folder, "t.swl", [record(regions.REGION, 0, 1, 0, LANES)] * REGIONS + [end])
    for region in range(REGIONS):
        for lane in range(LANES):
            at = [4096 + 64 * k * (k + 1) + 8 * lane for k in range(each // 2)]
            body = [record(WRITE, 8, 10, addr, 1) for addr in at] + [record(READ, 8, 30, addr + 32, 0) for addr in at]
            path = ((region, lane, LANES),)
            put(folder, regions.name_of(path), [*body, end])
            rows.append(regions.row_of(path, len(body) + 1))
    with open(os.path.join(folder, "index.swi"), "wb") as out:
        out.write(regions.INDEX + b"".join(rows))


def made(folder, megabytes):
    """By a process of its own, whose memory isn't this one's."""
    child = os.fork()
    if child == 0:
        make(folder, megabytes)
        os._exit(0)
    if os.waitpid(child, 0)[1] != 0:
        raise SystemExit(f"{folder} wasn't made")


def least(runs, call):
    times = []
    for _ in range(runs):
        start = time.monotonic()
        call()
        times.append(time.monotonic() - start)
    return min(times)


def main():
    parser = argparse.ArgumentParser(description=__doc__, formatter_class=argparse.RawDescriptionHelpFormatter)
    parser.add_argument("sword")
    parser.add_argument("--runs", type=int, default=5)
    parser.add_argument("--megabytes", type=int, nargs="+", default=[1, 10, 100, 400])
    words = parser.parse_args()
    with tempfile.TemporaryDirectory() as place:
        for megabytes in words.megabytes:
            folder, parts = os.path.join(place, "folder"), os.path.join(place, "parts")
            made(folder, megabytes)

            def check(workers):
                subprocess.run([words.sword, "check", folder, str(workers)], stdout=subprocess.DEVNULL)

            def split():
                shutil.rmtree(parts, ignore_errors=True)
                regions.split(folder, parts)

            one, four = least(words.runs, lambda: check(1)), least(words.runs, lambda: check(4))
            alone, whole = least(words.runs, split), least(words.runs, lambda: regions.check(folder, words.sword, "1", os.cpu_count()))
            shutil.rmtree(parts)
            shutil.rmtree(folder)
            print(f"{megabytes} MB: check W 1 {one:.3f}, W 4 {four:.3f}; split {alone:.3f}, by regions in all {whole:.3f}", flush=True)


if __name__ == "__main__":
    main()
