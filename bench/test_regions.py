#!/usr/bin/env python3
"""Tests `regions.py`: of folders of 100 regions the parts together tell what `check` of the whole prints, with its status.

usage: test_regions.py SWORD, at the top of the repository
"""
import os
import shutil
import subprocess
import sys
import tempfile

import regions

KERNEL = """array a i64 64
array b i64 64
main {
    loop k in 0 .. 100 {
        parallel 4 {
            for i in 0 .. 16 static 1 { a[i] = a[i] + k }
            if tid == 0 { if k == 57 { parallel 2 { b[0] = 1 } } }
            for i in 0 .. 15 nowait { b[i] = b[i] + a[i+1] }
            if tid == 3 { if k % 10 == 3 { b[2] = k } }
        }
    }
}
"""


def cut(name, length):
    return lambda folder: os.truncate(os.path.join(folder, name), length)


def remove(name):
    return lambda folder: os.remove(os.path.join(folder, name))


DAMAGES = [
    ("as it was written", lambda folder: None),
    ("a record cut", cut("t-57.1.swl", 162)),
    ("two places bad, of which the second region's isn't told", lambda folder: (cut("t-57.1.swl", 162)(folder), cut("t-58.0.swl", 9)(folder))),
    ("a nested log missing", remove("t-57.0-0.1.swl")),
    ("the header of a lane's log cut", cut("t-30.2.swl", 7)),
    ("the root's log cut", cut("t.swl", 100)),
    ("the root's log missing", remove("t.swl")),
    ("the index cut", cut("index.swi", 1000)),
    ("no index", remove("index.swi")),
]


def main(sword):
    with tempfile.TemporaryDirectory() as place:
        kernel = os.path.join(place, "test.kernel")
        with open(kernel, "w") as out:
            out.write(KERNEL)
        whole = os.path.join(place, "whole")
        subprocess.run([sword, "run", kernel, whole, "4096"], check=True, stdout=subprocess.DEVNULL)
        failed = 0
        for what, damage in DAMAGES:
            folder = os.path.join(place, "damaged")
            shutil.copytree(whole, folder)
            damage(folder)
            due = subprocess.run([sword, "check", folder, "2"], capture_output=True, text=True)
            found = regions.check(folder, sword, "1", os.cpu_count())
            well = found == (due.returncode, due.stdout)
            print(f"{'well' if well else 'WRONG'}: {what}: {found[1].splitlines()[0]}")
            failed += not well
            shutil.rmtree(folder)
    return 1 if failed else 0


sys.exit(main(os.path.abspath(sys.argv[1])))
