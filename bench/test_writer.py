#!/usr/bin/env python3
"""Tests `writer.py`: the folder that it writes is, file by file, the one that `run` leaves of examples/shift.kernel, and `check` prints its pair. And
that a log of docs/FORMATS.md, as a hex dump, is that of lane 1.

usage: test_writer.py SWORD, anywhere
"""
import os
import re
import subprocess
import sys
import tempfile

HERE = os.path.dirname(os.path.abspath(__file__))
TOP = os.path.dirname(HERE)
DUMPED = "t-0.1.swl"


def files_of(folder):
    found = {}
    for name in os.listdir(folder):
        with open(os.path.join(folder, name), "rb") as file:
            found[name] = file.read()
    return found


def dumped():
    """The bytes that the page dumps: lines of hex digits behind the place of the first, a text behind `|` apart."""
    with open(os.path.join(TOP, "docs", "FORMATS.md"), encoding="utf-8") as page:
        lines = re.findall(r"^    [0-9a-f]{4}: ([0-9a-f ]+?) *\|", page.read(), re.M)
    return bytes.fromhex("".join(lines))


def main(sword):
    with tempfile.TemporaryDirectory() as place:
        left, written = os.path.join(place, "left"), os.path.join(place, "written")
        subprocess.run([sword, "run", os.path.join(TOP, "examples", "shift.kernel"), left, "4096"], check=True, stdout=subprocess.DEVNULL)
        subprocess.run([sys.executable, os.path.join(HERE, "writer.py"), written], check=True)
        same = files_of(left) == files_of(written)
        checked = subprocess.run([sword, "check", written, "2"], stdout=subprocess.PIPE, text=True)
        pair = (checked.returncode, checked.stdout) == (1, "race 6 6\nraces 1\n")
        shown = dumped() == files_of(written)[DUMPED]
        print(f"the files of the run: {same}\nits pair: {pair}\nthe log of the page: {shown}")
        return not (same and pair and shown)


if __name__ == "__main__":
    sys.exit(main(os.path.abspath(sys.argv[1])))
