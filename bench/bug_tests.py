#!/usr/bin/env python3
"""Runs the test that a wrong body names, alone and with the body in its place: does the test refuse it?

usage: bug_tests.py CRATE ..

Takes the bodies of bugs/CRATE that name a test, CRATE::FUNCTION. Each is tried in a copy of the repository, in which the other tests of that crate
are left out. Nothing is proved, so nothing has to be built before. Prints a line for each: refused, passed, no answer, or what else came out. Half a
minute to two for each, on one processor. Not part of the gate.
"""
import concurrent.futures
import filecmp
import os
import re
import shutil
import subprocess
import sys
import tempfile

import bodies

REPOSITORY = bodies.TOP
SECONDS = 240


def alone(text, name):
    """A file without its tests, but for the one of that name, and whether it has that one."""
    kept, found = [], False
    lines = iter(text.split("\n"))
    for line in lines:
        if line.strip() != "#[test]":
            kept.append(line)
            continue
        test = [line]
        while test[-1].rstrip() != line.replace("#[test]", "}"):
            test.append(next(lines))
        if re.search(r"fn (\w+)", "\n".join(test))[1] == name:
            kept, found = kept + test, True
            continue
        while kept and re.match(r"\s*(///|#\[)", kept[-1]):
            kept.pop()
    return "\n".join(kept), found


def files_of(crate):
    for folder, _, names in os.walk(f"{crate}/src"):
        for name in names:
            yield f"{folder}/{name}"


def change(path, changed):
    with open(path, encoding="utf-8") as file:
        text = file.read()
    after = changed(text)
    if after != text:
        with open(path, "w", encoding="utf-8") as file:
            file.write(after)


def leave_alone(crate, name):
    """Leaves that test of a crate alone; whether there is one."""
    found = False

    def without_others(text):
        nonlocal found
        after, has_it = alone(text, name)
        found = found or has_it
        return after

    for path in files_of(crate):
        change(path, without_others)
    return found


def outcome(crate, bug):
    tests, name = bug.test.split("::")
    with tempfile.TemporaryDirectory() as copy:
        for part in ("crates", "crates.txt", "HANDLES"):
            source = f"{REPOSITORY}/{part}"
            if os.path.isdir(source):
                shutil.copytree(source, f"{copy}/{part}", ignore=shutil.ignore_patterns("out"))
            elif os.path.exists(source):
                shutil.copy(source, copy)
        path = f"{copy}/crates/{crate}/{bug.file}"
        change(path, lambda text: text.replace(bug.old, bug.new) if text.count(bug.old) == 1 else text)
        if filecmp.cmp(path, f"{REPOSITORY}/crates/{crate}/{bug.file}", shallow=False):
            return "its text doesn't stand once in the file"
        if not leave_alone(f"{copy}/crates/{tests}", name):
            return "there is no such test"
        words = ["rt", "try", "--test", "--seconds", str(SECONDS)]
        ran = subprocess.run(words, cwd=f"{copy}/crates/{tests}", capture_output=True, text=True, errors="replace")
        said = ran.stdout + ran.stderr
    if "run=no-answer" in said:
        return f"no answer in {SECONDS} seconds"
    if "test result: FAILED. 0 passed; 1 failed" in said:
        return "refused"
    if "test result: ok. 1 passed" in said:
        return "passed  <- not as expected"
    return (re.findall(r"error.*", said) or said.strip().split("\n")[-1:])[0][:160]


def try_all(pool, crate):
    bugs = [bug for bug in bodies.bodies(crate) if bug.test]
    for bug, came in zip(bugs, pool.map(lambda bug: outcome(crate, bug), bugs)):
        print(f"{crate} {bug.name}: {came}  {bug.test}", flush=True)


if __name__ == "__main__":
    if len(sys.argv) < 2:
        sys.exit(__doc__)
    with concurrent.futures.ThreadPoolExecutor(os.cpu_count()) as workers:
        for each in sys.argv[1:]:
            try_all(workers, each)
