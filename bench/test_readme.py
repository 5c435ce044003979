#!/usr/bin/env python3
"""Runs the commands that README.md shows, in their order and in an empty folder beside examples/, and compares what they print with what stands below each.

usage: test_readme.py SWORD

A line `    $ ./sword WORDS` is a command, of the script alone if it is `explain-all`, and the lines below it, as far as they are indented and not
empty, are what it prints. A last line `...` stands for all that follows. Of a kernel whose name ends in `_race` the sums may be others.
"""
import os
import re
import shlex
import subprocess
import sys
import tempfile

TOP = os.path.dirname(os.path.dirname(os.path.abspath(__file__)))
COMMAND = "    $ "


def commands():
    """The commands, each with the lines that it prints."""
    found, due = [], None
    with open(os.path.join(TOP, "README.md"), encoding="utf-8") as file:
        for line in file.read().split("\n"):
            if line.startswith(COMMAND):
                due = []
                found.append((line[len(COMMAND):], due))
            elif due is not None and line.startswith("    "):
                due.append(line[4:])
            else:
                due = None
    return found


def is_as_shown(words, printed, due):
    if "_race.kernel" in words:
        printed, due = ([re.sub(r"^(sum \w+) .*", r"\1", line) for line in lines] for lines in (printed, due))
    if due and due[-1] == "...":
        return printed[: len(due) - 1] == due[:-1]
    return printed == due


def main():
    sword = os.path.abspath(sys.argv[1])
    wrong = 0
    os.environ["SWORD"] = sword
    with tempfile.TemporaryDirectory() as place:
        os.symlink(os.path.join(TOP, "examples"), os.path.join(place, "examples"))
        for words, due in commands():
            name, *rest = shlex.split(words)
            program = [sword] if name == "./sword" else [os.path.join(TOP, name)]
            if rest[0] == "explain-all":
                program, rest = [os.path.join(TOP, "page"), "--text"], rest[1:]
            done = subprocess.run([*program, *rest], cwd=place, stdout=subprocess.PIPE, text=True)
            printed = done.stdout.split("\n")[:-1]
            good = is_as_shown(words, printed, due)
            print(f"{words}: {'as shown' if good else f'prints {printed}'}")
            wrong += not good
    print(f"{len(commands()) - wrong} passed, {wrong} failed")
    return wrong > 0


if __name__ == "__main__":
    sys.exit(main())
