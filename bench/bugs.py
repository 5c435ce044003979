#!/usr/bin/env python3
"""Tries wrong bodies of a crate's functions: which of them does the prover let through?

usage: bugs.py CRATE ..

Takes the bodies of bugs/CRATE (`bodies.py` says how they are written). Those of different functions are tried in one check, in a copy of the crate; a function
that calls one which isn't proved is tried again without it. Prints a line for each body, and those that came out otherwise than its diff says. The crates below
have to be built: `rt ci` or `rt check` does so. Not part of the gate. It calls the toolchain's own command as a module, so another toolchain may want another way.
"""
import importlib.machinery
import importlib.util
import os
import re
import shutil
import sys
import tempfile

import bodies

REPOSITORY = bodies.TOP
ROUNDS = 128


def toolchain():
    """The toolchain's command as a module."""
    path = os.path.realpath(shutil.which("rt"))
    sys.path.insert(0, os.path.dirname(path))
    loader = importlib.machinery.SourceFileLoader("rt", path)
    module = importlib.util.module_from_spec(importlib.util.spec_from_loader("rt", loader))
    loader.exec_module(module)
    return module


def batch_of(crate, left, most):
    """As many bodies as there are functions, but no more than these, and the texts with them."""
    texts, taken = {}, []
    for bug in left:
        text = texts.get(bug.file) or open(bodies.source_of(bug), encoding="utf-8").read()
        if len(taken) < most and bug.function not in {other.function for other in taken} and text.count(bug.old) == 1:
            texts[bug.file] = text.replace(bug.old, bug.new)
            taken.append(bug)
    return texts, taken


def told(lines):
    """Of each function whether it is proved, what the checker adds, and the notes before its line."""
    notes, found = [], {}
    for line in lines:
        ended = re.match(r"fn (\S+): (proved|not proved|no proof)(.*)", line)
        if ended:
            found[ended[1]] = (ended[2], ended[3], notes)
            notes = []
        elif re.match(r"(note: )?\S+:\d+:\d+:", line):
            notes.append(line)
    return found


def judge(found):
    """What came of a body, and what was said; None where it depends on another function."""
    word, more, notes = found
    if word == "proved":
        return "let through", ""
    if not notes and "it calls" in more and "did not prove" not in more:
        return None
    return "refused", (notes or [more])[0][:160]


def try_all(rt, name):
    crate = rt.Crate(f"{REPOSITORY}/crates/{name}", REPOSITORY, {})
    bugs = bodies.bodies(name)
    results, left, most = {}, list(bugs), len(bugs)
    with tempfile.TemporaryDirectory() as kept:
        for _ in range(ROUNDS):
            texts, taken = batch_of(crate, left, most)
            if not taken:
                break
            flags = ["--jobs", "2", *[word for bug in taken for word in ("--only", bug.function)]]
            lines = rt.checked(crate, texts, flags, kept).stdout.rstrip("\n").split("\n")
            unknown = re.search(r"has no function `(\S+)`", lines[0])
            if unknown:
                results.update({bug.name: ("not named", unknown[1]) for bug in taken if bug.function == unknown[1]})
                left = [bug for bug in left if bug.function != unknown[1]]
                continue
            if not lines[-1].startswith(("logic=", "only=")):
                if len(taken) > 1:
                    most = len(taken) // 2
                else:
                    results[taken[0].name] = ("not read", lines[0][:160])
                    left, most = [bug for bug in left if bug not in taken], len(bugs)
                continue
            found = told(lines)
            for bug in taken:
                results[bug.name] = judge(found[bug.function]) if bug.function in found else ("not named", bug.function)
            again = [bug for bug in taken if results[bug.name] is None]
            left = [bug for bug in left if bug not in taken] + (again if len(again) < len(taken) else again[:1])
    for bug in bugs:
        came, said = results.get(bug.name) or ("undecided", "")
        mark = "" if came == ("refused" if bug.refused else "let through") else "  <- not as expected"
        print(f"{name} {bug.name}: {came}{mark}  {said}")


if __name__ == "__main__":
    if len(sys.argv) < 2:
        sys.exit(__doc__)
    kit = toolchain()
    for each in sys.argv[1:]:
        try_all(kit, each)
