#!/usr/bin/env python3
"""Reads and keeps the wrong bodies of bugs/.

usage: bodies.py            how many there are; those whose text no longer stands in its file, which have to be written anew; and those whose test isn't there
       bodies.py --write    the same, and makes the line numbers of the others and the table of bugs/README.md anew

bugs/CRATE/NAME.diff has one wrong body as a unified diff, which `git apply` takes at the top of the repository. Above it stand lines of the form `Word: text`:
whether the function's contract refuses it, and why (`Refused`) or why not (`Let through`); the function, as the checker names it (`Function`); and a test that refuses it
(`Test`), if one is known.
"""
import collections
import difflib
import glob
import os
import re
import sys

HERE = os.path.dirname(os.path.abspath(__file__))
TOP = os.path.dirname(HERE)
BUGS = os.path.join(HERE, "bugs")
TABLE = os.path.join(BUGS, "README.md")
REFUSED, LET_THROUGH = "Refused", "Let through"

# A wrong body: its crate and name; whether it is refused, and why; the function, the file of the crate, what stands there and what stands in its place; and a test.
Body = collections.namedtuple("Body", "crate name refused why function file old new test")


def read(path):
    crate, name = os.path.split(path)
    with open(path, encoding="utf-8") as file:
        head, _, diff = file.read().partition("\n\n")
    told = dict(line.split(": ", 1) for line in head.split("\n"))
    lines = diff.split("\n")[:-1]
    where = re.match(r"--- a/crates/\w+/(.*)", lines[0])[1]
    hunk = lines[3:]
    old = "\n".join(line[1:] for line in hunk if line[:1] in (" ", "-"))
    new = "\n".join(line[1:] for line in hunk if line[:1] in (" ", "+"))
    refused = REFUSED in told
    return Body(
        os.path.basename(crate), name[: -len(".diff")], refused, told[REFUSED if refused else LET_THROUGH], told["Function"], where, old, new, told.get("Test", "")
    )


def bodies(crate="*"):
    return [read(path) for path in sorted(glob.glob(os.path.join(BUGS, crate, "*.diff")))]


def source_of(body):
    return os.path.join(TOP, "crates", body.crate, body.file)


def text_of(body):
    """The file of a body as it is now."""
    if not os.path.exists(source_of(body)):
        return ""
    with open(source_of(body), encoding="utf-8") as file:
        return file.read()


def has_its_test(body):
    """Whether the test that the body names, if any, is one of its crate."""
    if not body.test:
        return True
    crate, name = body.test.split("::")
    for path in glob.glob(os.path.join(TOP, "crates", crate, "src", "**", "*.rt"), recursive=True):
        with open(path, encoding="utf-8") as file:
            if re.search(rf"#\[test\]\s+fn {name}\(", file.read()):
                return True
    return False


def write(body):
    """Writes a body over the file as it is now; whether its text stands there once."""
    text = text_of(body)
    if text.count(body.old) != 1:
        return False
    name = f"crates/{body.crate}/{body.file}"
    after = text.replace(body.old, body.new)
    diff = difflib.unified_diff(text.split("\n")[:-1], after.split("\n")[:-1], f"a/{name}", f"b/{name}", lineterm="", n=len(text) if _is_far(text, after) else 3)
    told = [f"{REFUSED if body.refused else LET_THROUGH}: {body.why}", f"Function: {body.function}"] + ([f"Test: {body.test}"] if body.test else [])
    path = os.path.join(BUGS, body.crate, f"{body.name}.diff")
    os.makedirs(os.path.dirname(path), exist_ok=True)
    with open(path, "w", encoding="utf-8") as file:
        file.write("\n".join(told) + "\n\n" + "\n".join(diff) + "\n")
    return True


def _is_far(text, after):
    """Whether two changes of a file are so far apart that they would be two hunks."""
    hunks = difflib.SequenceMatcher(None, text.split("\n"), after.split("\n"), autojunk=False).get_grouped_opcodes(3)
    return len(list(hunks)) > 1


def table(all_bodies):
    rows = [
        "# Wrong bodies that no contract refuses",
        "",
        "Each means something else than the function should, or costs more, and meets its contract all the same. The diff of each stands beside this page, in",
        "the folder of its crate, with those that a contract refuses; `git apply` takes it. `bench/bodies.py --write` makes this table from them;",
        "`bench/bugs.py` gives them to the prover, and `bench/bug_tests.py` to the tests that they name.",
    ]
    for crate in sorted({body.crate for body in all_bodies}):
        through = [body for body in all_bodies if body.crate == crate and not body.refused]
        if through:
            rows += ["", f"## `{crate}`", "", "| Body | Why no clause refuses it | The test that does |", "|---|---|---|"]
            rows += [f"| {body.name.replace('_', ' ')} | {body.why.replace('|', '/')} | {f'`{body.test}`' if body.test else 'none'} |" for body in through]
    return "\n".join(rows) + "\n"


def main():
    found = bodies()
    stale = [body for body in found if text_of(body).count(body.old) != 1]
    if "--write" in sys.argv:
        for body in found:
            write(body)
        with open(TABLE, "w", encoding="utf-8") as file:
            file.write(table(found))
    lost = [body for body in found if not has_its_test(body)]
    for body in stale:
        print(f"{body.crate} {body.name}: its text doesn't stand once in {body.file}")
    for body in lost:
        print(f"{body.crate} {body.name}: there is no test {body.test}")
    print(f"{len(found)} bodies, {sum(body.refused for body in found)} that a contract refuses; {len(stale)} to be written anew, {len(lost)} without their test")
    return stale != [] or lost != []


if __name__ == "__main__":
    sys.exit(main())
