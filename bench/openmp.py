#!/usr/bin/env python3
"""Tests docs/FROM-OPENMP.md. Each kernel on that page is run and checked, and must print the sums and races that stand below it. Each piece of C
is compiled with clang 14 and run, and the arrays that it shares with the kernels of its row must have the same sums; without clang 14 that is
left out, and said. Each difference must be that of the two examples that it names, and each kernel of examples/README.md must have one to each of its
twins: the first is run and must race as it says there, and its twin must have no race and the sums that it says. Each row of the tables must lead to a
heading with both texts.

usage: openmp.py SWORD
"""
import difflib
import os
import re
import shutil
import subprocess
import sys
import tempfile

ROOT = os.path.dirname(os.path.dirname(os.path.abspath(__file__)))
PAGE = os.path.join(ROOT, "docs/FROM-OPENMP.md")
EXAMPLES = os.path.join(ROOT, "examples")
CLANG = ["clang-14", "-g", "-O1", "-fopenmp", "-Wall", "-Werror"]


def blocks(text):
    """Each fenced block: the heading above it, its language, its text, the line before it and the indented lines after it."""
    heading, before, lines = "", "", iter(text.split("\n"))
    found = []
    for line in lines:
        if line.startswith("## "):
            heading = line[3:]
        elif line.startswith("```") and line[3:]:
            inside = []
            for inner in lines:
                if inner == "```":
                    break
                inside.append(inner)
            found.append((heading, line[3:], inside, before, []))
        elif line.startswith("    ") and found:
            found[-1][4].append(line.strip())
        before = line or before
    return found


def said(words, place):
    return subprocess.run(words, cwd=place, stdout=subprocess.PIPE, stderr=subprocess.STDOUT, text=True, timeout=60).stdout


def sums(text):
    return dict(re.findall(r"^sum (\w+) (-?\d+)$", text, re.M))


def judged(sword, kernel, place):
    """The sums that `run` prints, and all that `check` does, a line each."""
    shutil.rmtree(os.path.join(place, "logs"), ignore_errors=True)
    ran = said([sword, "run", kernel, "logs", "4096"], place)
    return re.findall(r"^(?:sum|stopped) .*$", ran, re.M), said([sword, "check", "logs", "2"], place).split("\n")[:-1]


def kernel_fault(sword, lines, due, place):
    with open(os.path.join(place, "row.kernel"), "w", encoding="utf-8") as out:
        out.write("\n".join(lines) + "\n")
    sums_printed, races = judged(sword, "row.kernel", place)
    return None if sums_printed + races == due else f"{due} is due, and it prints {sums_printed + races}"


def c_sums(lines, place):
    """What a piece of C has in its arrays after it has run, as `run` prints sums."""
    outside = [line for line in lines if line.startswith(("static ", "#pragma omp threadprivate"))]
    inside = [line for line in lines if line not in outside]
    arrays = re.findall(r"(\w+)\[(\d+)\]", "\n".join(line for line in outside if line.startswith("static ")))
    add_up = 'long of_{0} = 0; for (int k = 0; k < {1}; k++) of_{0} += {0}[k]; printf("sum {0} %ld\\n", of_{0});'
    told = [add_up.replace("{0}", name).replace("{1}", count) for name, count in arrays]
    with open(os.path.join(place, "row.c"), "w", encoding="utf-8") as out:
        out.write("\n".join(["#include <omp.h>", "#include <stdio.h>", *outside, "int main(void) {", *inside, *told, "return 0; }"]) + "\n")
    errors = said([*CLANG, "row.c", "-o", "row"], place)
    return errors or said(["./row"], place)


def example(name):
    """The lines of an example without the comment above it."""
    with open(os.path.join(EXAMPLES, name + ".kernel"), encoding="utf-8") as text:
        return [line.rstrip("\n") for line in text if not line.startswith("#")]


def difference(one, other):
    return [line for line in difflib.unified_diff(example(one), example(other), n=2, lineterm="") if not line.startswith(("---", "+++", "@@"))]


def faults(sword, page, place):
    """A name and, if it fails, what is wrong, for all that is tested."""
    has_clang = shutil.which(CLANG[0])
    if not has_clang:
        print("there is no clang-14, so no C is compiled")
    of_c, mended = {}, set()
    for heading, language, lines, before, after in blocks(page):
        if language == "c" and has_clang:
            of_c = sums(printed := c_sums(lines, place))
            yield heading + ", C", None if of_c else printed
        elif language == "kernel":
            yield heading + ", kernel", kernel_fault(sword, lines, after, place)
            if has_clang:
                both = {name: value for name, value in sums("\n".join(after)).items() if name in of_c}
                yield heading + ", sums", None if both and both.items() <= of_c.items() else f"C has {of_c}"
        elif language == "diff":
            one, other = re.findall(r"`(\w+)\.kernel`", before)
            mended.add((one, other))
            due = difference(one, other)
            yield f"{one} to {other}", None if lines == due else "\n".join(["the difference is", *due])
    with open(os.path.join(EXAMPLES, "README.md"), encoding="utf-8") as text:
        rows = {row[0].strip("`"): row for row in ([cell.strip() for cell in line.strip().strip("|").split("|")] for line in text if line.startswith("| `"))}
    for one, other in ((one, other) for one, row in rows.items() for other in re.findall(r"`(\w+)`", row[4])):
        yield f"{one} to {other}", None if (one, other) in mended else "no difference leads there"
        races = rows[one][2].strip("`")
        _, found = judged(sword, os.path.join(EXAMPLES, one + ".kernel"), place)
        yield one, None if found == [races, "races 1"] else f"{races} is due, and `check` prints {found}"
        due = re.findall(r"`(sum \w+ -?\d+)`", rows[other][1])
        found = judged(sword, os.path.join(EXAMPLES, other + ".kernel"), place)
        yield other, None if found == (due, ["races 0"]) else f"{due} and no race are due, and it prints {found}"
    texts = {(heading.lower().replace(" ", "-"), language) for heading, language, *_ in blocks(page)}
    for row in re.findall(r"^\| (?!OpenMP ).*$", page, re.M):
        link = re.search(r" \[[^|]*\]\(#([\w-]+)\) \|$", row)
        both = link and {(link[1], "c"), (link[1], "kernel")} <= texts
        yield row, None if both else "no heading with both texts belongs to it"


def main():
    if len(sys.argv) != 2:
        sys.exit(__doc__)
    with open(PAGE, encoding="utf-8") as text:
        page = text.read()
    passed = failed = 0
    with tempfile.TemporaryDirectory() as place:
        for name, fault in faults(os.path.abspath(sys.argv[1]), page, place):
            passed, failed = passed + (not fault), failed + bool(fault)
            if fault:
                print(f"{name}: {fault}")
    print(f"{passed} passed, {failed} failed")
    sys.exit(failed > 0)


main()
