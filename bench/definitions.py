#!/usr/bin/env python3
"""Counts the definitions that a reader of each clause of the top call has to believe: all those of crates/*/specs that it reaches, and their files and lines.

usage: definitions.py [CLAUSE ..]     a table of all clauses; of each clause that is named, also the files and what they hold of it

A definition is a block of a file up to the next empty line, with its comment. It reaches those that it names, but for the names that it gives its own
fields and variables. Left out are the toolchain's own, and the Rust types that a definition reads: these are only counted.
"""
import collections
import glob
import os
import re
import sys

TOP = os.path.dirname(os.path.dirname(os.path.abspath(__file__)))
CALL = os.path.join(TOP, "crates", "top_call", "src", "top.rt")
WORD = re.compile(r"(?<![\w'.])[A-Za-z_][A-Za-z0-9_']*")
FIELD = re.compile(r"^ +(?:pub )?([a-z_][\w']*) : ")
LABEL = re.compile(r"(^ +|\{ |; )[a-z_][\w']* = ")
BOUND = re.compile(r"[({]([A-Za-z_][\w' ]*) : ")
LAMBDA = re.compile(r"λ ([a-z_][\w' ]*)\.")
EQUATION = re.compile(r"^[a-z_][\w']* (.*?) = ", re.M)
USE = re.compile(r"^(?:ghost )?use Rattle\.(\w+)\.specs\.([\w.]+?)\.\{(.*)\};?\s*$", re.M)
RENAMED = re.compile(r"^use Rattle\.(\w+)\.specs\.([\w.]+) as (\w+)", re.M)
DEFINED = re.compile(r"^(?:(?:abbrev|unfoldable|mutual|pub|record|data)\s+)+([A-Za-z_][\w']*)", re.M)
TOGETHER = re.compile(r"^  pub (?:(?:record|data)\s+)?([A-Za-z_][\w']*)\s*[:{(]", re.M)
CASE = re.compile(r"^\s{2,4}([A-Za-z_][\w']*)\s*:", re.M)

Definition = collections.namedtuple("Definition", "file names lines text")


class File:
    """A file of specs: what it brings in by `use`, and its definitions by name."""

    def __init__(self, path):
        with open(path, encoding="utf-8") as file:
            text = file.read()
        self.path = os.path.relpath(path, TOP)
        self.brought = brought_by(text)
        self.renamed = {name: (crate, module) for crate, module, name in RENAMED.findall(text)}
        self.by_name = {}
        for block in blocks(text):
            definition = defined(self.path, block)
            for name in definition.names:
                self.by_name[name] = definition


def brought_by(text):
    return {name.strip(): (crate, module, name.strip()) for crate, module, names in USE.findall(text) for name in names.split(",")}


def blocks(text):
    """The blocks of a file; one that begins with a space goes on with the one before it."""
    found = []
    for block in re.split(r"\n\s*\n", text):
        lines = [line for line in block.split("\n") if line.strip() and not line.startswith(("use ", "pub mod "))]
        code = [line for line in lines if not line.lstrip().startswith("--")]
        if code and code[0].startswith(" ") and found:
            found[-1] += lines
        elif code:
            found.append(lines)
    return found


def defined(path, lines):
    text = "\n".join(line for line in lines if not line.lstrip().startswith("--"))
    names = set(DEFINED.findall(text))
    if re.match(r"\S*\s*mutual", text):
        names |= set(TOGETHER.findall(text))
    if re.search(r"\bdata\b", text):
        names |= set(CASE.findall(text))
    return Definition(path, names - {"where"}, len(lines), text)


def all_files():
    found = {}
    for path in glob.glob(os.path.join(TOP, "crates", "*", "specs", "**", "*.antt"), recursive=True):
        crate, _, module = os.path.relpath(path, os.path.join(TOP, "crates"))[: -len(".antt")].partition("/specs/")
        found[crate, module.replace("/", ".")] = File(path)
    return found


def variables(text):
    """The variables of a definition: of its types, of its functions, and in front of an equation's sign."""
    found = set()
    for names in [*BOUND.findall(text), *LAMBDA.findall(text)]:
        found |= set(WORD.findall(names))
    for patterns in EQUATION.findall(text):
        found |= {word for word in WORD.findall(patterns) if word[0].islower()}
    return found


def words_of(text):
    """The words of a definition that aren't its own: no variables, no labels, and no fields once they are declared."""
    words, fields = set(), set()
    for line in text.split("\n"):
        words |= set(WORD.findall(LABEL.sub(r"\1", FIELD.sub("", line)))) - fields
        fields |= set(FIELD.findall(line))
    return words - variables(text)


def named_by(file, place, text):
    """The definitions, as (crate, module, name), that a text in that file names."""
    for word in words_of(text):
        if word in file.brought:
            yield file.brought[word]
        elif word in file.by_name:
            yield (*place, word)
        elif word in file.renamed:
            for name in re.findall(re.escape(word) + r"\.([A-Za-z_][\w']*)", text):
                yield (*file.renamed[word], name)


def reached(files, start):
    """The definitions that are reached, and the Rust types."""
    found, types, waiting, seen = set(), set(), list(start), set()
    while waiting:
        crate, module, name = one = waiting.pop()
        if one in seen:
            continue
        seen.add(one)
        if module.startswith("declared"):
            types.add((crate, module))
            continue
        file = files.get((crate, module))
        definition = file and file.by_name.get(name)
        if definition:
            found.add((definition.file, min(definition.names), definition.lines))
            waiting += named_by(file, (crate, module), definition.text)
    return found, types


def clauses():
    with open(CALL, encoding="utf-8") as file:
        text = file.read()
    brought = brought_by(text)
    for name, clause in re.findall(r"^ +ensures (\w+) \{(.*?)\}\n", text, re.M | re.S):
        yield name, [brought[word] for word in set(WORD.findall(clause)) if word in brought]


def main():
    files = all_files()
    everything = set()
    print("| Clause | Definitions | Lines | Files | Rust types |")
    print("|---|---|---|---|---|")
    for name, start in clauses():
        found, types = reached(files, start)
        everything |= found
        print(f"| `{name}` | {len(found)} | {sum(lines for _, _, lines in found)} | {len({file for file, _, _ in found})} | {len(types)} |")
        if name in sys.argv[1:]:
            for file in sorted({file for file, _, _ in found}):
                of_file = [lines for other, _, lines in found if other == file]
                print(f"    {file}: {len(of_file)} definitions, {sum(of_file)} lines")
    print(f"| all | {len(everything)} | {sum(lines for _, _, lines in everything)} | {len({file for file, _, _ in everything})} | |")


if __name__ == "__main__":
    main()
