#!/usr/bin/env python3
"""Hostile arguments, kernels and folders through every command: the status and the text that are due, and what they took.

A case is right if its status and text are those of its row, if it leaves each folder that it may not write as it was, and if it takes at most so many
seconds and MiB (10 and 64, where its row says nothing). It prints a line for each, and the exit status is 1 if one is wrong.

usage: hostile.py SWORD
"""
import os
import shutil
import sys
import tempfile
import time

from writer import BARRIER, END, REGION, WRITE, put, record, row

KERNEL = """array a i64 8
main {
    parallel 2 { a[0] = tid }
}
"""
LOGS = {"t.swl", "t-0.0.swl", "t-0.1.swl"}
RACE = "race row 2 t-0.0.swl record 1 row 3 t-0.1.swl record 1 byte 4096\n"


def write(path, content):
    with open(path, "wb") as file:
        file.write(content if isinstance(content, bytes) else content.encode())
    return path


def files_of(folder):
    held = {}
    for name in sorted(os.listdir(folder)):
        path = os.path.join(folder, name)
        if os.path.isfile(path) and os.path.getsize(path) < 1 << 20:
            with open(path, "rb") as file:
                held[name] = file.read()
        else:
            held[name] = os.path.isdir(path) or os.path.getsize(path)
    return held


class Cases:
    def __init__(self, sword, place):
        self.sword, self.place, self.count, self.wrong = sword, place, 0, 0

    def path(self, *names):
        return os.path.join(self.place, *names)

    def ask(self, words, limit=60):
        """Status, text, seconds and MiB of a command."""
        out, begin = self.path("out"), time.monotonic()
        words = [os.fsencode(word) if isinstance(word, str) else word for word in words]
        child = os.fork()
        if child == 0:
            descriptor = os.open(out, os.O_WRONLY | os.O_CREAT | os.O_TRUNC)
            os.dup2(descriptor, 1)
            os.dup2(descriptor, 2)
            os.execv(self.sword, [os.fsencode(self.sword), *words])
        while True:
            ended, status, usage = os.wait4(child, os.WNOHANG)
            if ended:
                break
            if time.monotonic() - begin > limit:
                os.kill(child, 9)
            time.sleep(0.001)
        with open(out, "rb") as file:
            text = file.read().decode(errors="replace")
        return os.waitstatus_to_exitcode(status), text, time.monotonic() - begin, usage.ru_maxrss / 1024

    def due(self, what, words, status, text, same=(), seconds=10, memory=64):
        before = [files_of(folder) for folder in same]
        found = self.ask(words)
        is_well = found[:2] == (status, text) and found[2] <= seconds and found[3] <= memory and before == [files_of(folder) for folder in same]
        self.count += 1
        self.wrong += not is_well
        head = found[1].split("\n")[0][:70]
        print(f"{'well' if is_well else 'WRONG'}: {what}: {found[0]} {head!r}, {found[2]:.2f} s, {found[3]:.0f} MiB", flush=True)
        if not is_well:
            print(f"    due {status} {text[:200]!r}, found {found[0]} {found[1][:200]!r}", flush=True)


def copy(cases, name, old=False, **changes):
    """A copy of the good folder, perhaps by the first format, in which files are others or gone."""
    new = cases.path(name)
    shutil.copytree(cases.path("good"), new)
    for file in os.listdir(new):
        content = open(os.path.join(new, file), "rb").read()
        if old:
            write(os.path.join(new, file), content[:7] + b"1" + content[8:])
    for file, change in changes.items():
        path = os.path.join(new, file.replace("_", ".").replace("t0", "t-0."))
        content = open(path, "rb").read()
        os.remove(path)
        made = change(content, path)
        if made is not None:
            write(path, made)
    return new


def arguments(cases):
    kernel, good, old, new = cases.path("kernel"), cases.path("good"), cases.path("old"), cases.path("new")
    whole = {
        "check": [good, "2"],
        "run": [kernel, new, "24"],
        "live": [kernel, new, "24"],
        "replay": [kernel, good],
        "show": [good],
        "gen": ["1", "1"],
        "upgrade": [old, new],
        "explain": [good, "3", "3"],
        "confirm": [good, "2", "1", "3", "1"],
        "certify": [kernel],
    }
    limits = {"check": 64, "run": 4194304, "live": 4194304, "gen": 100000, "explain": 4294967295, "confirm": 65536}
    usage = cases.ask([])[1]
    assert usage.startswith("usage: sword"), usage

    def refused(what, words):
        cases.due(what, words, 2, usage, [good, old, cases.place])

    refused("no word", [])
    for word in ["", "Check", "check ", "-check", "--help", "upgrade\n", b"\xff"]:
        refused(f"command {word!r}", [word, good, "2"])
    for command, words in whole.items():
        refused(f"{command} with a word too few", [command, *words[:-1]])
        refused(f"{command} with a word too many", [command, *words, "1"])
        refused(f"{command} with an empty word too many", [command, *words, ""])
        for place, word in enumerate(words):
            bad = ["", "0", "01", "+1", "-1", " 1", "1 ", "1e3", "0x10", "\u0661", "9" * 4096, "18446744073709551617"] if word.isdigit() else ["", "d" * 1025, b"\xff\xfe"]
            if word.isdigit() and place == 1 or command == "gen" or command in ("run", "live") and place == 2:
                bad += [str(limits[command] + 1)] if word.isdigit() else []
            for other in bad:
                short = other if len(other) < 20 else f"{other[:4]!r}.. of {len(other)} bytes"
                refused(f"{command} with {short!r} as word {place + 1}", [command, *words[:place], other, *words[place + 1 :]])
    refused("explain with lines in the other order", ["explain", good, "4", "3"])
    refused("run with a buffer below a record", ["run", kernel, new, "23"])
    refused("live with a buffer below a record", ["live", kernel, new, "23"])
    cases.due("explain of the greatest lines", ["explain", good, "4294967295", "4294967295"], 0, "no race 4294967295 4294967295\n", [good])
    cases.due("confirm of the greatest places", ["confirm", good, "65536", "4194304", "65536", "4194304"], 0, "no race\n", [good])
    cases.due("confirm of a record with itself", ["confirm", good, "2", "1", "2", "1"], 0, "no race\n", [good])
    cases.due("confirm of an End", ["confirm", good, "2", "2", "3", "1"], 0, "no race\n", [good])
    cases.due("explain of a race", ["explain", good, "3", "3"], 1, RACE, [good])
    long = os.path.join(*["d" * 31] * 32)[:1024]
    assert len(long) <= 1024
    for command in ["check", "explain", "confirm", "upgrade"]:
        words = [command, long, *whole[command][1:]]
        cases.due(f"{command} of a name of {len(long)} bytes that is nowhere", words, 4, "no index\n", [good])


def kernels(cases):
    texts = [
        ("nothing", b"", "kernel line 1: Syntax"),
        ("a byte 0", b"main { \0 }", "kernel line 1: Token"),
        ("a byte order mark", b"\xef\xbb\xbfmain { }", "kernel line 1: Token"),
        ("a byte 255 in line 3", b"main {\n\n\xff }", "kernel line 3: NotUtf8"),
        ("65,537 bytes", b"main { } #" + b"x" * 65527, "kernel line 1: Large"),
        ("65,521 opening brackets", b"main { let x = " + b"(" * 65521, "kernel line 1: Deep"),
        ("65,531 opening braces", b"main " + b"{" * 65531, "kernel line 1: Syntax"),
        ("65,536 line feeds", b"\n" * 65536, "kernel line 65537: Syntax"),
        ("a number of 65,000 digits", b"main { let x = " + b"1" * 65000 + b" }", "kernel line 1: Token"),
        ("a name of 65,000 letters", b"main { let " + b"x" * 65000 + b" = 1 }", "kernel line 1: Token"),
        ("4,000 variables", b"main { " + b" ".join(b"let v%d = 1" % n for n in range(4000)) + b" }", None),
        ("a value with 10,000 terms", b"main { let x = 1" + b" + 1" * 10000 + b" }", None),
        ("a comment without an end", b"main { } # " + b"{" * 60000, None),
    ]
    for name, text, refusal in texts:
        kernel, new = write(cases.path("text"), text), cases.path("new")
        for command, words in [("run", [new, "4096"]), ("live", [new, "4096"]), ("certify", []), ("replay", [cases.path("good")])]:
            status, said = (3, refusal + "\n") if refusal else {"certify": (0, "certain\ntasks 1\nrecords 1\n"), "replay": (1, "differs t.swl record 1\n")}.get(command, (0, "tasks 1\nrecords 1\n"))
            cases.due(f"{command} of a kernel with {name}", [command, kernel, *words], status, said, [cases.path("good")])
            shutil.rmtree(new, ignore_errors=True)
    for command, words in [("run", [cases.path("new"), "24"]), ("live", [cases.path("new"), "24"]), ("certify", []), ("replay", [cases.path("good")])]:
        cases.due(f"{command} of a kernel that is nowhere", [command, cases.path("none"), *words], 3, "no kernel\n")
    endless = write(cases.path("endless"), "array a i64 1\nmain { loop i in 0 .. 9223372036854775807 { a[0] = i } }\n")
    cases.due("certify of a loop of 2^63 turns", ["certify", endless], 1, "uncertain: stopped t.swl line 2: LogFull\n", [], 60, 600)
    # a log has room for 4,194,304 records
    for command in ["run", "live"]:
        cases.due(f"{command} of a loop of 2^63 turns", [command, endless, cases.path("new"), "65536"], 5, "stopped t.swl line 2: LogFull\n", [], 60)
        shutil.rmtree(cases.path("new"))


def sparse(size):
    def make(content, path):
        write(path, content)
        os.truncate(path, size)

    return make


def link(target):
    return lambda content, path: os.symlink(target, path)


def due_of(refusal, otherwise):
    """The status and the text that are due: those of a refusal, those of a read that failed where it has no text, or others where there is none."""
    if refusal is None:
        return otherwise
    return (4, refusal) if refusal else (6, "")


def folders(cases):
    row = lambda depth, records: depth.to_bytes(4, "big") + bytes(36) + records.to_bytes(8, "big")
    index = lambda change: {"index_swi": lambda content, path: change(content)}
    of_folders = [
        ("an index of no bytes", index(lambda content: b""), "bad index row 0: Header\n"),
        ("an index of 7 bytes", index(lambda content: content[:7]), "bad index row 0: Header\n"),
        ("an index without rows", index(lambda content: content[:8]), "bad index row 1: Cut\n"),
        ("an index of 16 TiB", {"index_swi": sparse(1 << 43)}, "bad index row 4: Order\n"),
        ("an index that is a device", {"index_swi": link("/dev/zero")}, ""),
        ("a row of 2^64 - 1 records", index(lambda content: content[:8] + row(0, (1 << 64) - 1)), "bad index row 1: Records\n"),
        ("a row of depth 2^32 - 1", index(lambda content: content[:8] + row((1 << 32) - 1, 1)), "bad index row 1: Depth\n"),
        ("a second root", index(lambda content: content + row(0, 1)), "bad index row 4: Order\n"),
        ("no root's log", {"t_swl": lambda content, path: None}, "missing log t.swl\n"),
        ("a log of 16 TiB", {"t_swl": sparse(1 << 43)}, "bad log t.swl record 3: Extra\n"),
        ("a log that is a device", {"t_swl": link("/dev/zero")}, ""),
        ("a log that is empty", {"t01_swl": lambda content, path: b""}, "bad log t-0.1.swl record 0: Header\n"),
        ("logs that are one file", {"t01_swl": link("t-0.0.swl")}, None),
    ]
    for number, (what, changes, refusal) in enumerate(of_folders):
        for old in [False, True]:
            folder = copy(cases, f"{'old' if old else 'new'}-{number}", old, **changes)
            new = cases.path("left")
            if old:
                status, said = due_of(refusal, (0, "upgraded 3\n"))
                cases.due(f"upgrade of a folder with {what}", ["upgrade", folder, new], status, said, [folder])
                shutil.rmtree(new, ignore_errors=True)
                continue
            kernel = cases.path("kernel")
            asked = {
                "check": (["64"], 1, "race 3 3\nraces 1\n"),
                "show": ([], 0, cases.ask(["show", cases.path("good")])[1].replace("value 1", "value 0")),
                "explain": (["3", "3"], 1, RACE),
                "confirm": (["2", "1", "3", "1"], 1, "race byte 4096\n"),
            }
            for command, (words, status, said) in asked.items():
                due = due_of(refusal, (status, said))
                cases.due(f"{command} of a folder with {what}", [command, folder, *words], *due, [folder])
            due = due_of(refusal, (1, "differs t-0.1.swl record 1\n"))
            cases.due(f"replay of a folder with {what}", ["replay", kernel, folder], *due, [folder])
    good, old = cases.path("good"), cases.path("old")
    cases.due("upgrade of a folder to itself", ["upgrade", old, old], 9, "index exists\n", [old])
    cases.due("upgrade of a folder of the second format", ["upgrade", good, cases.path("left")], 4, "bad index row 0: Header\n", [good])
    cases.due("upgrade to a folder below a file", ["upgrade", old, os.path.join(cases.path("kernel"), "x")], 7, "", [old])
    cases.due("upgrade to a folder below one that is nowhere", ["upgrade", old, cases.path("none", "x")], 0, "upgraded 3\n", [old])
    cases.due("upgrade to a folder inside", ["upgrade", old, os.path.join(old, "x")], 0, "upgraded 3\n")
    cases.due("check of it", ["check", os.path.join(old, "x"), "1"], 1, "race 3 3\nraces 1\n")
    for command in ["run", "live"]:
        cases.due(f"{command} into a folder that has an index", [command, cases.path("kernel"), good, "24"], 9, "index exists\n", [good])


def claims(cases):
    """Folders that claim much, by each number of workers: they are refused where one worker refuses them, in as little time and memory."""
    write_at = lambda place: record(WRITE, 3, 8, 0, 4096 + 8 * place)

    def folder(name, regions, lane):
        """A root that forks regions of 64 lanes with this log each, which are one file."""
        root = [record(REGION, 2, value=64)] * regions + [record(END, 9)]
        tasks = [([(region, number, 64)], lane) for region in range(regions) for number in range(64)]
        place = cases.path(name)
        put(place, [([], root), ([(0, 0, 64)], lane)])
        for path, _ in tasks[1:]:
            os.link(os.path.join(place, "t-0.0.swl"), os.path.join(place, f"t-{path[0][0]}.{path[0][1]}.swl"))
        with open(os.path.join(place, "index.swi"), "wb") as index:
            index.write(b"SWIDX002" + row([], root) + b"".join(row(path, records) for path, records in tasks))
        return place

    def alter(place, name, change):
        """Gives a log of the folder a file of its own, with another content."""
        path = os.path.join(place, name)
        with open(path, "rb") as log:
            content = log.read()
        os.unlink(path)
        write(path, change(content))

    def told(place, records):
        """Rows that all tell so many records, but the root's."""
        path = os.path.join(place, "index.swi")
        with open(path, "rb") as index:
            content = index.read()
        rows = [content[at:at + 48] for at in range(8, len(content), 48)]
        write(path, content[:8] + rows[0] + b"".join(one[:40] + records.to_bytes(8, "big") for one in rows[1:]))

    intervals = folder("intervals", 1, [write_at(0), record(BARRIER, 4)] * 65536 + [record(END, 9)])
    alter(intervals, "t-0.1.swl", lambda content: content[:9] + bytes([3]) + content[10:])
    full = folder("full", 1, [write_at(0), record(BARRIER, 4)] * 65536 + [write_at(0), record(END, 9)])
    short = folder("short", 1, [write_at(0), write_at(1)])
    told(short, 4194304)
    many = folder("many", 200, [write_at(0), record(END, 9)])
    told(many, 16384)
    cut = folder("cut", 200, [write_at(0), write_at(1)])
    told(cut, 16384)
    for workers in [1, 2, 4, 64]:
        by = lambda what, place, said: cases.due(f"check of {what} by {workers}", ["check", place, str(workers)], 4, said, [place], 3, 150)
        by("64 logs of 65,536 intervals each", intervals, "bad log t-0.1.swl record 1: Size\n")
        by("64 logs of 65,537 intervals each", full, "too many segments at t-0.0.swl record 131073\n")
        by("logs of two records that claim 4,194,304", short, "bad log t-0.0.swl record 3: Cut\n")
        by("200 regions whose logs end before what they claim", many, "bad log t-0.0.swl record 2: EndEarly\n")
        by("200 regions whose logs are cut", cut, "bad log t-0.0.swl record 3: Cut\n")


def main():
    sword = os.path.abspath(sys.argv[1])
    with tempfile.TemporaryDirectory(dir="/dev/shm" if os.path.isdir("/dev/shm") else None) as place:
        cases = Cases(sword, place)
        write(cases.path("kernel"), KERNEL)
        assert cases.ask(["run", cases.path("kernel"), cases.path("good"), "24"])[0] == 0
        assert set(os.listdir(cases.path("good"))) == LOGS | {"index.swi"}
        copy(cases, "old", True)
        arguments(cases)
        kernels(cases)
        folders(cases)
        claims(cases)
        print(f"{cases.count} cases, {cases.wrong} wrong")
        return 1 if cases.wrong else 0


if __name__ == "__main__":
    sys.exit(main())
