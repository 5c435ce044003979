#!/usr/bin/env python3
"""Tests the script ./sword over the program: what it says on standard error for each status, that its table and the documents agree, where it is
called from, what it says is missing, and that an interrupted build loses nothing.

    bench/test_sword.py    SWORD may name the program
"""
import os
import re
import shutil
import signal
import struct
import subprocess
import tempfile
import time

ROOT = os.path.dirname(os.path.dirname(os.path.abspath(__file__)))
PROGRAM = os.environ.get("SWORD") or f"{ROOT}/crates/sword/out/sword"
READ, WRITE, LOCK, UNLOCK, BARRIER, REGION, CHUNK, END = range(1, 9)


def is_right(shown, said):
    if not shown:
        raise AssertionError(said)


def read(name):
    with open(f"{ROOT}/{name}", encoding="utf-8") as file:
        return file.read()


def table():
    return [line.split(" | ") for line in read("report/statuses.txt").splitlines() if not line.startswith("#")]


def rows(text, head):
    """The rows of the tables with this head, without it."""
    found = []
    for it in text.split(f"{head}\n")[1:]:
        found += [[cell.strip() for cell in line.strip("|").split(" | ")] for line in it.split("\n\n")[0].splitlines()[1:]]
    return found


KERNEL_ROWS = rows(read("docs/KERNELS.md"), "| WHY | Where | Example | Line |")
STOP_ROWS = rows(read("docs/KERNELS.md"), "| WHY | What stopped it |")
PLACE_ROWS = rows(read("docs/FORMATS.md"), "| Why | Where |")
COMMAND_ROWS = rows(read("README.md"), "| Command | What it does |")


def test_documents():
    """The table has the causes that the documents have, in their words, and no other."""
    ours = {status: {(it[1], it[3]) for it in table() if it[0] == status} for status in "2345"}
    is_right(all(len(it) == 5 for it in table()), "a row without five parts")
    kernel = {(why.strip("`"), where) for why, where, _, _ in KERNEL_ROWS}
    is_right(ours["3"] - {("no kernel", "there is no file of this name")} == kernel, f"{ours['3'] ^ kernel}")
    stops = {(why.strip("`"), what) for why, what in STOP_ROWS}
    is_right(ours["5"] == stops, f"{ours['5'] ^ stops}")
    at = [why for why, _ in PLACE_ROWS].index("Records") + 1
    places = {(f"row {why}", where) for why, where in PLACE_ROWS[:at]} | {(f"record {why}", where) for why, where in PLACE_ROWS[at:]}
    mine = {it for it in ours["4"] if it[0].split()[0] in ("row", "record")}
    is_right(mine == places and len(places) == 29, f"{mine ^ places}")
    others = {word for word, _ in ours["4"] - mine}
    is_right(others == {"no index", "missing log", "too many segments"} and all(f"`{it}" in read("docs/FORMATS.md") for it in others), f"{others}")
    forms = {form.strip("`") for form, _ in COMMAND_ROWS}
    is_right({form for _, form in ours["2"]} == forms and all(form.split()[0] == word for word, form in ours["2"]), f"{forms}")


class Place:
    """A repository with nothing but the script, its table, the page and a program that was built."""

    def __init__(self, room):
        self.room, self.root = room, f"{room}/root"
        for name in ("crates/sword/src", "crates/sword/out"):
            os.makedirs(f"{self.root}/{name}")
        for name in ("sword", "page", "HANDLES"):
            shutil.copy(f"{ROOT}/{name}", self.root)
        with open(f"{self.root}/crates.txt", "w", encoding="utf-8") as file:
            file.write("sword:\n")
        shutil.copytree(f"{ROOT}/report", f"{self.root}/report", ignore=shutil.ignore_patterns("__pycache__"))
        shutil.copy(f"{ROOT}/crates/sword/src/main.rt", f"{self.root}/crates/sword/src/main.rt")
        self.program = f"{self.root}/crates/sword/out/sword"
        shutil.copy(os.path.realpath(PROGRAM), self.program)
        os.utime(self.program)

    def ask(self, *words, script=None, folder=None, path=None, stdout=subprocess.PIPE):
        """The status, the text, and what is said beside it."""
        command, env = [script or f"{self.root}/sword", *words], {**os.environ, "PATH": path or os.environ["PATH"]}
        ran = subprocess.run(command, stdout=stdout, stderr=subprocess.PIPE, cwd=folder or self.room, env=env)
        return ran.returncode, (ran.stdout or b"").decode(errors="replace"), ran.stderr.decode(errors="replace")

    def file(self, name, text):
        with open(f"{self.room}/{name}", "wb") as file:
            file.write(text if isinstance(text, bytes) else text.encode())
        return f"{self.room}/{name}"

    def tools(self, **scripts):
        """A folder of commands before all others, each a shell script."""
        folder = tempfile.mkdtemp(dir=self.room)
        for name, text in scripts.items():
            with open(f"{folder}/{name}", "w", encoding="utf-8") as file:
                file.write(f"#!/bin/sh\n{text}\n")
            os.chmod(f"{folder}/{name}", 0o755)
        return f"{folder}:{os.environ['PATH']}"


def test_forms(place):
    usage = subprocess.run([PROGRAM], stdout=subprocess.PIPE, text=True).stdout
    wrong = ["check logs", "check logs 100", "check logs 04", "run k logs 10", "live k logs 4194305", "replay k", "show", "upgrade a"]
    wrong += ["explain logs 7 6", "confirm logs 0 1 1 1", "certify", "gen 0 1"]
    forms = {form.strip("`").split()[0]: form.strip("`") for form, _ in COMMAND_ROWS}
    for it in wrong:
        status, said, beside = place.ask(*it.split())
        is_right((status, said) == (2, usage) and beside.count("\n") == 2, f"{it}: {status} {said} {beside}")
        is_right(beside.startswith(f"sword: the form is {forms[it.split()[0]]}\n"), f"{it}: {beside}")
    is_right("in ascending order" in place.ask("explain", "logs", "7", "6")[2], "the order of lines")
    for words in ([], ["--help"], ["chek", "logs", "4"]):
        status, said, beside = place.ask(*words)
        is_right((status, said) == (2, usage) and beside.splitlines() == [f"sword: {it[3]}" for it in table() if it[0] == "2"], f"{words}: {beside}")
    for words in (["explain-all"], ["explain-all", "a", "b", "c"]):
        status, said, beside = place.ask(*words)
        is_right(status == 2 and said == "" and beside.startswith(f"sword: the form is {forms['explain-all']}\n"), f"{words}: {status} {beside}")


def text_of(example):
    """The text of an example of docs/KERNELS.md."""
    names = [f"m{it}" for it in range(9)]
    by_words = {
        "a kernel with a comment up to byte 65,537": "main { } #".ljust(65_537, "x"),
        "`main { } /` and the byte 255": b"main { } \n\xff",
        "`main { x = /` and 33 signs `-`": "main { x = \n" + "-" * 33 + "1 }",
        "65 arrays": "\n".join(f"array a{it} i8 1" for it in range(65)) + "\nmain { }",
        "five regions": "main {\n" + "parallel 1 {\n" * 5 + "}" * 5 + "\n}",
        "nine sections": "".join(f"mutex {it}\n" for it in names) + "main {\n" + "".join(f"critical {it} {{\n" for it in names) + "}" * 10,
    }
    return by_words.get(example) or example.strip("`").replace("/", "\n")


def test_kernels(place):
    for why, where, example, line in KERNEL_ROWS:
        why = why.strip("`")
        kernel = place.file("some.kernel", text_of(example))
        none = f"{place.room}/none"
        for words in (("certify", kernel), ("run", kernel, none, "4096"), ("replay", kernel, none), ("explain-all", kernel, none)):
            status, said, beside = place.ask(*words)
            found = re.fullmatch(rf"kernel line (\d+): {why}\n", said)
            is_right(status == 3 and found and (not line or found.group(1) == line), f"{words}: {status} {said}")
            is_right(f"sword: line {found.group(1)} of {kernel}: " in beside, f"{why}, {example}: {beside}")
            is_right(f"sword: {why} stands for {where}\n" in beside, f"{why}, {example}: {beside}")
            is_right(beside.count("\n") > beside.count(" stands for ") + 1, f"{why}: no advice: {beside}")
    for text, wanted, unwanted in (
        ("array a i64 8\nmain {\nlet n = 8\nparallel 2 {\nfor i in 0 .. n { a[i] = 1 }\n}\n}\n", "write the bounds with numbers", "a barrier in"),
        ("array a i64 8\nmain {\na[0] = 1;\n}\n", "leave the `;` away", "`and`"),
        ("array a i64 8\nmain {\na[0] += 1\n}\n", "write `atomic a[i] += 1`", "close every"),
        ("main {\nfor", "a text that ends before its kernel does", "a reserved name"),
        ("array a f64 8\nmain {\n}\n", "there is no floating point", "another name"),
        ("array a i64 0\nmain {\n}\n", "a number of elements that isn't", "a number of lanes"),
        ("main {\nparallel 65 {\n}\n}\n", "a number of lanes that isn't", "a number of elements"),
        ("main {\nparallel 2 {\nif tid == 0 {\nbarrier\n}\n}\n}\n", "a barrier in an `if`", "in a bound"),
    ):
        beside = place.ask("certify", place.file("some.kernel", text))[2]
        is_right(wanted in beside and unwanted not in beside, f"{text}: {beside}")
    status, said, beside = place.ask("certify", "nowhere.kernel")
    is_right((status, said) == (3, "no kernel\n") and "there is no file of this name" in beside, beside)


def record(kind, size=0, site=0, line=1, address=0, value=0):
    return struct.pack(">BBHIQQ", kind, size, site, line, address, value)


def row(steps, records):
    path = b"".join(struct.pack(">IHH", *it) for it in steps) + bytes(8 * (4 - len(steps)))
    return struct.pack(">II", len(steps), 0) + path + struct.pack(">Q", records)


ACCESS, ENDED = record(WRITE, 8, 0, 1, 4096, 0), record(END)


def write(folder, logs, index=None):
    """Writes a folder of logs by path, each a list of records; bytes stand for a whole file."""
    os.makedirs(folder)
    for steps, records in logs.items():
        name = "t" + "".join(f"-{region}.{lane}" for region, lane, _ in steps) + ".swl"
        with open(f"{folder}/{name}", "wb") as file:
            file.write(records if isinstance(records, bytes) else b"SWLOG002" + b"".join(records))
    with open(f"{folder}/index.swi", "wb") as file:
        file.write(index if index is not None else b"SWIDX002" + b"".join(row(steps, len(it)) for steps, it in logs.items()))


def team(*logs, root=(record(REGION, value=2), ENDED)):
    """A root with one region of two lanes."""
    return {(): list(root), **{((0, lane, 2),): it for lane, it in enumerate(logs)}}


def bad_rows():
    begun = b"SWIDX002"
    listing = row((), 1) + b"".join(row(((region, lane, 64),), 1) for region in range(1024) for lane in range(64))
    return {
        "Old": b"SWIDX001",
        "Header": b"SWIDX003",
        "TooMany": begun + listing,
        "Cut": begun + row((), 1)[:47],
        "Depth": begun + struct.pack(">I", 5) + row((), 1)[4:],
        "Span": begun + row((), 2) + row(((0, 0, 0),), 1),
        "Lane": begun + row((), 2) + row(((0, 2, 2),), 1),
        "Order": begun + row((), 2) + row(((0, 1, 2),), 1),
        "Records": begun + row((), 0),
    }


def bad_records():
    """The logs of folders and, where it doesn't follow from these, the index."""
    lock, locks = record(LOCK, address=1), [record(LOCK, address=it) for it in range(9)]
    barrier = record(BARRIER)
    alone = {
        "Kind": [record(10), ENDED],
        "Size": [record(READ, 3), ENDED],
        "LineZero": [record(READ, 8, line=0), ENDED],
        "Address": [record(READ, 8, address=2**48), ENDED],
        "Reserved": [record(LOCK, value=1), ENDED],
        "EndEarly": [ENDED, ENDED],
        "EndMissing": [ACCESS],
        "LockTwice": [lock, lock, ENDED],
        "LocksDeep": [*locks, ENDED],
        "UnlockOther": [record(UNLOCK), ENDED],
        "RootBarrier": [barrier, ENDED],
        "LockOpen": [lock, ENDED],
    }
    return {
        **{why: ({(): log}, None) for why, log in alone.items()},
        "Header": ({(): b"SWLOG003"}, b"SWIDX002" + row((), 1)),
        "Cut": ({(): b"SWLOG002" + ACCESS + ENDED[:23]}, b"SWIDX002" + row((), 2)),
        "Extra": ({(): b"SWLOG002" + ENDED + b"x"}, b"SWIDX002" + row((), 1)),
        "Span": (team([ENDED], [ENDED], root=(record(REGION, value=65), ENDED)), None),
        "BarrierLocked": (team([lock, barrier, ENDED], [ENDED]), None),
        "RegionLocked": (team([ENDED], [ENDED], root=(lock, record(REGION, value=2), ENDED)), None),
        "RegionRows": (team([ENDED], [ENDED], root=(ACCESS, ENDED)), None),
        "BarrierCount": (team([barrier, ENDED], [ENDED]), None),
    }


def test_places(place):
    where = {kind + why: words for (why, words), kind in zip(PLACE_ROWS, ["row "] * 9 + ["record "] * 20)}
    told = set()

    def refused(folder, said_is, words):
        status, said, beside = place.ask("check", folder, "1")
        is_right(status == 4 and re.fullmatch(said_is, said), f"{folder}: {status} {said}")
        is_right(words in beside and beside.count("\n") >= 2, f"{folder}: {beside}")

    for why, index in bad_rows().items():
        write(f"{place.room}/row{why}", {}, index)
        refused(f"{place.room}/row{why}", rf"bad index row \d+: {why}\n", f"{why} stands for this: {where['row ' + why]}\n")
        told.add("row " + why)
    for why, (logs, index) in bad_records().items():
        write(f"{place.room}/record{why}", logs, index)
        refused(f"{place.room}/record{why}", rf"bad log \S+ record \d+: {why}\n", f"{why} stands for this: {where['record ' + why]}\n")
        told.add("record " + why)
    is_right(told == set(where), f"{told ^ set(where)}")
    write(f"{place.room}/segments", team([ACCESS, record(BARRIER)] * 65_537 + [ENDED], [record(BARRIER)] * 65_537 + [ENDED]))
    refused(f"{place.room}/segments", r"too many segments at t-0.0.swl record \d+\n", "more than 65,536 barrier intervals have an access")


def test_folders(place):
    """What is told of each command that reads a folder, and of folders that aren't whole."""
    kernel = f"{ROOT}/examples/shift.kernel"
    logs, new = f"{place.room}/whole", f"{place.room}/new"
    place.ask("run", kernel, logs, "4096")
    os.remove(f"{logs}/t-0.1.swl")
    commands = [["check", logs, "4"], ["show", logs], ["replay", kernel, logs], ["explain", logs, "6", "6"], ["confirm", logs, "2", "8", "3", "1"]]
    for words in (*commands, ["explain-all", logs], ["explain-all", kernel, logs]):
        status, said, beside = place.ask(*words)
        is_right((status, said) == (4, "missing log t-0.1.swl\n") and "a task whose log isn't there" in beside, f"{words}: {status} {said} {beside}")
    write(f"{place.room}/old", {(): b"SWLOG001" + ENDED}, b"SWIDX001" + row((), 2))
    status, said, beside = place.ask("upgrade", f"{place.room}/old", new)
    is_right((status, said) == (4, "bad log t.swl record 1: EndEarly\n") and "EndEarly stands for this" in beside, f"upgrade: {said} {beside}")
    os.makedirs(f"{place.room}/empty")
    for folder, words in (("nowhere", "there is no such folder"), ("empty", "neither an index nor the root's log")):
        status, said, beside = place.ask("check", f"{place.room}/{folder}", "4")
        is_right((status, said) == (4, "no index\n") and words in beside, f"{folder}: {beside}")


STOPS = {
    "DivZero": ("array a i64 4\nmain {\nlet z = 0\na[0] = 1 / z\n}\n", "t.swl", 4),
    "Index": ("array a i64 4\nmain {\nparallel 2 {\nfor i in 0 .. 8 static 4 { a[i] = 1 }\n}\n}\n", "t-0.1.swl", 4),
    "LogFull": ("array a i64 1\nmain {\nloop i in 0 .. 4194304 {\na[0] = i\n}\n}\n", "t.swl", None),
    "Tasks": ("array a i64 64\nmain {\nloop t in 0 .. 1025 {\nparallel 64 { }\n}\n}\n", "t.swl", None),
}


def test_stops(place):
    meanings = {why.strip("`"): what for why, what in STOP_ROWS}
    for why, (text, log, line) in STOPS.items():
        kernel, folder = place.file("stops.kernel", text), f"{place.room}/stop{why}"
        status, said, beside = place.ask("run", kernel, folder, "4096")
        found = re.fullmatch(rf"stopped {log} line (\d+): {why}\n", said)
        is_right(status == 5 and found and line in (None, int(found.group(1))), f"{why}: {status} {said}")
        shown = text.splitlines()[int(found.group(1)) - 1].strip()
        wanted = (f"sword: line {found.group(1)} of {kernel}: {shown}\n", f"{why} stands for {meanings[why]}\n", "no command reads logs without one")
        is_right(all(it in beside for it in wanted), f"{why}: {beside}")
        status, said, beside = place.ask("check", folder, "4")
        is_right((status, said) == (4, "no index\n") and "the logs are there and no index" in beside, f"{why}: {beside}")
        shutil.rmtree(folder)
    is_right(set(STOPS) == set(meanings), "a reason without a test")


def test_faults(place):
    kernel, logs = f"{ROOT}/examples/count.kernel", f"{place.room}/faults"
    status, _, beside = place.ask("certify", place.room)
    is_right(status == 6 and "a read failed" in beside, f"6: {status} {beside}")
    status, _, beside = place.ask("run", kernel, "/proc/none", "4096")
    is_right(status == 7 and "a write failed" in beside, f"7: {status} {beside}")
    with open("/dev/full", "wb") as full:
        for words in (["run", kernel, logs, "4096"], ["gen", "1", "1"]):
            status, _, beside = place.ask(*words, stdout=full)
            is_right(status == 7 and "a write failed" in beside, f"7, {words}: {status} {beside}")
    terms = place.file("terms.kernel", f"array a i64 2\nmain {{ parallel 2 {{ a[tid] = 1{'+1' * 31_999} }} }}\n")
    for limit in ("unlimited", "256"):
        given = ["-c", f'ulimit -S -s {limit}; exec "$@"', "sh", f"{place.root}/sword", "run", terms, f"{place.room}/terms{limit}", "4096"]
        is_right(place.ask(*given, script="/bin/sh")[:2] == (0, "tasks 3\nrecords 6\nsum a 64000\n"), f"a long expression, stacks of {limit}")
    long = place.file("long.kernel", "array a i64 1\nmain { loop k in 0 .. 2000 { a[0] = k } }\n")
    limited = ["-c", 'ulimit -f 20; exec "$@"', "sh", f"{place.root}/sword", "run", long, f"{place.room}/limited", "4096"]
    status, _, beside = place.ask(*limited, script="/bin/sh")
    is_right(status == 7 and "a write failed" in beside, f"7, a file that may grow no further: {status} {beside}")
    for words, other in ((["run", kernel, logs, "4096"], "another folder"), (["upgrade", f"{place.room}/old", logs], "another folder")):
        status, said, beside = place.ask(*words)
        is_right(status == 9 and other in beside, f"9, {words}: {status} {said} {beside}")
    big = place.file("big.kernel", "array a i64 1048576\nmain {\na[0] = 1\n}\n")
    statuses = {}
    for kilobytes in range(6_000, 40_000, 2_000):
        status, _, beside = place.ask("-c", f'ulimit -v {kilobytes}; exec "$@"', "sh", f"{place.root}/sword", "certify", big, script="/bin/sh")
        statuses[status] = beside
    is_right("out of memory" in statuses.get(8, ""), f"8: {statuses}")


def test_done(place):
    """Nothing is added where all is well, and the text is the program's."""
    kernel, logs = f"{ROOT}/examples/shift.kernel", f"{place.room}/done"
    is_right(place.ask("run", kernel, logs, "4096") == (0, "tasks 3\nrecords 22\nsum a 0\n", ""), "run")
    is_right(place.ask("live", kernel, logs + "2", "4096") == (0, "tasks 3\nrecords 22\nsum a 0\n", ""), "live")
    is_right(place.ask("check", logs, "2") == (1, "race 6 6\nraces 1\n", ""), "check")
    is_right(place.ask("replay", kernel, logs) == (0, "same\n", ""), "replay")
    status, said, beside = place.ask("explain-all", kernel, logs)
    is_right(status == 1 and beside == "" and said.startswith("1 pair of lines races\nrace 1: `a[4]`: line 6 in two lanes\n"), f"{said} {beside}")
    status, said, beside = place.ask("explain-all", logs, path=place.bare)
    is_right((status, said, beside) == (70, "", "sword: explain-all takes python3, and it isn't in PATH\n"), f"explain-all: {status} {beside}")


def test_where(place):
    """Through symbolic links, in PATH, and from other folders, also those with a space in their name."""
    far, near = f"{place.room}/far off", f"{place.room}/bin"
    os.makedirs(far)
    os.makedirs(near)
    os.symlink(f"{place.root}/sword", f"{near}/sword")
    os.symlink("../bin/sword", f"{far}/racecheck")
    wanted = (1, "accesses 17\nsegments 16\nrace 30 40\nraces 1\n", "")
    for words in (
        {"script": f"{far}/racecheck"}, {"script": "./racecheck", "folder": far}, {"script": "../root/sword", "folder": far},
        {"script": "/usr/bin/env", "path": f"{near}:{os.environ['PATH']}"},
    ):
        name = ["sword"] if words["script"] == "/usr/bin/env" else []
        said = place.ask(*name, "gen", "1", "1", **words)
        is_right(said == wanted, f"{words}: {said}")
    is_right(os.listdir(near) == ["sword"] and os.listdir(far) == ["racecheck"], "it wrote beside the link")
    moved = f"{place.room}/moved root"
    shutil.copytree(place.root, moved, symlinks=True)
    os.utime(f"{moved}/crates/sword/out/sword")
    is_right(place.ask("gen", "1", "1", script=f"{moved}/sword") == wanted, "a folder with a space in its name")


def make_stale(place):
    time.sleep(0.02)
    os.utime(f"{place.root}/crates/sword/src/main.rt")


def test_needs(place):
    """What is missing is said, and what works is kept."""
    make_stale(place)
    with open(place.program, "rb") as file:
        before = file.read()
    rt, awk = "exit 1", 'case $* in */proc/meminfo*) echo 5 ;; *) exec /usr/bin/awk "$@" ;; esac'
    for tools, words in (
        ({"rt": rt, "uname": "echo Plan9"}, "take Linux on x86_64, and this is Plan9 Plan9"),
        ({"rt": rt, "df": "printf 'a b c d\\nx 1 1 1000\\n'"}, "proving takes 4,000 MB of disk, and 1 MB are free"),
        ({"rt": rt, "awk": awk}, "proving takes 3,000 MB of memory, and 5 MB are free"),
    ):
        status, said, beside = place.ask("gen", "1", "1", path=place.tools(**tools))
        is_right(status == 70 and said == "" and words in beside, f"{tools}: {status} {beside}")
    status, _, beside = place.ask("gen", "1", "1", path=place.bare)
    is_right(status == 70 and "no command rt is in PATH" in beside, f"rt: {beside}")
    with open(place.program, "rb") as file:
        is_right(file.read() == before, "the program is gone")


def test_builds(place):
    """A build that is interrupted or fails leaves the program of before; one that ends replaces it."""
    make_stale(place)
    with open(place.program, "rb") as file:
        before = file.read()
    out = f"{place.root}/crates/sword/out"
    slow = place.tools(rt="echo 'rt: sword proved'; sleep 60")
    pipes = {"stdout": subprocess.PIPE, "stderr": subprocess.PIPE, "text": True, "start_new_session": True}
    # A test that runs in the background may have been told to ignore the signal.
    heeds = {"preexec_fn": lambda: signal.signal(signal.SIGINT, signal.SIG_DFL)}
    ran = subprocess.Popen([f"{place.root}/sword", "gen", "1", "1"], env={**os.environ, "PATH": slow}, **pipes, **heeds)
    first = [ran.stderr.readline() for _ in range(2)]
    is_right(first[1] == "sword: sword is proved, 1 of 1\n", f"{first}")
    os.killpg(ran.pid, signal.SIGINT)
    beside = ran.communicate()[1]
    is_right(ran.returncode == 70 and "the program that was built before is still there" in beside, f"{ran.returncode} {beside}")
    with open(place.program, "rb") as file:
        is_right(file.read() == before and os.listdir(out) == ["sword"], "an interrupted build lost the program")
    status, _, beside = place.ask("gen", "1", "1", path=place.tools(rt="echo '3 passed, 1 failed'; exit 1"))
    is_right(status == 70 and "the program wasn't built" in beside and "1 failed" in beside, beside)
    with open(place.program, "rb") as file:
        is_right(file.read() == before and os.listdir(out) == ["sword"], "a build that failed lost the program")
    made = "crates/sword/out/sword"
    good = f"mkdir -p crates/sword/out; printf '#!/bin/sh\\necho new\\n' > {made}; chmod +x {made}; echo '3 passed, 0 failed'"
    status, said, _ = place.ask("gen", "1", "1", path=place.tools(rt=good))
    is_right((status, said) == (0, "new\n") and os.listdir(out) == ["sword"], f"{status} {said}")
    is_right(place.ask("gen", "1", "1", path=place.bare)[:2] == (0, "new\n"), "it is built once")


def bare_path(room):
    """A folder with the commands that the script takes, without rt and python3."""
    folder = f"{room}/bare"
    os.makedirs(folder)
    for name in "sh awk cat chmod cp cut df dirname find grep head mkdir mktemp mv readlink rm sed sort touch tr uname wc".split():
        os.symlink(shutil.which(name), f"{folder}/{name}")
    return folder


def main():
    test_documents()
    print("documents: as it should be", flush=True)
    with tempfile.TemporaryDirectory() as room:
        place = Place(room)
        place.bare = bare_path(room)
        for test in (test_forms, test_kernels, test_places, test_folders, test_stops, test_faults, test_done, test_where, test_needs, test_builds):
            test(place)
            print(f"{test.__name__[5:]}: as it should be", flush=True)


main()
