#!/usr/bin/env python3
"""Tests ./page and ./sword explain-all with the program: the racing examples, their mended twins, kernels changed as the page guesses, a folder of
another kernel, one without a kernel, a refused one, 600 pairs in 1.6 million records, and 64 lanes. Pages are opened in headless Chromium.

    bench/test_page.py    wants the package chromium; SWORD may name the program
"""
import glob
import html
import os
import re
import resource
import subprocess
import sys
import tempfile
import time

ROOT = os.path.dirname(os.path.dirname(os.path.abspath(__file__)))
sys.dont_write_bytecode = True
sys.path.insert(0, ROOT)
from generate import BARRIER, END, REGION, WRITE, record, row
from report.kernel import Kernel
from report.page import STYLE

PROGRAM = os.environ.get("SWORD") or f"{ROOT}/crates/sword/out/sword"
BROWSER = ["chromium", "--headless", "--no-sandbox", "--disable-gpu", "--window-size=1200,900", "--dump-dom"]

# What the browser finds: how many links can't be focused, which words of the picture lie on one another, whether some lie outside, how wide it is,
# and how much of that is used.
PROBE = """<script>
const found = {unfocused: 0, overlaps: [], links: 0};
for (const it of document.querySelectorAll('a[href], input, .picture')) {
  it.focus(); found.links++;
  if (document.activeElement !== it) found.unfocused++;
}
const svg = document.querySelector('svg');
if (svg) {
  const boxes = [...svg.querySelectorAll('text')].map(it => [it.textContent, it.getBoundingClientRect()]);
  for (let i = 0; i < boxes.length; i++) for (let j = 0; j < i; j++) {
    const [a, b] = [boxes[i][1], boxes[j][1]];
    if (a.left < b.right - 1 && b.left < a.right - 1 && a.top < b.bottom - 3 && b.top < a.bottom - 3)
      found.overlaps.push(boxes[i][0] + ' on ' + boxes[j][0]);
  }
  const whole = svg.getBoundingClientRect(), drawn = svg.getBBox();
  found.outside = drawn.x < 0 || drawn.y < 0 || drawn.x + drawn.width > whole.width + 1;
  found.outside ||= drawn.y + drawn.height > whole.height + 1;
  found.width = whole.width; found.used = drawn.x + drawn.width;
}
document.body.setAttribute('data-found', JSON.stringify(found));
</script>"""

# By hand from the kernels. Of each record: its line with the expression marked, what this does to which element, the values that are possible, the
# lane, how often it has come there, and what it holds. Then words of the guess, and how the kernel is changed by it: its twin, or old and new words.
#
# shift: lane 0 has 0 to 3 and writes a[4] last; lane 1 begins with a[4]. All is 0.
# heat: of 62 iterations lane 0 has 1 to 16, so its 16th reads u[17], where lane 1 begins; u[5] and what follows stay 0, since each is a quarter.
# sum: lane 0 finds what the others added by then, of 8 to 31 at most; lane 1 leaves the first of its own, 8, and what it found of the others'.
# wavefront: of 7 iterations lane 0 has 1 and 2, lane 1 3 and 4. g[10] is row 1, column 2: 1 + 1. Lane 1 needs it in its third turn, first of row 2.
# prefix sums: lane 0 has 0 and 1, lane 1 2 and 3. In the first step lane 0 skips 0, and makes 1 + 2 of a[1], which lane 1 adds to a[2].
# nested: lane 1 of the inner team, and lane 1 of the outer one.
# gather: whichever lanes drew a chunk and read; element e holds e once it is written, and is the e+1st that is read.
# histogram: 0, 4, 16, 36 .. leave 0: each lane counts h[0] twice. Lane 0 finds the six of others at most, lane 1 leaves one more than their six.
# two mutexes: both lanes store.
EXPECTED = {
    "shift": (
        [
            ("6: >>a[i+1]<< = a[i]", "writes `a[4]` and leaves", [0], "lane 0 of 2", 4, ""),
            ("6: a[i+1] = >>a[i]<<", "reads `a[4]` and finds", [0], "lane 1 of 2", 1, ""),
        ],
        "let line 6 write into another array",
        "shift_mended",
    ),
    "heat_race": (
        [
            ("7: u[i] = (u[i-1] + 2 * u[i] + >>u[i+1]<<) / 4", "reads `u[17]` and finds", [0], "lane 0 of 4", 16, ""),
            ("7: >>u[i]<< = (u[i-1] + 2 * u[i] + u[i+1]) / 4", "writes `u[17]` and leaves", [0], "lane 1 of 4", 1, ""),
        ],
        "let line 7 write into another array",
        "heat",
    ),
    "sum_race": (
        [
            ("8: s[0] = >>s[0]<< + a[i]", "reads `s[0]` and finds", range(0, sum(range(8, 32)) + 1), "lane 0 of 4", 1, ""),
            ("8: >>s[0]<< = s[0] + a[i]", "writes `s[0]` and leaves", range(8, 8 + sum(range(0, 8)) + sum(range(16, 32)) + 1), "lane 1 of 4", 1, ""),
        ],
        "make line 8 `atomic s[0] += a[i]`",
        ("s[0] = s[0] + a[i]", "atomic s[0] += a[i]"),
    ),
    "wavefront_race": (
        [
            ("8: >>g[8 * d + i]<< = g[8 * d - 8 + i] + g[8 * d - 9 + i]", "writes `g[10]` and leaves", [2], "lane 0 of 4", 2, ""),
            ("8: g[8 * d + i] = g[8 * d - 8 + i] + >>g[8 * d - 9 + i]<<", "reads `g[10]` and finds", [0, 2], "lane 1 of 4", 3, ""),
        ],
        "take the `nowait` of line 7 away",
        (" nowait", ""),
    ),
    "prefix_sum_race": (
        [
            ("9: if i >= step { >>a[i]<< = a[i] + a[i-step] }", "writes `a[1]` and leaves", [3], "lane 0 of 4", 1, ""),
            ("9: if i >= step { a[i] = a[i] + >>a[i-step]<< }", "reads `a[1]` and finds", [2, 3], "lane 1 of 4", 1, ""),
        ],
        "let line 9 write into another array",
        "prefix_sum",
    ),
    "nested_race": (
        [
            ("7: >>a[tid]<< = 1", "writes `a[1]` and leaves", [1], "lane 1 of 2 below lane 0 of 2", 1, ""),
            ("11: >>a[1]<< = 2", "writes `a[1]` and leaves", [2], "lane 1 of 2", 1, ""),
        ],
        "put a `barrier` before line 10",
        ("if tid == 1", "barrier if tid == 1"),
    ),
    "gather_race": (None, "take the `nowait` of line 6 away", (" nowait", "")),
    "histogram_race": (
        [
            ("8: h[a[i] % 4] = >>h[a[i] % 4]<< + 1", "reads `h[0]` and finds", range(0, 7), "lane 0 of 4", 1, ""),
            ("8: >>h[a[i] % 4]<< = h[a[i] % 4] + 1", "writes `h[0]` and leaves", range(1, 8), "lane 1 of 4", 1, ""),
        ],
        "make line 8 `atomic h[a[i] % 4] += 1`",
        ("h[a[i] % 4] = h[a[i] % 4] + 1", "atomic h[a[i] % 4] += 1"),
    ),
    "two_mutexes": (
        [
            ("8: critical c { >>s[0]<< = 1 }", "writes `s[0]` and leaves", [1], "lane 0 of 2", 1, "`c` held since line 8"),
            ("10: critical d { >>s[0]<< = 2 }", "writes `s[0]` and leaves", [2], "lane 1 of 2", 1, "`d` held since line 10"),
        ],
        "hold one and the same at line 8, which holds `c`, and line 10, which holds `d`",
        ("critical d", "critical c"),
    ),
}
# The pair of lines, the line that forks the team, and the number of the barrier interval.
PLACES = {
    "shift": ((6, 6), 4, 1),
    "heat_race": ((7, 7), 5, 1),
    "sum_race": ((8, 8), 6, 1),
    "wavefront_race": ((8, 8), 4, 2),
    "prefix_sum_race": ((9, 9), 4, 2),
    "nested_race": ((7, 11), 4, 1),
    "gather_race": ((6, 8), 5, 1),
    "histogram_race": ((8, 8), 6, 1),
    "two_mutexes": ((8, 10), 6, 1),
}


def ask(*words):
    ran = subprocess.run(list(map(str, words)), stdout=subprocess.PIPE, text=True, env={**os.environ, "SWORD": PROGRAM})
    return ran.returncode, ran.stdout


def is_right(shown, said):
    if not shown:
        raise AssertionError(said)


def opened(path):
    """The page as the browser has it. Tests what holds of every page: its size, that it loads nothing, headings, links and the picture."""
    with open(path, encoding="utf-8") as file:
        text = file.read()
    is_right(len(text.encode()) <= 1_000_000, f"{path}: more than 1 MB")
    is_right(not re.search(r"\b(src|href)=\"(?!#)|@import|url\(", text), f"{path}: it loads something")
    with open(f"{path}.probe.html", "w", encoding="utf-8") as file:
        file.write(text.replace("</body>", PROBE + "</body>"))
    shown = subprocess.run([*BROWSER, f"file://{path}.probe.html"], stdout=subprocess.PIPE, stderr=subprocess.DEVNULL, text=True).stdout
    found = eval(html.unescape(re.search(r'data-found="([^"]*)"', shown).group(1)), {"true": True, "false": False})
    is_right(found["unfocused"] == 0, f"{path}: {found['unfocused']} links can't be focused")
    is_right(not found["overlaps"], f"{path}: {found['overlaps'][:3]}")
    is_right("width" not in found or not found["outside"] and found["used"] >= 0.97 * found["width"] and found["width"] >= 1100, f"{path}: {found}")
    levels = [int(it) for it in re.findall(r"<h(\d)", shown)]
    is_right(levels[0] == 1 and levels.count(1) == 1 and all(b <= a + 1 for a, b in zip(levels, levels[1:])), f"{path}: headings {levels}")
    is_right('role="img"' not in shown, f"{path}: a role that hides its links")
    for link, name in re.findall(r"<a ([^>]*)>(.*?)</a>", shown):
        is_right(re.search(r"race \d|races, too", link if "aria-label" in link else name), f"{path}: a link without a name: {link} {name}")
        is_right(f'id="{re.search(r"#(.+?)[^a-z0-9]", link + " ").group(1)}"' in shown, f"{path}: {link} leads nowhere")
    return shown


def plain(shown):
    """A page's or a text's words alone, code between backquotes and marked expressions as in the text."""
    shown = re.sub(r"<style>.*?</style>|<script>.*?</script>", "", shown, flags=re.S)
    shown = re.sub(r"</?code>", "`", shown).replace("<mark>", "&gt;&gt;").replace("</mark>", "&lt;&lt;")
    return html.unescape(re.sub(r"<[^>]*>", " ", shown))


def folder_of(kernel, room):
    name = tempfile.mkdtemp(dir=room)
    os.rmdir(name)
    ask(PROGRAM, "run", kernel, name, 4096)
    return name


def told(room, folder, kernel=None):
    """The text and the page of a folder; both end with the same status."""
    path, named = f"{folder}.html", [kernel] if kernel else []
    status, text = ask(f"{ROOT}/page", "--text", *named, folder)
    is_right(ask(f"{ROOT}/page", *named, folder, path)[0] == status, f"{folder}: the statuses differ")
    return status, text, opened(path)


def example(name):
    return f"{ROOT}/examples/{name}.kernel"


def accesses_of_gather(text):
    """What is to be read of gather_race, where the lanes and the chunk are free."""
    number = int(re.search(r"race 1: `a\[(\d+)\]`", text).group(1))
    turn = int(re.search(r"leaves \d+: lane \d of 3, the (\d+)\w\w time", text).group(1))
    lanes = re.findall(r"lane (\d) of 3", text)
    is_right(number < 12 and number % 4 == (turn - 1) % 4 and turn <= 12 and lanes[0] != lanes[1], f"gather_race: a[{number}], {turn}, {lanes}")
    return [
        ("6: for i in 0 .. 12 dynamic 4 nowait { >>a[i]<< = i }", f"writes `a[{number}]` and leaves", [number], f"lane {lanes[0]} of 3", turn, ""),
        ("8: loop k in 0 .. 12 { sum = sum + >>a[k]<< }", f"reads `a[{number}]` and finds", [0, number], f"lane {lanes[1]} of 3", number + 1, ""),
    ]


def nth(number):
    return {1: "1st", 2: "2nd", 3: "3rd"}.get(number, f"{number}th")


def test_racing(name, room):
    accesses, guess, _ = EXPECTED[name]
    folder = folder_of(example(name), room)
    status, text, shown = told(room, folder, example(name))
    lines, words = text.splitlines(), plain(shown)
    is_right(status == 1 and lines[0] == "1 pair of lines races" and len(lines) == 6, f"{name}: {text}")
    for line, (code, does, values, lane, turn, held) in zip(lines[2:4], accesses or accesses_of_gather(text)):
        start, rest = f"  line {code} -- {does} ", f": {lane}, the {nth(turn)} time that it comes here, {held or 'no mutex held'}"
        is_right(line.startswith(start) and line.endswith(rest) and int(line[len(start) : -len(rest)]) in values, f"{name}: {line}")
        number, marked = code.split(": ", 1)
        is_right(re.search(rf"{number} +" + re.escape(marked).replace(">>", " *>>"), words), f"{name}: the page hasn't {code}")
        said = f"`{re.search('>>(.*)<<', code).group(1)}` {line.split(' -- ')[1]}"
        is_right(said in words, f"{name}: the page hasn't {said}")
    pair, line, interval = PLACES[name]
    is_right(f"the team that line {line} forks, both in its barrier interval {interval};" in lines[4], f"{name}: {lines[4]}")
    is_right(lines[5].startswith("  A guess how to mend it: ") and guess in lines[5], f"{name}: {lines[5]}")
    is_right(all(it.strip() in words for it in lines[4:]), f"{name}: the page hasn't {lines[4:]}")
    is_right(sorted(set(map(int, re.findall(r'<b id="line(\d+)">', shown)))) == sorted(set(pair)), f"{name}: marked lines")
    is_right(shown.count("<section ") == 1 and shown.count('class="record"') == 2, f"{name}: sections and marks")


def test_mended(name, room):
    """The kernel, changed as the guess says, has no race; and a page without any."""
    change = EXPECTED[name][2]
    if isinstance(change, str):
        kernel = example(change)
    else:
        kernel = f"{room}/{name}_mended.kernel"
        with open(example(name), encoding="utf-8") as old, open(kernel, "w", encoding="utf-8") as new:
            text = old.read()
            is_right(text.count(change[0]) == 1, f"{name}: {change}")
            new.write(text.replace(*change))
    status, text, shown = told(room, folder_of(kernel, room), kernel)
    is_right((status, text) == (0, "No races\n"), f"{kernel}: {text}")
    is_right("<h1>No races</h1>" in shown and "<section" not in shown and '<b id="line' not in shown, f"{kernel}: its page")


# Kernels of three arrays and a mutex: what a region of so many lanes does, a line each, words of the guess, and the lines that it changes.
GUESSES = [
    (4, ["atomic a[0] += tid", "b[tid] = a[0]"], "put a barrier between the two lines", {"b[tid] = a[0]": "barrier b[tid] = a[0]"}),
    (4, ["atomic a[0] += tid", "a[0] = 1"], "make line 7 an `atomic` update, too", {"a[0] = 1": "atomic a[0] += 1"}),
    (2, ["if tid == 0 { critical m { a[0] = 1 } }", "else { a[0] = 2 }"], "hold `m` at line 7, too", {"a[0] = 2": "critical m { a[0] = 2 }"}),
    (2, ["for i in 0 .. 8 nowait { a[i] = i }", "for i in 0 .. 8 { b[i] = a[7-i] }"], "take the `nowait` of line 6 away", {" nowait": ""}),
    (2, ["loop t in 0 .. 2 { for i in 0 .. 8 nowait { a[i] = b[7-i] }", "for i in 0 .. 8 { b[i] = a[i] } }"], "`nowait` of line 6", {" nowait": ""}),
    (4, ["if tid == 0 { a[0] = 1 }", "b[tid] = a[0]"], "put a `barrier` before line 7", {"b[tid] = a[0]": "barrier b[tid] = a[0]"}),
    (4, ["a[tid] = 1", "b[tid] = a[0]"], "no lane waits in between: put a `barrier` before line 7", {"b[tid] = a[0]": "barrier b[tid] = a[0]"}),
    (4, ["a[0] = tid"], "every lane of the team comes to line 6", {"a[0] = tid": "if tid == 0 { a[0] = tid }"}),
    (4, ["a[tid] = a[tid+1]"], "put a `barrier` before line 6 stores", {"a[tid] = a[tid+1]": "let x = a[tid+1] barrier a[tid] = x"}),
    (4, ["loop t in 0 .. 2 {", "let x = a[tid+1]", "barrier", "a[tid] = x", "}"], "after line 9 no lane waits", {"= x": "= x barrier"}),
    (2, ["if tid == 0 { a[0] = 1 }", "else { b[0] = a[0] }"], "both branches of the test of line 6", {"else": "barrier if tid == 1"}),
    (2, ["parallel 2 { a[tid] = 1 }"], "let one lane fork it", {"parallel 2 { a": "if tid == 0 { parallel 2 { a", "= 1 }": "= 1 } }"}),
    (2, ["for i in 0 .. 8 { a[i] = i", "b[i] = a[i+1] }"], "let line 6 write into another array", {"a[i] = i": "c[i] = i"}),
    (2, ["for i in 0 .. 8 { a[i % 2] = i }"], "two iterations of the loop of line 6 write one element", {"i % 2": "i"}),
    (4, ["for i in 0 .. 8 { a[0] = i + a[0] }"], "make line 6 an `atomic` update", {"a[0] = i + a[0]": "atomic a[0] += i"}),
    (4, ["for i in 0 .. 8 { a[0] = a[0] - i }"], "make line 6 `atomic a[0] -= i`", {"a[0] = a[0] - i": "atomic a[0] -= i"}),
]


def test_guesses(room):
    """Of small kernels: the guess, and that the kernel, changed so, races no more."""
    head = "array a i64 9\narray b i64 9\narray c i64 9\nmutex m\n"
    for lanes, lines, guess, changes in GUESSES:
        kernel = f"{room}/guess.kernel"
        for is_changed in (False, True):
            text = head + f"main {{ parallel {lanes} {{\n" + "\n".join(lines) + "\n} }\n"
            for old, new in changes.items() if is_changed else ():
                is_right(text.count(old) == 1, f"{lines}: {old}")
                text = text.replace(old, new)
            with open(kernel, "w", encoding="utf-8") as file:
                file.write(text)
            status, said = ask(f"{ROOT}/page", "--text", kernel, folder_of(kernel, room))
            is_right(said == "No races\n" if is_changed else guess in said.splitlines()[-1], f"{text}: {said}")


ODD = """array a i8 3 array b i64 2 # b[0]
mutex a_b
main { let x = 1a[0]=2 b
[1] = a[a[0]-2] parallel 2{for i in 0..2{ b[i]=-1 + b[i]-x }}
if a[2] == 0 { loop k in 0 .. 2 {b[k] = b[ 1-k ]}} else { a[1] = 3 } atomic b[a[1]] += a[0] }
"""


def test_sites(room):
    """Each record's site is an array's name on its line, and its address lies in that array: of all examples, and of a text with an odd layout."""
    odd, seen = f"{room}/odd.kernel", 0
    with open(odd, "w", encoding="utf-8") as file:
        file.write(ODD)
    for path in (odd, *sorted(glob.glob(f"{ROOT}/examples/*.kernel"))):
        with open(path, encoding="utf-8", newline="") as file:
            kernel = Kernel(file.read())
        shown = ask(PROGRAM, "show", folder_of(path, room))[1]
        for site, line, address in re.findall(r"^\d+ (?:read|write|update) \d+ site (\d+) line (\d+) addr (\d+)", shown, re.M):
            it = kernel.site(int(site))
            is_right((it.line, it.array) == (int(line), kernel.array_of(int(address))), f"{path}: site {site} is {it}, line {line}, {address}")
            seen += 1
    is_right(seen > 1000, f"{seen} records")


def test_other_kernel(room):
    folder = folder_of(example("shift"), room)
    status, text, shown = told(room, folder, example("count"))
    start = "This folder is not a run of count.kernel: `replay` prints `differs t-0.0.swl record 2`."
    is_right(status == 1 and text.startswith(start), text)
    is_right("line 6: writes 8 bytes at `address 4128` and leaves 0: lane 0 of 2, the 4th time" in text, text)
    is_right('role="alert"' in shown and "is not a run of count.kernel" in plain(shown), "the page doesn't say it")
    is_right("<mark>" not in shown and '<b id="line' not in shown and "a[i] + 1" not in shown, "the page accuses a line of another kernel")


def test_no_kernel(room):
    folder = folder_of(example("two_mutexes"), room)
    status, text, shown = told(room, folder)
    said = "writes 8 bytes at `address 4096` and leaves 2: lane 1 of 2, the 1st time that it comes here, `mutex 2` held since line 10"
    is_right(status == 1 and f"line 10: {said}" in text, text)
    is_right("<mark>" not in shown and "<h2>The kernel</h2>" not in shown and f"Line 10 {said}" in plain(shown), "the page without a kernel")


def test_generated(room):
    """A folder that no kernel wrote: bench/generate.py has its lines and places."""
    folder = f"{room}/generated"
    subprocess.run([sys.executable, f"{ROOT}/bench/generate.py", folder, "4"], check=True)
    status, text, _ = told(room, folder)
    is_right(status == 1 and len(text.splitlines()) == 6, text)
    is_right("line 30: reads 8 bytes at `address 4120`" in text and "line 40: writes 4 bytes at `address 4120`" in text, text)


def test_far_lines(room):
    """Lines of ten digits, more regions and barriers than are drawn, and a race in the last of them."""
    folder, far = f"{room}/far", 4_000_000_000
    os.makedirs(folder)
    lane = [record(BARRIER, 0, 0, far + it, 0, 0) for it in range(40)] + [record(WRITE, 1, 0, far, 4096, 0), record(END, 0, 0, far, 0, 0)]
    root = [record(REGION, 0, 0, far + it, 0, 2) for it in range(9)] + [record(END, 0, 0, far, 0, 0)]
    logs = {(): root, **{((region, at, 2),): lane for region in range(9) for at in range(2)}}
    for steps, records in logs.items():
        with open(f"{folder}/t{''.join(f'-{region}.{at}' for region, at, _ in steps)}.swl", "wb") as file:
            file.write(b"SWLOG002" + b"".join(records))
    with open(f"{folder}/index.swi", "wb") as file:
        file.write(b"SWIDX002" + b"".join(row(steps, len(records)) for steps, records in logs.items()))
    status, text, shown = told(room, folder)
    is_right(status == 1 and "both in its barrier interval 41;" in text and len(text.splitlines()) == 6, text)
    is_right("+4" in shown and "4000000039" in shown and "+32" in shown, "what isn't drawn")


def test_refused(room):
    """A folder without an index, and a kernel that is none."""
    folder = folder_of(example("beyond"), room)
    status, text, shown = told(room, folder, example("beyond"))
    is_right((status, text) == (4, "no index\n") and "is refused" in shown, text)
    kernel = f"{room}/none.kernel"
    with open(kernel, "w", encoding="utf-8") as file:
        file.write("main {\n")
    status, text, shown = told(room, folder, kernel)
    is_right((status, text) == (3, "kernel line 2: Syntax\n") and "is refused" in shown, text)


def written(room, name, lines, each):
    """A kernel of eight lanes that do these lines and then write so many elements apart."""
    kernel = f"{room}/{name}.kernel"
    head = f"array s i64 1024\narray b i64 {8 * each}\nmain {{\nparallel 8 {{\n"
    apart = f"for i in 0 .. {8 * each} nowait {{ b[i] = i }}\nloop k in 0 .. {each} {{ b[k + {each} * tid] = k }}\n"
    with open(kernel, "w", encoding="utf-8") as file:
        file.write(head + "".join(f"{it}\n" for it in lines) + apart + "}\n}\n")
    return kernel


def test_many_pairs(room, name, lines, causes):
    kernel = written(room, name, lines, 100_000)
    folder, path = folder_of(kernel, room), f"{room}/{name}.html"
    pairs = int(re.search(r"races (\d+)", ask(PROGRAM, "check", folder, 4)[1]).group(1))
    start, before = time.monotonic(), resource.getrusage(resource.RUSAGE_CHILDREN)
    ask(f"{ROOT}/page", kernel, folder, path)
    seconds, after = time.monotonic() - start, resource.getrusage(resource.RUSAGE_CHILDREN)
    processor = after.ru_utime - before.ru_utime + after.ru_stime - before.ru_stime
    shown = opened(path)
    sections, marked = shown.count("<section "), shown.count('<b id="line')
    is_right(marked == len(lines), f"{name}: {marked} of {len(lines)} lines are marked")
    is_right(pairs >= 600 and f"{pairs} pairs of lines race" in shown and sections == causes, f"{name}: {pairs} pairs, {sections} sections")
    print(f"{name}: {pairs} pairs in 1.6 million records, {sections} sections, in {seconds:.1f} s, {processor:.1f} s of processor time", flush=True)
    is_right(processor <= 5, f"{name}: {processor:.1f} s of processor time, and 5 are wanted")


def test_many_lanes(room):
    kernel = f"{room}/lanes.kernel"
    with open(kernel, "w", encoding="utf-8") as file:
        file.write("array a i64 65\nmain {\nparallel 64 {\nloop t in 0 .. 20 {\nfor i in 0 .. 64 { a[i+1] = a[i] }\n}\n}\n}\n")
    status, text, shown = told(room, folder_of(kernel, room), kernel)
    is_right(status == 1 and "lane 0 of 64" in text and len(text.splitlines()) == 6, text)
    is_right("56 lanes more" in shown and "interval 1" in shown and "line 5" in shown, "the picture of 64 lanes")


def luminance(color):
    parts = [int(color[at : at + 2], 16) / 255 for at in (1, 3, 5)]
    red, green, blue = (it / 12.92 if it <= 0.04045 else ((it + 0.055) / 1.055) ** 2.4 for it in parts)
    return 0.2126 * red + 0.7152 * green + 0.0722 * blue


def contrast(one, other):
    low, high = sorted(map(luminance, (one, other)))
    return (high + 0.05) / (low + 0.05)


def test_contrast():
    """By the Web Content Accessibility Guidelines 2.2: 4.5 to 1 for text, 3 to 1 for lines."""
    palettes = [dict(re.findall(r"--(\w+): (#\w{6})", it)) for it in re.findall(r":root \{( --.*?)\}", STYLE)]
    is_right(len(palettes) == 2, "two palettes")
    for it in palettes:
        texts = [(text, ground) for text in ("ink", "soft", "race") for ground in ("paper", "mark")] + [("paper", "race")]
        for pairs, least in ((texts, 4.5), ([(line, "paper") for line in ("line", "box", "ink", "race")], 3)):
            for one, other in pairs:
                is_right(contrast(it[one], it[other]) >= least, f"{one} on {other}: {contrast(it[one], it[other]):.1f}")


def main():
    test_contrast()
    with tempfile.TemporaryDirectory() as room:
        for name in EXPECTED:
            test_racing(name, room)
            test_mended(name, room)
            print(f"{name}: the page, and the mended kernel's", flush=True)
        for test in (test_sites, test_guesses, test_other_kernel, test_no_kernel, test_generated, test_far_lines, test_refused, test_many_lanes):
            test(room)
            print(f"{test.__name__[5:]}: as it should be", flush=True)
        test_many_pairs(room, "one_cause", ["s[0] = tid"] * 35, 1)
        test_many_pairs(room, "one_element", [f"s[0] = tid + {it}" for it in range(35)], 1)
        test_many_pairs(room, "many_causes", [f"s[{it}] = tid" for it in range(600)], 19)


main()
