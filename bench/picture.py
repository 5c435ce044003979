#!/usr/bin/env python3
"""Measures `check` against the number of accesses and workers, and `run` against the size of a buffer, and draws docs/performance.svg.

usage: picture.py, at the top of the repository, after `./sword` was built. Each figure is the least of several runs.
"""
import math
import os
import subprocess
import sys
import tempfile
import time

PROGRAM = os.path.join("crates", "sword", "out", "sword")
PICTURE = os.path.join("docs", "performance.svg")
RUNS = 5
ROUNDS = [1000, 3000, 10000, 30000, 100000]
WORKERS = [1, 2, 4]
SIZES = [24, 48, 96, 192, 384, 1536, 4096, 16384, 65536, 1048576]
STORES = 1_000_000
KERNEL = f"array a i64 {STORES} main {{ parallel 1 {{ for i in 0 .. {STORES} {{ a[i] = i }} }} }}\n"
COLORS = ["#1b6ca8", "#c0392b", "#2e8b57"]


def least(words, clear=None):
    best = None
    for _ in range(RUNS):
        start = time.monotonic()
        subprocess.run(words, stdout=subprocess.DEVNULL)
        seconds = time.monotonic() - start
        best = seconds if best is None else min(best, seconds)
        if clear:
            subprocess.run(["rm", "-rf", clear], check=True)
    return best


def checks(place):
    lines = {workers: [] for workers in WORKERS}
    for rounds in ROUNDS:
        folder = os.path.join(place, f"generated{rounds}")
        subprocess.run([sys.executable, os.path.join("bench", "generate.py"), folder, str(rounds)], check=True)
        for workers in WORKERS:
            seconds = least([PROGRAM, "check", folder, str(workers)])
            lines[workers].append((16 * rounds + 1, seconds))
            print(f"check of {16 * rounds + 1:,} accesses, W {workers}: {seconds:.3f} s")
        subprocess.run(["rm", "-rf", folder], check=True)
    return lines


def runs(place):
    kernel = os.path.join(place, "stores.kernel")
    with open(kernel, "w") as out:
        out.write(KERNEL)
    points = []
    for size in SIZES:
        folder = os.path.join(place, "logs")
        seconds = least([PROGRAM, "run", kernel, folder, str(size)], folder)
        points.append((size, STORES / seconds))
        print(f"run of {STORES:,} stores, buffers of {size:,} bytes: {STORES / seconds:,.0f} records a second")
    return points


class Chart:
    """One chart with two logarithmic axes."""

    def __init__(self, left, title, xs, ys, x_text, y_text):
        self.left, self.top, self.width, self.height = left, 50, 380, 260
        self.xs, self.ys = xs, ys
        self.parts = [f'<text x="{left}" y="28" font-size="14" font-weight="bold">{title}</text>']
        for x, text in xs:
            at = self.x(x)
            self.parts.append(f'<line x1="{at:.1f}" y1="{self.top}" x2="{at:.1f}" y2="{self.top + self.height}" stroke="#ddd"/>')
            self.parts.append(f'<text x="{at:.1f}" y="{self.top + self.height + 16}" text-anchor="middle">{text}</text>')
        for y, text in ys:
            at = self.y(y)
            self.parts.append(f'<line x1="{left}" y1="{at:.1f}" x2="{left + self.width}" y2="{at:.1f}" stroke="#ddd"/>')
            self.parts.append(f'<text x="{left - 6}" y="{at + 4:.1f}" text-anchor="end">{text}</text>')
        self.parts.append(f'<text x="{left + self.width / 2}" y="{self.top + self.height + 36}" text-anchor="middle">{x_text}</text>')
        self.parts.append(f'<text x="{left}" y="44" fill="#555">{y_text}</text>')

    def place(self, value, marks, start, length):
        low, high = math.log(marks[0][0]), math.log(marks[-1][0])
        return start + length * (math.log(value) - low) / (high - low)

    def x(self, value):
        return self.place(value, self.xs, self.left, self.width)

    def y(self, value):
        return self.place(value, self.ys, self.top + self.height, -self.height)

    def line(self, points, color, text, row):
        path = " ".join(f"{self.x(x):.1f},{self.y(y):.1f}" for x, y in points)
        self.parts.append(f'<polyline points="{path}" fill="none" stroke="{color}" stroke-width="2"/>')
        for x, y in points:
            self.parts.append(f'<circle cx="{self.x(x):.1f}" cy="{self.y(y):.1f}" r="3" fill="{color}"/>')
        if text:
            at = self.top + 16 + 16 * row
            self.parts.append(f'<line x1="{self.left + 10}" y1="{at - 4}" x2="{self.left + 34}" y2="{at - 4}" stroke="{color}" stroke-width="2"/>')
            self.parts.append(f'<text x="{self.left + 40}" y="{at}">{text}</text>')


def main():
    with tempfile.TemporaryDirectory() as place:
        lines, points = checks(place), runs(place)
    one = Chart(60, "check", [(10_000, "10,000"), (100_000, "100,000"), (1_000_000, "1,000,000"), (2_000_000, "")],
                [(0.001, "1 ms"), (0.01, "10 ms"), (0.1, "100 ms"), (0.5, "500 ms")], "accesses, eight lanes", "time")
    for row, workers in enumerate(WORKERS):
        one.line(lines[workers], COLORS[row], f"{workers} worker{'s' if workers > 1 else ''}", row)
    two = Chart(540, "run", [(24, "24"), (256, "256"), (4096, "4,096"), (65536, "65,536"), (1048576, "1,048,576")],
                [(200_000, "200,000"), (1_000_000, "1,000,000"), (10_000_000, "10,000,000"), (20_000_000, "")],
                "bytes of a buffer, one lane", "records a second")
    two.line(points, COLORS[0], "", 0)
    with open(PICTURE, "w") as out:
        out.write('<svg xmlns="http://www.w3.org/2000/svg" width="960" height="370" font-family="sans-serif" font-size="11">\n')
        out.write('<rect width="960" height="370" fill="white"/>\n')
        out.write("\n".join(one.parts + two.parts))
        out.write("\n</svg>\n")


main()
