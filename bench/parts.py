#!/usr/bin/env python3
"""Measures the overlap of two strided runs, the tree that finds the runs that meet a range of bytes, and summaries.

usage: parts.py, at the top of the repository. It writes a program that calls the two into a folder of its own, outside the
repository, proves it there (a minute or two), and runs it.
"""
import os
import shutil
import subprocess
import sys
import tempfile

BELOW = ["log_format", "mutex_set", "sw_base", "stride_summary", "stride_overlap", "interval_tree"]

PROGRAM = r"""#![tactic(auto)]

ghost use Rattle.std.specs.Prelude.{◌≡◌, ◌<◌};

use interval_tree::{Steps, Tree, Visit};
use mutex_set::Held;
use std::alloc::{AllocError, Global};
use std::marker::Brand;
use std::sync::ledger::{Blank, Ledger};
use std::time::Instant;
use stride_overlap::overlap;
use stride_summary::{Access, Run, Summary};
use sw_base::Memory;

fn run_of(base: u64, stride: u64, count: u32) -> Option<Run> {
    if count == 0 || (stride == 0) != (count == 1) {
        return None;
    }
    let last = u64::from(count - 1).checked_mul(stride)?.checked_add(base)?;
    if last >= (1 << 48) - 8 {
        return None;
    }
    Some(Run {
        base,
        stride,
        count,
        size: 8,
        write: true,
        atomic: false,
        line: 1,
        site: 0,
        held: Held::none(),
    })
}

// Runs of 1,000 to 5,000 addresses, whose hulls all meet. The strides are multiples of the unit.
fn drawn_runs(alloc: Global, strides: u64, unit: u64) -> Result<Vec<Run>, AllocError> {
    let mut runs = Vec::new(alloc);
    let mut draw = 1u64;
    for _ in 0..1000 {
        draw = draw.wrapping_mul(6_364_136_223_846_793_005).wrapping_add(1_442_695_040_888_963_407);
        let base = (draw >> 40) % 1000 * unit.min(8);
        let stride = ((draw >> 33) % strides.clamp(1, 1_000_000_000) + 1) * unit.min(8);
        if let Some(run) = run_of(base, stride, 1000 + (draw >> 50) as u32 % 4000) {
            runs.push(run)?;
        }
    }
    Ok(runs)
}

fn overlaps(runs: &[Run]) -> usize {
    let mut found = 0usize;
    for a in runs {
        found = found.wrapping_add(runs.iter().filter(|b| overlap(a, b)).count());
    }
    found
}

#[derive(Drop)]
struct Count {
    found: u64,
}

impl Visit for Count {
    ghost took = { λ before run after. Unit {0} };

    ghost refused = { λ before run after. Unit {0} };

    fn take(&mut self, run: &Run) -> Result<(), Memory> {
        self.found = self.found.wrapping_add(u64::from(run.line));
        Ok(())
    }
}

fn searches_with<L: Ledger>(tree: &Tree, blank: Blank) -> u64
    requires name { blank.name ≡ L.name }
    requires parts { blank.parts ≡ L.parts }
    requires some { 0 < blank.parts }
{
    let mut count = Count { found: 0 };
    let mut steps = Steps::<L>::new(blank);
    for number in 0..100_000u64 {
        let lo = number * 61 % 100_000 * 16;
        let _ = tree.meet(lo, lo + 7, &mut count, &mut steps);
    }
    count.found
}

fn searches(tree: &Tree) -> u64 {
    searches_with::<Brand>(tree, Blank::new(1))
}

// So many writes at so many addresses in turn, with a multiplier that mixes their order.
fn summed(alloc: Global, writes: u64, places: u64, mix: u64) -> Result<usize, Memory> {
    let mut summary = Summary::new(alloc)?;
    let held = Held::none();
    for number in 0..writes {
        let place = number.wrapping_mul(mix) % places.clamp(1, 1 << 40);
        let access = Access {
            write: true,
            atomic: false,
            size: 8,
            site: 0,
            line: 1,
            addr: place * 8,
            held: &held,
        };
        summary.add(&access)?;
    }
    Ok(summary.finish().len())
}

fn main(rt: HostRuntime) -> anyhow::Result<()> {
    let alloc = rt.alloc();
    for (strides, unit) in [(16, 8), (1_000, 8), (1_000_000, 8), (1_000_000_000, 1)] {
        let runs = drawn_runs(alloc, strides, unit)?;
        let start = Instant::now(&rt)?;
        let found = overlaps(&runs);
        let nanos = start.elapsed(&rt)?.as_nanos() / 1_000_000;
        println!(rt; "overlap of 1,000,000 pairs, strides to {strides} times {unit}: {found} overlap, {nanos} ns each")?;
    }
    for (places, mix) in [(1, 1), (1_000, 1), (1_000, 7_919), (4_000_000, 1), (4_000_000, 7_919)] {
        let start = Instant::now(&rt)?;
        let runs = summed(alloc, 4_000_000, places, mix).map_err(|_| anyhow::anyhow!("no memory"))?;
        let millis = start.elapsed(&rt)?.as_millis();
        println!(rt; "4,000,000 accesses at {places} addresses, every {mix}: {runs} runs, {millis} ms")?;
    }
    let mut runs = Vec::new(alloc);
    for number in 0..100_000u64 {
        if let Some(run) = run_of(number * 16, 0, 1) {
            runs.push(run)?;
        }
    }
    let start = Instant::now(&rt)?;
    let tree = Tree::build(alloc, &runs).map_err(|_| anyhow::anyhow!("no memory"))?;
    println!(rt; "tree of 100,000 runs: built in {} us", start.elapsed(&rt)?.as_micros())?;
    let start = Instant::now(&rt)?;
    let found = searches(&tree);
    println!(rt; "100,000 calls of meet: {found} runs, {} us", start.elapsed(&rt)?.as_micros())?;
    Ok(())
}
"""

LEDGER = """use Rattle.parts.proofs.searches.Given as goal

abbrev pub ghosts-searches_with : goal.ghosts-searches_with
ghosts-searches_with a = record { name = a.blank.name; parts = a.blank.parts }
"""


def put(path, text):
    os.makedirs(os.path.dirname(path), exist_ok=True)
    with open(path, "w", encoding="utf-8") as out:
        out.write(text)


def main():
    with open("crates.txt", encoding="utf-8") as listing:
        lines = [line for line in listing if line.split(":")[0] in BELOW]
    with tempfile.TemporaryDirectory() as place:
        put(os.path.join(place, "crates.txt"), "".join(lines) + "parts: anyhow " + " ".join(BELOW[1:]) + "\n")
        for name in BELOW:
            target = os.path.join(place, "crates", name)
            shutil.copytree(os.path.join("crates", name), target, ignore=shutil.ignore_patterns("out", "must-fail"))
        program = os.path.join(place, "crates", "parts")
        put(os.path.join(program, "src", "main.rt"), PROGRAM)
        put(os.path.join(program, "proofs", "searches", "Invariants.antt"), LEDGER)
        done = subprocess.run(["rt", "run"], cwd=program, stdout=subprocess.PIPE, stderr=subprocess.PIPE, text=True)
        if done.returncode:
            sys.exit(done.stderr)
        print(done.stdout, end="")


main()
