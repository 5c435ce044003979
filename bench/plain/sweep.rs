//! A plain race checker of folders that keep the rules, on one thread: the speed that `check` is measured against, as one would write it in an
//! afternoon. Accesses of two lanes of a region with as many barriers behind them may race: each such group is sorted by address and swept once.
//!
//!     rustc --edition 2021 -O -C target-cpu=x86-64-v2 -o /tmp/sweep bench/plain/sweep.rs
//!     /tmp/sweep DIR
use std::collections::{BTreeMap, BTreeSet, HashMap};
use std::{env, fs, process};

const READ: u8 = 1;
const WRITE: u8 = 2;
const LOCK: u8 = 3;
const UNLOCK: u8 = 4;
const BARRIER: u8 = 5;
const REGION: u8 = 6;
const UPDATE: u8 = 9;
const MOST_BYTES: u64 = 8;

type Step = (u32, u16);
/// A team: the path of the task that forked it, and the region's number there. With it, how many barriers it passed.
type Group = (Vec<Step>, u32, u32);

/// Ordered by address first, as the sweep wants it.
#[derive(Clone, Copy, PartialEq, Eq, PartialOrd, Ord)]
struct Access {
    address: u64,
    lane: u16,
    size: u8,
    kind: u8,
    line: u32,
    held: usize,
}

/// Each set of mutexes that was held at an access, once.
#[derive(Default)]
struct MutexSets {
    sets: Vec<Vec<u64>>,
    numbers: HashMap<Vec<u64>, usize>,
}

impl MutexSets {
    fn number(&mut self, held: &[u64]) -> usize {
        if let Some(&number) = self.numbers.get(held) {
            return number;
        }
        self.sets.push(held.to_vec());
        self.numbers.insert(held.to_vec(), self.sets.len() - 1);
        self.sets.len() - 1
    }

    fn share(&self, one: usize, other: usize) -> bool {
        self.sets[one].iter().any(|mutex| self.sets[other].contains(mutex))
    }
}

fn number(bytes: &[u8]) -> u64 {
    bytes.iter().fold(0, |number, &byte| number << 8 | u64::from(byte))
}

/// The paths of all tasks, in the order of the index.
fn paths(dir: &str) -> Vec<Vec<Step>> {
    let index = fs::read(format!("{dir}/index.swi")).expect("an index");
    let path_of = |row: &[u8]| {
        let steps = row[8..].chunks(8).take(number(&row[..4]) as usize);
        steps.map(|step| (number(&step[..4]) as u32, number(&step[4..6]) as u16)).collect()
    };
    index[8..].chunks(48).map(path_of).collect()
}

fn log(dir: &str, path: &[Step]) -> Vec<u8> {
    let steps: String = path.iter().map(|(region, lane)| format!("-{region}.{lane}")).collect();
    fs::read(format!("{dir}/t{steps}.swl")).expect("a log")
}

#[derive(Default)]
struct Folder {
    groups: BTreeMap<Group, Vec<Access>>,
    /// How many barriers a task had passed at each of its regions.
    forks: HashMap<Vec<Step>, Vec<u32>>,
    mutexes: MutexSets,
}

impl Folder {
    /// Puts a task's accesses of one barrier interval into the group of each team that it belongs to.
    fn put(&mut self, path: &[Step], barriers: u32, accesses: &mut Vec<Access>) {
        for (depth, &(region, lane)) in path.iter().enumerate() {
            let passed = match path.get(depth + 1) {
                Some(&(below, _)) => self.forks[&path[..=depth]][below as usize],
                None => barriers,
            };
            let group = self.groups.entry((path[..depth].to_vec(), region, passed)).or_default();
            group.extend(accesses.iter().map(|access| Access { lane, ..*access }));
        }
        accesses.clear();
    }

    fn read_log(&mut self, dir: &str, path: Vec<Step>) {
        let (mut barriers, mut held, mut forks, mut accesses) = (0, vec![], vec![], vec![]);
        let mut set = self.mutexes.number(&held);
        for record in log(dir, &path)[8..].chunks(24) {
            let (kind, address) = (record[0], number(&record[8..16]));
            match kind {
                READ | WRITE | UPDATE => {
                    let line = number(&record[4..8]) as u32;
                    accesses.push(Access { address, lane: 0, size: record[1], kind, line, held: set });
                }
                LOCK => {
                    held.push(address);
                    set = self.mutexes.number(&held);
                }
                UNLOCK => {
                    held.pop();
                    set = self.mutexes.number(&held);
                }
                BARRIER => {
                    self.put(&path, barriers, &mut accesses);
                    barriers += 1;
                }
                REGION => {
                    self.put(&path, barriers, &mut accesses);
                    forks.push(barriers);
                }
                _ => {}
            }
        }
        self.put(&path, barriers, &mut accesses);
        self.forks.insert(path, forks);
    }
}

/// The racing pairs of lines of a group.
fn sweep(mutexes: &MutexSets, group: &mut Vec<Access>, pairs: &mut BTreeSet<(u32, u32)>) {
    group.sort_unstable();
    group.dedup();
    let mut first = 0;
    for (place, access) in group.iter().enumerate() {
        while group[first].address + MOST_BYTES <= access.address {
            first += 1;
        }
        for before in &group[first..place] {
            let meet = before.lane != access.lane && access.address < before.address + u64::from(before.size);
            let conflict = access.kind == WRITE || before.kind == WRITE || access.kind != before.kind;
            if meet && conflict && !mutexes.share(access.held, before.held) {
                pairs.insert((access.line.min(before.line), access.line.max(before.line)));
            }
        }
    }
}

fn main() {
    let dir = env::args().nth(1).expect("usage: sweep DIR");
    let mut folder = Folder::default();
    for path in paths(&dir) {
        folder.read_log(&dir, path);
    }
    let mut pairs = BTreeSet::new();
    for group in folder.groups.values_mut() {
        sweep(&folder.mutexes, group, &mut pairs);
    }
    for (low, high) in &pairs {
        println!("race {low} {high}");
    }
    println!("races {}", pairs.len());
    process::exit(i32::from(!pairs.is_empty()));
}
