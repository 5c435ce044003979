//! A search for a legal history of a run's logs, by docs/MODEL.md: an order of all records that keeps happens-before, in which each read finds what
//! writes and updates left, and a mutex is locked while nobody has it. It goes from state to state, and keeps those that it has seen.
use std::collections::{BTreeMap, BTreeSet, HashSet};

use crate::folders::{Logs, Record, Step, BARRIER, END, LOCK, READ, REGION, UNLOCK, UPDATE, WRITE};
use crate::kernel_traces::fit;

const MOST_STATES: usize = 10_000;
const WAYS: usize = 8;
/// The first address of an array.
const FIRST: u64 = 4096;

#[derive(PartialEq, Eq, Debug)]
pub enum Found {
    Legal,
    None,
    /// There were too many states.
    Unknown,
}

struct Search<'a> {
    logs: Vec<&'a [Record]>,
    starts: Vec<usize>,
    /// What comes right before each record.
    before: Vec<Vec<usize>>,
    /// Whether it matters in which order the record comes with another one that is unordered with it.
    is_contested: Vec<bool>,
    /// The addresses; the numbers of mutexes are below them.
    words: Vec<u64>,
    /// The log and place, and the word, of each record.
    at: Vec<(usize, usize)>,
    word: Vec<usize>,
}

#[derive(Clone, PartialEq, Eq, Hash)]
struct State {
    /// How many records of each log came.
    places: Vec<usize>,
    /// The value at each address, and 1 for a mutex that is held, in the order of `words`.
    words: Vec<i64>,
}

/// The places of the records of a kind.
fn all(records: &[Record], kind: u8) -> Vec<usize> {
    (0..records.len()).filter(|at| records[*at].kind == kind).collect()
}

/// What comes right before each record: `None` if a task went on before what it waits for.
fn before(logs: &Logs, starts: &[usize]) -> Option<Vec<Vec<usize>>> {
    let log_at: BTreeMap<&[Step], usize> = logs.iter().enumerate().map(|(log, (path, _))| (path.as_slice(), log)).collect();
    let mut before = Vec::new();
    for (path, records) in logs {
        let lane = |above: &[Step], region: usize, lane: u16, span: u16| log_at[[above, &[(region as u32, lane, span)]].concat().as_slice()];
        let (regions, barriers) = (all(records, REGION), all(records, BARRIER));
        for at in 0..records.len() {
            let mut nodes = Vec::new();
            if at > 0 {
                nodes.push(starts[log_at[path.as_slice()]] + at - 1);
            } else if let Some(((region, _, _), above)) = path.split_last() {
                let parent = log_at[above];
                nodes.push(starts[parent] + all(&logs[parent].1, REGION)[*region as usize]);
            }
            if let Some(region) = regions.iter().position(|region| region + 1 == at) {
                let span = records[at - 1].value as u16;
                for lane in (0..span).map(|number| lane(path, region, number, span)) {
                    let last = logs[lane].1.iter().position(|record| record.kind == END)?;
                    nodes.push(starts[lane] + last);
                }
            }
            if let Some(barrier) = barriers.iter().position(|barrier| barrier + 1 == at) {
                let ((region, _, span), above) = path.split_last()?;
                for mate in (0..*span).map(|number| lane(above, *region as usize, number, *span)) {
                    nodes.push(starts[mate] + all(&logs[mate].1, BARRIER).get(barrier)?);
                }
            }
            before.push(nodes);
        }
    }
    Some(before)
}

/// What comes after each record.
fn after(before: &[Vec<usize>]) -> Vec<Vec<bool>> {
    let mut next = vec![Vec::new(); before.len()];
    for (node, nodes) in before.iter().enumerate() {
        nodes.iter().for_each(|earlier| next[*earlier].push(node));
    }
    let reached = |from: usize| {
        let (mut after, mut open) = (vec![false; before.len()], vec![from]);
        after[from] = true;
        while let Some(node) = open.pop() {
            for node in &next[node] {
                if !std::mem::replace(&mut after[*node], true) {
                    open.push(*node);
                }
            }
        }
        after
    };
    (0..before.len()).map(reached).collect()
}

/// Whether it matters which of the two records comes first.
fn clash(one: &Record, other: &Record) -> bool {
    let are_locks = one.kind == LOCK && other.kind == LOCK;
    let are_accesses = one.is_access() && other.is_access() && (one.kind != READ || other.kind != READ);
    one.addr == other.addr && (are_locks || are_accesses)
}

fn contested(records: &[&Record], before: &[Vec<usize>]) -> Vec<bool> {
    let after = after(before);
    let are_contested = |one: usize, other: usize| clash(records[one], records[other]) && !after[one][other] && !after[other][one];
    (0..records.len()).map(|one| (0..records.len()).any(|other| are_contested(one, other))).collect()
}

impl Search<'_> {
    fn node(&self, state: &State, log: usize) -> usize {
        self.starts[log] + state.places[log]
    }

    fn is_due(&self, state: &State, log: usize) -> bool {
        let came = |node: &usize| self.at[*node].1 < state.places[self.at[*node].0];
        state.places[log] < self.logs[log].len() && self.before[self.node(state, log)].iter().all(came)
    }

    /// The state after the next record of this log, if it may come now.
    fn step(&self, state: &State, log: usize) -> Option<State> {
        let (record, word) = (&self.logs[log][state.places[log]], self.word[self.node(state, log)]);
        let (found, value) = (state.words[word], record.value as i64);
        if record.kind == READ && found != value || record.kind == LOCK && found == 1 {
            return None;
        }
        let mut next = state.clone();
        next.places[log] += 1;
        next.words[word] = match record.kind {
            WRITE => value,
            UPDATE => fit(found.wrapping_add(value), record.size),
            LOCK => 1,
            UNLOCK => 0,
            _ => found,
        };
        if next.places[log] == self.logs[log].len() {
            // A task that stopped gives back what it holds.
            let locks = self.logs[log].iter().enumerate().filter(|(_, record)| record.kind == LOCK);
            for (place, lock) in locks {
                let is_held = !self.logs[log][place..].iter().any(|record| record.kind == UNLOCK && record.addr == lock.addr);
                if is_held {
                    next.words[self.word[self.starts[log] + place]] = 0;
                }
            }
        }
        Some(next)
    }

    /// Whether nothing is lost if the next record of this log comes at once, where it may.
    fn is_free(&self, state: &State, log: usize) -> bool {
        let kind = self.logs[log][state.places[log]].kind;
        !matches!(kind, WRITE | UPDATE | LOCK) || !self.is_contested[self.node(state, log)]
    }

    /// Whether no record that is left can make the value that a read waits for.
    fn is_lost(&self, state: &State, log: usize) -> bool {
        let (read, node) = (&self.logs[log][state.places[log]], self.node(state, log));
        let makes = |record: &Record| record.addr == read.addr && (record.kind == UPDATE || record.kind == WRITE && record.value == read.value);
        let left = || (0..self.logs.len()).filter(|other| *other != log).flat_map(|other| &self.logs[other][state.places[other]..]);
        !self.is_contested[node] || !left().any(makes)
    }

    /// Goes on as long as there is no choice. `None` if a read can't come any more.
    fn settle(&self, mut state: State) -> Option<State> {
        let mut has_moved = true;
        while has_moved {
            has_moved = false;
            for log in 0..self.logs.len() {
                while self.is_due(&state, log) && self.is_free(&state, log) {
                    match self.step(&state, log) {
                        Some(next) => state = next,
                        None if self.is_lost(&state, log) => return None,
                        None => break,
                    }
                    has_moved = true;
                }
            }
        }
        Some(state)
    }

    /// Whether a read waits for what the next record of this log writes.
    fn is_wanted(&self, state: &State, log: usize) -> bool {
        let next = &self.logs[log][state.places[log]];
        let waits = |other: &usize| {
            let read = &self.logs[*other][state.places[*other]];
            read.kind == READ && read.addr == next.addr && (next.kind == UPDATE || read.value == next.value)
        };
        next.is_access() && (0..self.logs.len()).filter(|other| self.is_due(state, *other)).any(|other| waits(&other))
    }

    /// Searches one way of `WAYS`: which of the logs is tried first where several may go on.
    fn search(&self, way: usize, is_end: &dyn Fn(&BTreeMap<u64, i64>) -> bool) -> Found {
        let first = State { places: vec![0; self.logs.len()], words: vec![0; self.words.len()] };
        let (mut open, mut seen) = (vec![first], HashSet::new());
        while let Some(state) = open.pop() {
            let Some(state) = self.settle(state) else {
                continue;
            };
            if !seen.insert(state.clone()) {
                continue;
            }
            if seen.len() > MOST_STATES {
                return Found::Unknown;
            }
            let is_whole = (0..self.logs.len()).all(|log| state.places[log] == self.logs[log].len());
            let memory = || self.words.iter().copied().zip(state.words.iter().copied()).filter(|(word, _)| *word >= FIRST).collect();
            if is_whole && is_end(&memory()) {
                return Found::Legal;
            }
            let mut due: Vec<usize> = (0..self.logs.len()).filter(|log| self.is_due(&state, *log)).collect();
            let last = |log: &usize| match way {
                0 => *log,
                1 => usize::MAX - log,
                2 => usize::MAX - state.places[*log],
                _ => (log + 1 + state.places.iter().sum::<usize>()).wrapping_mul(0x9e37_79b9_7f4a_7c15) ^ way << 32,
            };
            due.sort_by_key(|log| (self.is_wanted(&state, *log), last(log)));
            open.extend(due.iter().filter_map(|log| self.step(&state, *log)));
        }
        Found::None
    }
}

/// Whether these logs have a legal history whose last memory is as said.
pub fn find(logs: &Logs, is_end: &dyn Fn(&BTreeMap<u64, i64>) -> bool) -> Found {
    let mut starts = Vec::new();
    let mut at = Vec::new();
    for (log, (_, records)) in logs.iter().enumerate() {
        starts.push(at.len());
        at.extend((0..records.len()).map(|place| (log, place)));
    }
    let Some(before) = before(logs, &starts) else {
        return Found::None;
    };
    let records: Vec<&Record> = logs.iter().flat_map(|(_, records)| records).collect();
    let words: BTreeSet<u64> = records.iter().map(|record| record.addr).collect();
    let words: Vec<u64> = words.into_iter().collect();
    let word = records.iter().map(|record| words.binary_search(&record.addr).unwrap()).collect();
    let is_contested = contested(&records, &before);
    let logs = logs.iter().map(|(_, records)| records.as_slice()).collect();
    let search = Search { logs, starts, before, is_contested, words, at, word };
    (0..WAYS).map(|way| search.search(way, is_end)).find(|found| *found != Found::Unknown).unwrap_or(Found::Unknown)
}
