//! Runs of kernels, plain and slow: at each step one task that may go on puts its next record. So the comparison with `sword` can itself be tried.
use std::collections::BTreeMap;

use crate::folders::{self, Files, Logs, Random, Record, Step, CHUNK, LOCK, READ, REGION, UNLOCK, UPDATE, WRITE};
use crate::kernel_text::Kernel;
use crate::kernel_traces::{count, fit, may_go_on, stop, tasks, Halt, Task};

#[derive(Default)]
pub struct World {
    pub memory: BTreeMap<u64, i64>,
    holders: BTreeMap<u64, Vec<Step>>,
    drawn: BTreeMap<(Vec<Step>, (usize, usize)), u64>,
}

impl World {
    /// The record that a task puts next, if no mutex keeps it from that.
    fn next(&mut self, path: &[Step], task: &Task) -> Option<Record> {
        let mut record = task.due?;
        let found = self.memory.get(&record.addr).copied().unwrap_or(0);
        match record.kind {
            READ => record.value = found as u64,
            WRITE => drop(self.memory.insert(record.addr, record.value as i64)),
            UPDATE => drop(self.memory.insert(record.addr, fit(found.wrapping_add(record.value as i64), record.size))),
            LOCK if self.holders.contains_key(&record.addr) => return None,
            LOCK => drop(self.holders.insert(record.addr, path.to_vec())),
            UNLOCK => drop(self.holders.remove(&record.addr)),
            CHUNK => {
                let (_, region) = path.split_last().map(|(step, above)| (step.1, [above, &[(step.0, 0, step.2)]].concat()))?;
                let drawn = self.drawn.entry((region, task.drawing)).or_default();
                record.addr = record.value.min(*drawn);
                *drawn += 1;
            }
            _ => {}
        }
        Some(record)
    }
}

/// The logs of a run in some order of the steps, and what it leaves. At most so many records are made.
pub fn run(kernel: &Kernel, random: &mut Random, most: usize) -> Option<(Logs, World)> {
    run_by(kernel, most, &mut |ready| random.below(ready as u64) as usize)
}

/// The same of a serial run, in which of all tasks that may go on the first one by its path does.
pub fn run_in_turn(kernel: &Kernel, most: usize) -> Option<(Logs, World)> {
    run_by(kernel, most, &mut |_| 0)
}

fn run_by(kernel: &Kernel, most: usize, choose: &mut dyn FnMut(usize) -> usize) -> Option<(Logs, World)> {
    let (mut logs, mut world): (Logs, World) = (vec![(Vec::new(), Vec::new())], World::default());
    for _ in 0..most {
        let all = tasks(kernel, &logs);
        let mut ready: Vec<usize> = (0..logs.len()).filter(|log| all[*log].1 == Halt::Over && may_go_on(&logs, *log)).collect();
        let stopped = (0..logs.len()).filter(|log| matches!(all[*log].1, Halt::Stop(..)));
        stopped.for_each(|log| world.holders.retain(|_, holder| *holder != logs[log].0));
        let mut put = None;
        while put.is_none() && !ready.is_empty() {
            let log = ready.swap_remove(choose(ready.len()));
            put = world.next(&logs[log].0, &all[log].0).map(|record| (log, record));
        }
        let Some((log, record)) = put else {
            return Some((logs, world));
        };
        logs[log].1.push(record);
        if record.kind == REGION {
            let region = count(&logs[log].1, REGION) as u32 - 1;
            let lanes = (0..record.value).map(|lane| ([logs[log].0.as_slice(), &[(region, lane as u16, record.value as u16)]].concat(), Vec::new()));
            let lanes: Vec<_> = lanes.collect();
            logs.extend(lanes);
            logs.sort_by(|one, other| one.0.cmp(&other.0));
        }
    }
    None
}

/// The files of a run, and the stop that it reports.
pub fn files(kernel: &Kernel, logs: &Logs) -> (Files, Option<String>) {
    let mut files = Files::new();
    let mut index = folders::INDEX.to_vec();
    for (path, records) in logs {
        index.extend(folders::row_bytes(path, records.len() as u64));
        let bytes: Vec<u8> = records.iter().flat_map(Record::bytes).collect();
        files.insert(folders::name_of(path), [folders::LOG.as_slice(), &bytes].concat());
    }
    let stop = stop(logs, &tasks(kernel, logs), &[]).unwrap();
    if stop.is_none() {
        files.insert("index.swi".to_string(), index);
    }
    (files, stop)
}
