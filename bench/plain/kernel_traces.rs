//! What the tasks of a kernel do, by docs/KERNELS.md: the trace of each task under the values that its log reads, whether a folder's logs are such
//! traces, and what a run of it prints.
use std::collections::{BTreeMap, HashMap};

use crate::folders::{self, name_of, Files, Logs, Record, Step};
use crate::kernel_text::{mutex_number, Block, Element, Expr, For, Kernel, Range, Schedule, Stmt};

/// Why a task goes no further.
#[derive(Clone, Copy, PartialEq, Eq, Debug)]
pub enum Halt {
    /// The log has another record than the trace here.
    Differs,
    /// The log has no more records.
    Over,
    /// The line and the reason of a stop.
    Stop(u32, &'static str),
    /// The trace is at its end.
    End,
}

type Locals = HashMap<String, i64>;

/// A draw from a dynamic loop: the loop, its how manieth turn in the task, the number drawn, and how many chunks there are.
pub type Draw = ((usize, usize), u64, u64);

/// A task that follows its log.
pub struct Task<'a> {
    kernel: &'a Kernel,
    records: &'a [Record],
    /// How many records of the log are those of the trace.
    pub at: usize,
    locals: Locals,
    lane: i64,
    span: i64,
    turns: HashMap<usize, usize>,
    /// The regions that it forked.
    pub forks: Vec<(&'a Block, Locals)>,
    pub draws: Vec<Draw>,
    /// The record that is due after the log's last one, but for the value of a Read and the number of a Chunk.
    pub due: Option<Record>,
    pub drawing: (usize, usize),
}

/// The low bits of a value, with their sign.
pub fn fit(value: i64, size: u8) -> i64 {
    let unused = 64 - 8 * u32::from(size);
    value << unused >> unused
}

/// The address of each array.
pub fn addresses(kernel: &Kernel) -> Vec<u64> {
    let mut next = 4096;
    let place = |array: &crate::kernel_text::Array| {
        let begin = next;
        next = (begin + array.count as u64 * u64::from(array.size)).div_ceil(64) * 64;
        begin
    };
    kernel.arrays.iter().map(place).collect()
}

fn operate(sign: &str, line: u32, left: i64, right: i64) -> Result<i64, Halt> {
    let stop = Halt::Stop(line, "DivZero");
    Ok(match sign {
        "+" => left.wrapping_add(right),
        "-" => left.wrapping_sub(right),
        "*" => left.wrapping_mul(right),
        "/" | "%" if right == 0 => return Err(stop),
        "/" => left.wrapping_div(right),
        "%" => left.wrapping_rem(right),
        "==" => i64::from(left == right),
        "!=" => i64::from(left != right),
        "<" => i64::from(left < right),
        "<=" => i64::from(left <= right),
        ">" => i64::from(left > right),
        _ => i64::from(left >= right),
    })
}

impl<'a> Task<'a> {
    /// The next record is as due, but for those fields of it that a test lets pass.
    fn put(&mut self, due: impl Fn(&Record) -> Record) -> Result<Record, Halt> {
        let Some(found) = self.records.get(self.at) else {
            self.due = Some(due(&Record { kind: 0, size: 0, site: 0, line: 0, addr: 0, value: 0 }));
            return Err(Halt::Over);
        };
        if due(found) != *found {
            return Err(Halt::Differs);
        }
        self.at += 1;
        Ok(*found)
    }

    fn event(&mut self, kind: u8, line: u32, addr: u64, value: u64) -> Result<(), Halt> {
        self.put(|_| Record { kind, size: 0, site: 0, line, addr, value }).map(|_| ())
    }

    fn access(&mut self, kind: u8, element: &Element, index: i64, value: Option<i64>) -> Result<i64, Halt> {
        let number = self.kernel.arrays.iter().position(|array| array.name == element.array).unwrap();
        let array = &self.kernel.arrays[number];
        if !(0..array.count).contains(&index) {
            return Err(Halt::Stop(element.line, "Index"));
        }
        let addr = addresses(self.kernel)[number] + index as u64 * u64::from(array.size);
        let record = self.put(|found| Record {
            kind,
            size: array.size,
            site: element.site,
            line: element.line,
            addr,
            value: fit(value.unwrap_or(found.value as i64), array.size) as u64,
        })?;
        Ok(record.value as i64)
    }

    fn value(&mut self, expr: &Expr) -> Result<i64, Halt> {
        Ok(match expr {
            Expr::Number(number) => *number,
            Expr::Variable(name, _) => self.locals[name],
            Expr::Tid(_) => self.lane,
            Expr::Span => self.span,
            Expr::Minus(inner) => self.value(inner)?.wrapping_neg(),
            Expr::Load(element) => {
                let index = self.value(&element.index)?;
                self.access(folders::READ, element, index, None)?
            }
            Expr::Of(sign, line, sides) => {
                let (left, right) = (self.value(&sides.0)?, self.value(&sides.1)?);
                operate(sign, *line, left, right)?
            }
        })
    }

    fn body(&mut self, block: &'a Block) -> Result<(), Halt> {
        block.body.iter().try_for_each(|stmt| self.stmt(stmt))
    }

    fn stmt(&mut self, stmt: &'a Stmt) -> Result<(), Halt> {
        match stmt {
            Stmt::Let(name, _, value) | Stmt::Set(name, _, value) => {
                let value = self.value(value)?;
                self.locals.insert(name.clone(), value);
                Ok(())
            }
            Stmt::Store(element, value) => {
                let (index, value) = (self.value(&element.index)?, self.value(value)?);
                self.access(folders::WRITE, element, index, Some(value)).map(|_| ())
            }
            Stmt::Update(element, amount, minus) => {
                let (index, amount) = (self.value(&element.index)?, self.value(amount)?);
                let amount = if *minus { amount.wrapping_neg() } else { amount };
                self.access(folders::UPDATE, element, index, Some(amount)).map(|_| ())
            }
            Stmt::If(test, then, other) => match (self.value(test)?, other) {
                (0, None) => Ok(()),
                (0, Some(other)) => self.body(other),
                _ => self.body(then),
            },
            Stmt::Loop(range, block) => {
                let (low, high) = self.bounds(range)?;
                self.turns_of(&range.name, low, high, block)
            }
            Stmt::Parallel(line, (lanes, _), block) => {
                self.event(folders::REGION, *line, 0, *lanes as u64)?;
                self.forks.push((block, self.locals.clone()));
                Ok(())
            }
            Stmt::For(share) => self.share(share),
            Stmt::Barrier(line) => self.event(folders::BARRIER, *line, 0, 0),
            Stmt::Critical(line, name, block) => {
                let mutex = mutex_number(&self.kernel.mutexes, name).unwrap() as u64;
                self.event(folders::LOCK, *line, mutex, 0)?;
                self.body(block)?;
                self.event(folders::UNLOCK, block.end, mutex, 0)
            }
        }
    }

    fn bounds(&mut self, range: &'a Range) -> Result<(i128, i128), Halt> {
        Ok((self.value(&range.low)?.into(), self.value(&range.high)?.into()))
    }

    fn turns_of(&mut self, name: &str, low: i128, high: i128, block: &'a Block) -> Result<(), Halt> {
        for turn in low..high {
            self.locals.insert(name.to_string(), turn as i64);
            self.body(block)?;
        }
        Ok(())
    }

    fn share(&mut self, share: &'a For) -> Result<(), Halt> {
        let (low, high) = self.bounds(&share.range)?;
        let (name, block) = (&share.range.name, &share.block);
        let (total, lane, span) = ((high - low).max(0), i128::from(self.lane), i128::from(self.span));
        let turn = *self.turns.entry(share.number).and_modify(|turn| *turn += 1).or_default();
        match share.schedule {
            Schedule::Even => {
                let (least, more) = (total / span, total % span);
                let first = low + lane * least + lane.min(more);
                self.turns_of(name, first, first + least + i128::from(lane < more), block)?;
            }
            Schedule::Static(chunk, _) => {
                let chunk = i128::from(chunk);
                let mut first = low + lane * chunk;
                while first < high {
                    self.turns_of(name, first, (first + chunk).min(high), block)?;
                    first += span * chunk;
                }
            }
            Schedule::Dynamic(chunk, _) => {
                let chunk = i128::from(chunk);
                let count = ((total + chunk - 1) / chunk) as u64;
                self.drawing = (share.number, turn);
                loop {
                    let line = share.line;
                    let due = |found: &Record| Record { kind: folders::CHUNK, size: 0, site: 0, line, addr: found.addr.min(count), value: count };
                    let drawn = self.put(due)?.addr;
                    self.draws.push(((share.number, turn), drawn, count));
                    if drawn == count {
                        break;
                    }
                    let first = low + i128::from(drawn) * chunk;
                    self.turns_of(name, first, (first + chunk).min(high), block)?;
                }
            }
        }
        if share.waits { self.event(folders::BARRIER, share.block.end, 0, 0) } else { Ok(()) }
    }

    /// Follows the log as far as it goes.
    fn follow(&mut self, block: &'a Block) -> Halt {
        let ended = self.body(block).and_then(|()| self.event(folders::END, block.end, 0, 0));
        match ended {
            Err(halt) => halt,
            Ok(()) if self.at < self.records.len() => Halt::Differs,
            Ok(()) => Halt::End,
        }
    }
}

/// Each task of these logs, with where it came to; `None` from the first task on that nobody forks.
pub fn tasks<'a>(kernel: &'a Kernel, logs: &'a Logs) -> Vec<(Task<'a>, Halt)> {
    let mut tasks: Vec<(Task, Halt)> = Vec::new();
    let mut places: BTreeMap<&[Step], usize> = BTreeMap::new();
    for (path, records) in logs {
        let (block, locals, lane, span) = match path.split_last() {
            None => (&kernel.main, Locals::new(), 0, 1),
            Some(((region, lane, span), above)) => {
                let parent = &tasks[places[above]].0;
                let Some((block, locals)) = parent.forks.get(*region as usize) else {
                    break;
                };
                (*block, locals.clone(), i64::from(*lane), i64::from(*span))
            }
        };
        let (turns, forks, draws) = (HashMap::new(), Vec::new(), Vec::new());
        let mut task = Task { kernel, records, at: 0, locals, lane, span, turns, forks, draws, due: None, drawing: (0, 0) };
        let halt = task.follow(block);
        places.insert(path, tasks.len());
        tasks.push((task, halt));
    }
    tasks
}

/// What `replay` prints of a kernel and a folder that is well formed.
fn compare(kernel: &Kernel, logs: &Logs) -> (i32, String) {
    for ((path, _), (task, halt)) in logs.iter().zip(tasks(kernel, logs)) {
        if halt != Halt::End {
            return (1, format!("differs {} record {}\n", name_of(path), task.at + 1));
        }
    }
    (0, "same\n".to_string())
}

/// What `replay` prints of a kernel and a folder.
pub fn replay(kernel: &Kernel, files: &Files) -> (i32, String) {
    match folders::read_folder(files) {
        Ok(logs) => compare(kernel, &logs),
        Err(text) => (4, text),
    }
}

/// The logs of a run that stopped, which has no index: the spans of regions are those of their records.
pub fn beginnings(files: &Files) -> Result<Logs, String> {
    let mut logs = Logs::new();
    beginning(files, &[], &mut logs)?;
    if logs.len() == files.len() { Ok(logs) } else { Err(format!("{} files and {} logs", files.len(), logs.len())) }
}

fn beginning(files: &Files, path: &[Step], logs: &mut Logs) -> Result<(), String> {
    let name = name_of(path);
    let bytes = files.get(&name).ok_or(format!("no {name}"))?;
    if !bytes.starts_with(folders::LOG) || bytes.len() % 24 != 8 {
        return Err(format!("{name} isn't whole records"));
    }
    let records: Result<Vec<Record>, _> = bytes[8..].chunks(24).map(folders::decode).collect();
    let records = records.map_err(|why| format!("{name}: {why}"))?;
    logs.push((path.to_vec(), records.clone()));
    for (region, fork) in records.iter().filter(|record| record.kind == folders::REGION).enumerate() {
        for lane in 0..fork.value {
            let mut below = path.to_vec();
            below.push((region as u32, lane as u16, fork.value as u16));
            beginning(files, &below, logs)?;
        }
    }
    Ok(())
}

pub fn count(records: &[Record], kind: u8) -> usize {
    records.iter().filter(|record| record.kind == kind).count()
}

/// Whether the task of a log waits for no other one: not at a barrier that a lane of its team hasn't passed, nor for a lane of a region.
pub fn may_go_on(logs: &Logs, log: usize) -> bool {
    let (path, records) = &logs[log];
    let Some(last) = records.last() else {
        return true;
    };
    let (depth, region) = (path.len(), (count(records, folders::REGION) as u32).wrapping_sub(1));
    let is_mate = |other: &[Step]| depth > 0 && other.len() == depth && other.starts_with(&path[..depth - 1]) && other[depth - 1].0 == path[depth - 1].0;
    let is_lane = |other: &[Step]| other.len() == depth + 1 && other.starts_with(path) && other[depth].0 == region;
    logs.iter().all(|(other, theirs)| match last.kind {
        folders::REGION => !is_lane(other) || theirs.last().is_some_and(|last| last.kind == folders::END),
        folders::BARRIER => !is_mate(other) || count(theirs, folders::BARRIER) >= count(records, folders::BARRIER),
        _ => last.kind != folders::END,
    })
}

/// The stop that a run with these logs reports: that of the root, of which a region that stopped is that of its lowest lane that stopped.
pub fn stop(logs: &Logs, tasks: &[(Task, Halt)], path: &[Step]) -> Result<Option<String>, String> {
    let place = logs.iter().position(|(other, _)| other == path).ok_or(format!("no log of {path:?}"))?;
    let (records, name) = (&logs[place].1, name_of(path));
    let region = count(records, folders::REGION) as u32;
    match (tasks[place].1, records.last()) {
        (Halt::End, _) => Ok(None),
        (Halt::Stop(line, why), _) if tasks[place].0.at == records.len() && may_go_on(logs, place) => Ok(Some(format!("stopped {name} line {line}: {why}\n"))),
        (Halt::Over | Halt::Stop(..), Some(last)) if last.kind == folders::BARRIER && !may_go_on(logs, place) => Ok(None),
        (Halt::Over | Halt::Stop(..), Some(last)) if last.kind == folders::REGION && !may_go_on(logs, place) => {
            for lane in 0..last.value {
                let mut below = path.to_vec();
                below.push((region - 1, lane as u16, last.value as u16));
                if let Some(text) = stop(logs, tasks, &below)? {
                    return Ok(Some(text));
                }
            }
            Err(format!("{name} went no further, and no lane of its last region stopped"))
        }
        (halt, _) => Err(format!("{name} is no beginning of its trace that may stand so: {halt:?} after {} records", tasks[place].0.at)),
    }
}

/// Whether the lanes of each team drew each chunk at most once, in ascending order, and if they all ended each chunk.
pub fn draws_fault(logs: &Logs, tasks: &[(Task, Halt)], is_whole: bool) -> Option<String> {
    let mut drawn: BTreeMap<(Vec<Step>, u32, (usize, usize)), (Vec<u64>, u64)> = BTreeMap::new();
    for ((path, _), (task, _)) in logs.iter().zip(tasks) {
        let Some(((region, _, _), above)) = path.split_last() else {
            continue;
        };
        for pair in task.draws.windows(2) {
            if pair[0].0 == pair[1].0 && pair[0].1 >= pair[1].1 {
                return Some(format!("{}: chunk {} after {}", name_of(path), pair[1].1, pair[0].1));
            }
        }
        for (place, number, count) in &task.draws {
            let entry = drawn.entry((above.to_vec(), *region, *place)).or_insert((Vec::new(), *count));
            if number < count {
                entry.0.push(*number);
            }
        }
    }
    for ((path, region, _), (mut numbers, count)) in drawn {
        numbers.sort();
        let due = if is_whole { count } else { numbers.len() as u64 };
        if numbers.iter().copied().ne(0..due) {
            return Some(format!("{} region {region}: chunks {numbers:?} of {count}", name_of(&path)));
        }
    }
    None
}
