//! A second checker of folders, plain and slow, that follows docs/FORMATS.md and docs/MODEL.md and shares no code with the program: rules are
//! tried one by one, and happens-before is reachability in the graph of its edges. It makes random small folders, damages some of them, and
//! compares what `check`, `show`, `explain`, `confirm` and `upgrade` of the program print and leave, and their status, with what it finds itself.
//!
//!     rustc --edition 2021 -O -o /tmp/folders bench/plain/folders.rs
//!     /tmp/folders SWORD SEED COUNT          compares so many folders, made in a memory file system, a third of them of the first format
//!     /tmp/folders SWORD SEED COUNT one      the same with one command a folder, for more folders in the same time
//!     /tmp/folders WORD DIR ..               answers check, show, explain or confirm itself
//!     /tmp/folders make DIR SEED             makes one such folder
use std::collections::{BTreeSet, HashMap};
use std::fmt::Write as _;
use std::path::Path;
use std::process::Command;
use std::{env, fs, process};

pub const INDEX: &[u8; 8] = b"SWIDX002";
pub const LOG: &[u8; 8] = b"SWLOG002";
const ROWS: usize = 65_536;
const RECORDS: u64 = 4_194_304;
const SEGMENTS: usize = 65_536;

pub type Step = (u32, u16, u16);
pub type Files = HashMap<String, Vec<u8>>;

#[derive(Clone, Copy, PartialEq, Eq, Debug)]
pub struct Record {
    pub kind: u8,
    pub size: u8,
    pub site: u16,
    pub line: u32,
    pub addr: u64,
    pub value: u64,
}

pub const READ: u8 = 1;
pub const WRITE: u8 = 2;
pub const LOCK: u8 = 3;
pub const UNLOCK: u8 = 4;
pub const BARRIER: u8 = 5;
pub const REGION: u8 = 6;
pub const CHUNK: u8 = 7;
pub const END: u8 = 8;
pub const UPDATE: u8 = 9;

/// What is a format's own: how its files begin, what an index must not begin with, and the last kind of record.
#[derive(Clone, Copy)]
struct Format {
    index: &'static [u8; 8],
    log: &'static [u8; 8],
    older: Option<&'static [u8; 8]>,
    last_kind: u8,
}

const FIRST: Format = Format { index: b"SWIDX001", log: b"SWLOG001", older: None, last_kind: END };
const SECOND: Format = Format { index: INDEX, log: LOG, older: Some(b"SWIDX001"), last_kind: UPDATE };

impl Record {
    pub fn is_access(&self) -> bool {
        matches!(self.kind, READ | WRITE | UPDATE)
    }

    pub fn bytes(&self) -> Vec<u8> {
        let mut bytes = vec![self.kind, self.size];
        bytes.extend(self.site.to_be_bytes());
        bytes.extend(self.line.to_be_bytes());
        bytes.extend(self.addr.to_be_bytes());
        bytes.extend(self.value.to_be_bytes());
        bytes
    }
}

fn number(bytes: &[u8]) -> u64 {
    bytes.iter().fold(0, |number, byte| number << 8 | u64::from(*byte))
}

pub fn name_of(path: &[Step]) -> String {
    let steps: String = path.iter().map(|(region, lane, _)| format!("-{region}.{lane}")).collect();
    format!("t{steps}.swl")
}

// The index.

struct Row {
    path: Vec<Step>,
    records: u64,
}

/// Whether the one path follows the other in a listing of a tree, depth first.
fn follows(path: &[Step], next: &[Step]) -> bool {
    // It is the first lane of the first region of the task before,
    if next.len() == path.len() + 1 && next.starts_with(path) {
        return matches!(next[path.len()], (0, 0, _));
    }
    // or the next lane, or the first of the next region, of a task above, below which everything was listed.
    let level = match next.len() {
        0 => return false,
        length => length - 1,
    };
    if level >= path.len() || next[..level] != path[..level] || path[level + 1..].iter().any(|(_, lane, span)| lane + 1 != *span) {
        return false;
    }
    let ((region, lane, span), after) = (path[level], next[level]);
    after == (region, lane + 1, span) && lane + 1 < span || lane + 1 == span && (after.0, after.1) == (region + 1, 0)
}

fn row_fault(bytes: &[u8], rows: &[Row]) -> Result<Row, &'static str> {
    let depth = number(&bytes[..4]) as usize;
    let steps: Vec<Step> = (0..4)
        .map(|step| &bytes[8 + 8 * step..])
        .map(|at| (number(&at[..4]) as u32, number(&at[4..6]) as u16, number(&at[6..8]) as u16))
        .collect();
    if depth > 4 || number(&bytes[4..8]) != 0 || steps[depth..].iter().any(|step| *step != (0, 0, 0)) {
        return Err("Depth");
    }
    let path = steps[..depth].to_vec();
    if path.iter().any(|(_, _, span)| !(1..=64).contains(span)) {
        return Err("Span");
    }
    if path.iter().any(|(_, lane, span)| lane >= span) {
        return Err("Lane");
    }
    let is_next = rows.last().map_or(path.is_empty(), |last| follows(&last.path, &path));
    if !is_next {
        return Err("Order");
    }
    let records = number(&bytes[40..48]);
    if !(1..=RECORDS).contains(&records) {
        return Err("Records");
    }
    Ok(Row { path, records })
}

fn read_index(bytes: &[u8], format: Format) -> Result<Vec<Row>, (usize, &'static str)> {
    if format.older.is_some_and(|older| bytes.starts_with(older)) {
        return Err((0, "Old"));
    }
    if !bytes.starts_with(format.index) {
        return Err((0, "Header"));
    }
    let mut rows: Vec<Row> = Vec::new();
    for at in 1.. {
        let rest = &bytes[8 + 48 * (at - 1)..];
        if rest.is_empty() && at > 1 {
            let is_whole = rows[at - 2].path.iter().all(|(_, lane, span)| lane + 1 == *span);
            return if is_whole { Ok(rows) } else { Err((at, "Order")) };
        }
        if at > ROWS && !rest.is_empty() {
            return Err((at, "TooMany"));
        }
        if rest.len() < 48 {
            return Err((at, "Cut"));
        }
        let row = row_fault(&rest[..48], &rows).map_err(|why| (at, why))?;
        rows.push(row);
    }
    unreachable!()
}

// The logs.

pub fn decode(bytes: &[u8]) -> Result<Record, &'static str> {
    decode_as(bytes, SECOND)
}

fn decode_as(bytes: &[u8], format: Format) -> Result<Record, &'static str> {
    let record = Record {
        kind: bytes[0],
        size: bytes[1],
        site: number(&bytes[2..4]) as u16,
        line: number(&bytes[4..8]) as u32,
        addr: number(&bytes[8..16]),
        value: number(&bytes[16..24]),
    };
    let (addr, value, nothing) = (record.addr, record.value, record.site == 0);
    if !(READ..=format.last_kind).contains(&record.kind) {
        return Err("Kind");
    }
    if !(if record.is_access() { matches!(record.size, 1 | 2 | 4 | 8) } else { record.size == 0 }) {
        return Err("Size");
    }
    if record.line == 0 {
        return Err("LineZero");
    }
    let is_placed = match record.kind {
        READ | WRITE | UPDATE => u128::from(addr) + u128::from(record.size) <= 1 << 48,
        LOCK | UNLOCK => addr < 65_536,
        _ => true,
    };
    if !is_placed {
        return Err("Address");
    }
    if record.kind == REGION && !(1..=64).contains(&value) {
        return Err("Span");
    }
    let is_bare = match record.kind {
        LOCK | UNLOCK => nothing && value == 0,
        BARRIER | END => nothing && addr == 0 && value == 0,
        REGION => nothing && addr == 0,
        CHUNK => nothing && addr <= value,
        _ => true,
    };
    if is_bare { Ok(record) } else { Err("Reserved") }
}

/// The spans of the regions that the index lists of a task.
fn listed(rows: &[Row], path: &[Step]) -> Vec<u64> {
    rows.iter()
        .filter(|row| row.path.len() == path.len() + 1 && row.path.starts_with(path) && row.path[path.len()].1 == 0)
        .map(|row| u64::from(row.path[path.len()].2))
        .collect()
}

fn barriers(records: &[Record]) -> usize {
    records.iter().filter(|record| record.kind == BARRIER).count()
}

/// The mutexes that are held after these records, the innermost last.
fn held(records: &[Record]) -> Vec<u64> {
    let mut held = Vec::new();
    for record in records {
        match record.kind {
            LOCK => held.push(record.addr),
            UNLOCK => held.retain(|mutex| *mutex != record.addr),
            _ => {}
        }
    }
    held
}

/// What this record breaks after those before it, if anything.
fn record_fault(record: &Record, before: &[Record], row: &Row, spans: &[u64], first_lane: Option<usize>) -> Option<&'static str> {
    let (is_last, held) = (before.len() as u64 + 1 == row.records, held(before));
    let forked = before.iter().filter(|other| other.kind == REGION).count();
    let tests = [
        ("EndEarly", record.kind == END && !is_last),
        ("EndMissing", record.kind != END && is_last),
        ("LockTwice", record.kind == LOCK && held.contains(&record.addr)),
        ("LocksDeep", record.kind == LOCK && held.len() >= 8),
        ("UnlockOther", record.kind == UNLOCK && held.last() != Some(&record.addr)),
        ("RootBarrier", record.kind == BARRIER && row.path.is_empty()),
        ("BarrierLocked", record.kind == BARRIER && !held.is_empty()),
        ("RegionLocked", record.kind == REGION && !held.is_empty()),
        ("LockOpen", record.kind == END && !held.is_empty()),
        ("RegionRows", record.kind == REGION && spans.get(forked) != Some(&record.value) || record.kind == END && forked < spans.len()),
        ("BarrierCount", record.kind == END && first_lane.is_some_and(|count| count != barriers(before))),
    ];
    tests.iter().find(|(_, broken)| *broken).map(|(why, _)| *why)
}

pub type Logs = Vec<(Vec<Step>, Vec<Record>)>;

fn read_logs(files: &Files, rows: &[Row], format: Format) -> Result<Logs, String> {
    let (mut logs, mut segments) = (Logs::new(), 0);
    for row in rows {
        let name = name_of(&row.path);
        let Some(bytes) = files.get(&name) else {
            return Err(format!("missing log {name}\n"));
        };
        let bad = |at: usize, why: &str| Err(format!("bad log {name} record {at}: {why}\n"));
        if !bytes.starts_with(format.log) {
            return bad(0, "Header");
        }
        let spans = listed(rows, &row.path);
        let first_lane = row.path.last().filter(|(_, lane, _)| *lane > 0).map(|(region, _, span)| {
            let mut first = row.path.clone();
            *first.last_mut().unwrap() = (*region, 0, *span);
            barriers(&logs.iter().find(|(path, _)| *path == first).unwrap().1)
        });
        let (mut records, mut is_open) = (Vec::new(), false);
        for at in 1..=row.records as usize {
            let rest = &bytes[(8 + 24 * (at - 1)).min(bytes.len())..];
            if rest.len() < 24 {
                return bad(at, "Cut");
            }
            let record = match decode_as(&rest[..24], format) {
                Ok(record) => record,
                Err(why) => return bad(at, why),
            };
            if let Some(why) = record_fault(&record, &records, row, &spans, first_lane) {
                return bad(at, why);
            }
            if record.is_access() && !is_open {
                if segments == SEGMENTS {
                    return Err(format!("too many segments at {name} record {at}\n"));
                }
                segments += 1;
            }
            is_open = (is_open || record.is_access()) && !matches!(record.kind, REGION | BARRIER);
            records.push(record);
        }
        if bytes.len() > 8 + 24 * records.len() {
            return bad(records.len() + 1, "Extra");
        }
        logs.push((row.path.clone(), records));
    }
    Ok(logs)
}

pub fn read_folder(files: &Files) -> Result<Logs, String> {
    read_folder_as(files, SECOND)
}

fn read_folder_as(files: &Files, format: Format) -> Result<Logs, String> {
    let Some(index) = files.get("index.swi") else {
        return Err("no index\n".to_string());
    };
    let rows = read_index(index, format).map_err(|(row, why)| format!("bad index row {row}: {why}\n"))?;
    read_logs(files, &rows, format)
}

// Races.

/// The edges of happens-before, from each record of all logs to others. A record's number counts those of the logs before.
fn edges(logs: &Logs, starts: &[usize]) -> Vec<Vec<usize>> {
    let mut edges = vec![Vec::new(); starts[logs.len()]];
    let log_at = |path: &[Step]| logs.iter().position(|(other, _)| other == path);
    for (log, (path, records)) in logs.iter().enumerate() {
        for at in 1..records.len() {
            edges[starts[log] + at - 1].push(starts[log] + at);
        }
        let regions: Vec<usize> = (0..records.len()).filter(|at| records[*at].kind == REGION).collect();
        for (region, at) in regions.iter().enumerate() {
            for lane in 0..records[*at].value as u16 {
                let mut child = path.clone();
                child.push((region as u32, lane, records[*at].value as u16));
                let lane = log_at(&child).unwrap();
                edges[starts[log] + at].push(starts[lane]);
                if at + 1 < records.len() {
                    edges[starts[lane + 1] - 1].push(starts[log] + at + 1);
                }
            }
        }
        let Some((region, _, span)) = path.last() else {
            continue;
        };
        let met: Vec<usize> = (0..records.len()).filter(|at| records[*at].kind == BARRIER).collect();
        for other in 0..*span {
            let mut mate = path.clone();
            *mate.last_mut().unwrap() = (*region, other, *span);
            let mate = log_at(&mate).unwrap();
            let theirs = (0..logs[mate].1.len()).filter(|at| logs[mate].1[*at].kind == BARRIER);
            for (mine, at) in met.iter().zip(theirs) {
                if at + 1 < logs[mate].1.len() {
                    edges[starts[log] + mine].push(starts[mate] + at + 1);
                }
            }
        }
    }
    edges
}

fn reached(edges: &[Vec<usize>], from: usize) -> Vec<bool> {
    let (mut reached, mut open) = (vec![false; edges.len()], vec![from]);
    reached[from] = true;
    while let Some(node) = open.pop() {
        for next in &edges[node] {
            if !reached[*next] {
                reached[*next] = true;
                open.push(*next);
            }
        }
    }
    reached
}

fn is_conflict(one: &Record, other: &Record) -> bool {
    let meet = one.addr < other.addr + u64::from(other.size) && other.addr < one.addr + u64::from(one.size);
    let changes = one.kind != READ || other.kind != READ;
    meet && changes && !(one.kind == UPDATE && other.kind == UPDATE)
}

/// An access of some log, the mutexes held at it, and what it reaches.
struct Access<'a> {
    row: usize,
    number: usize,
    node: usize,
    record: &'a Record,
    held: Vec<u64>,
    reached: Vec<bool>,
}

fn accesses(logs: &Logs) -> Vec<Access<'_>> {
    let mut starts = vec![0];
    for (_, records) in logs {
        starts.push(starts.last().unwrap() + records.len());
    }
    let edges = edges(logs, &starts);
    let mut accesses = Vec::new();
    for (log, (_, records)) in logs.iter().enumerate() {
        for (at, record) in records.iter().enumerate().filter(|(_, record)| record.is_access()) {
            let node = starts[log] + at;
            accesses.push(Access { row: log + 1, number: at + 1, node, record, held: held(&records[..at]), reached: reached(&edges, node) });
        }
    }
    accesses
}

fn is_race(one: &Access, other: &Access) -> bool {
    let are_ordered = one.reached[other.node] || other.reached[one.node];
    !are_ordered && is_conflict(one.record, other.record) && !one.held.iter().any(|mutex| other.held.contains(mutex))
}

fn lines(one: &Access, other: &Access) -> (u32, u32) {
    (one.record.line.min(other.record.line), one.record.line.max(other.record.line))
}

fn race_pairs(logs: &Logs) -> BTreeSet<(u32, u32)> {
    let accesses = accesses(logs);
    let mut pairs = BTreeSet::new();
    for one in &accesses {
        pairs.extend(accesses.iter().filter(|other| is_race(one, other)).map(|other| lines(one, other)));
    }
    pairs
}

// What is printed.

pub fn check(files: &Files) -> (i32, String) {
    let logs = match read_folder(files) {
        Ok(logs) => logs,
        Err(text) => return (4, text),
    };
    let pairs = race_pairs(&logs);
    let mut text = String::new();
    for (one, other) in &pairs {
        writeln!(text, "race {one} {other}").unwrap();
    }
    writeln!(text, "races {}", pairs.len()).unwrap();
    (i32::from(!pairs.is_empty()), text)
}

pub fn explain(files: &Files, low: u32, high: u32) -> (i32, String) {
    let logs = match read_folder(files) {
        Ok(logs) => logs,
        Err(text) => return (4, text),
    };
    let accesses = accesses(&logs);
    for (at, one) in accesses.iter().enumerate() {
        for other in &accesses[at..] {
            if lines(one, other) == (low, high) && is_race(one, other) {
                let place = |access: &Access| format!("row {} {} record {}", access.row, name_of(&logs[access.row - 1].0), access.number);
                let byte = one.record.addr.max(other.record.addr);
                return (1, format!("race {} {} byte {byte}\n", place(one), place(other)));
            }
        }
    }
    (0, format!("no race {low} {high}\n"))
}

pub fn confirm(files: &Files, first: (usize, usize), second: (usize, usize)) -> (i32, String) {
    let logs = match read_folder(files) {
        Ok(logs) => logs,
        Err(text) => return (4, text),
    };
    let accesses = accesses(&logs);
    let named = |place| accesses.iter().find(|access| (access.row, access.number) == place);
    match (named(first), named(second)) {
        (Some(one), Some(other)) if is_race(one, other) => (1, format!("race byte {}\n", one.record.addr.max(other.record.addr))),
        _ => (0, "no race\n".to_string()),
    }
}

fn line_of(record: &Record) -> String {
    let Record { size, site, line, addr, value, .. } = *record;
    let access = |word: &str| format!("{word} {size} site {site} line {line} addr {addr} value {}", value as i64);
    match record.kind {
        READ => access("read"),
        WRITE => access("write"),
        UPDATE => access("update"),
        LOCK => format!("lock {addr} line {line}"),
        UNLOCK => format!("unlock {addr} line {line}"),
        BARRIER => format!("barrier line {line}"),
        REGION => format!("region {value} line {line}"),
        CHUNK => format!("chunk {addr} of {value} line {line}"),
        _ => format!("end line {line}"),
    }
}

pub fn show(files: &Files) -> (i32, String) {
    let logs = match read_folder(files) {
        Ok(logs) => logs,
        Err(text) => return (4, text),
    };
    let mut text = String::new();
    for (path, records) in &logs {
        writeln!(text, "log {} records {}", name_of(path), records.len()).unwrap();
        for (at, record) in records.iter().enumerate() {
            writeln!(text, "{} {}", at + 1, line_of(record)).unwrap();
        }
    }
    (0, text)
}

/// What `upgrade` of a folder to another prints, and what it leaves of the other.
fn upgrade(files: &Files, new: &Files) -> (i32, String, Files) {
    if new.contains_key("index.swi") {
        return (9, "index exists\n".to_string(), new.clone());
    }
    let logs = match read_folder_as(files, FIRST) {
        Ok(logs) => logs,
        Err(text) => return (4, text, new.clone()),
    };
    let mut left = new.clone();
    let mut bring = |name: String, header: &[u8]| left.insert(name.clone(), [header, &files[&name][8..]].concat());
    bring("index.swi".to_string(), INDEX);
    logs.iter().for_each(|(path, _)| drop(bring(name_of(path), LOG)));
    (0, format!("upgraded {}\n", logs.len()), left)
}

// Random folders.

pub struct Random(u64);

impl Random {
    pub fn new(seed: u64) -> Self {
        Random(seed.wrapping_mul(0x9e37_79b9_7f4a_7c15) | 1)
    }

    /// A number below the bound; 0 where there is none.
    pub fn below(&mut self, bound: u64) -> u64 {
        self.0 ^= self.0 << 13;
        self.0 ^= self.0 >> 7;
        self.0 ^= self.0 << 17;
        self.0 % bound.max(1)
    }

    pub fn is_one_in(&mut self, bound: u64) -> bool {
        self.below(bound) == 0
    }
}

fn access(random: &mut Random) -> Record {
    let size = 1 << random.below(4);
    let kind = [READ, READ, WRITE, WRITE, UPDATE][random.below(5) as usize];
    Record { kind, size, site: random.below(3) as u16, line: 1 + random.below(9) as u32, addr: 4096 + random.below(12), value: random.below(3).wrapping_sub(1) }
}

fn event(kind: u8, line: u64, addr: u64, value: u64) -> Record {
    Record { kind, size: 0, site: 0, line: line as u32, addr, value }
}

/// The records of a task that passes so many barriers, and the logs below it.
fn task(random: &mut Random, path: &[Step], barriers: u64, logs: &mut Logs) {
    let place = logs.len();
    logs.push((path.to_vec(), Vec::new()));
    let (mut records, mut regions) = (Vec::new(), 0);
    for phase in 0..=barriers {
        for _ in 0..random.below(4) {
            match random.below(8) {
                0 if path.len() < 3 => {
                    let (span, passed) = (1 + random.below(3), random.below(3));
                    records.push(event(REGION, 10 + random.below(3), 0, span));
                    for lane in 0..span {
                        let mut child = path.to_vec();
                        child.push((regions, lane as u16, span as u16));
                        task(random, &child, passed, logs);
                    }
                    regions += 1;
                }
                1 => {
                    let (mutex, chunks) = (random.below(3), random.below(4));
                    records.push(event(LOCK, 20, mutex, 0));
                    records.push(access(random));
                    records.push(event(UNLOCK, 21, mutex, 0));
                    records.push(event(CHUNK, 22, chunks, 3));
                }
                _ => records.push(access(random)),
            }
        }
        if phase < barriers {
            records.push(event(BARRIER, 30, 0, 0));
        }
    }
    records.push(event(END, 40, 0, 0));
    logs[place].1 = records;
}

pub fn row_bytes(path: &[Step], records: u64) -> Vec<u8> {
    let mut bytes = (path.len() as u32).to_be_bytes().to_vec();
    bytes.extend([0; 4]);
    for (region, lane, span) in path {
        bytes.extend(region.to_be_bytes());
        bytes.extend(lane.to_be_bytes());
        bytes.extend(span.to_be_bytes());
    }
    bytes.resize(40, 0);
    bytes.extend(records.to_be_bytes());
    bytes
}

fn random_folder(random: &mut Random, format: Format) -> Files {
    let mut logs = Logs::new();
    task(random, &[], 0, &mut logs);
    // In the first format a record of a later kind is a fault, which one folder of ten may have.
    if format.last_kind < UPDATE && !random.is_one_in(10) {
        logs.iter_mut().flat_map(|(_, records)| records).filter(|record| record.kind == UPDATE).for_each(|record| record.kind = WRITE);
    }
    let mut index = format.index.to_vec();
    let mut files = Files::new();
    for (path, records) in &logs {
        index.extend(row_bytes(path, records.len() as u64));
        let mut bytes = format.log.to_vec();
        records.iter().for_each(|record| bytes.extend(record.bytes()));
        files.insert(name_of(path), bytes);
    }
    files.insert("index.swi".to_string(), index);
    files
}

pub fn damage(random: &mut Random, files: &mut Files) {
    let mut names: Vec<String> = files.keys().cloned().collect();
    names.sort();
    let name = &names[random.below(names.len() as u64) as usize];
    if random.is_one_in(20) {
        files.remove(name);
        return;
    }
    let bytes = files.get_mut(name).unwrap();
    let length = bytes.len() as u64;
    if length == 0 {
        return;
    }
    match random.below(6) {
        0 => bytes.truncate(random.below(length) as usize),
        1 => bytes.extend(vec![random.below(10) as u8; 1 + random.below(48) as usize]),
        2 => bytes[random.below(length.min(8)) as usize] = [b'1', b'2', b'S', 0][random.below(4) as usize],
        // A record or a row stands twice, or is gone.
        3 | 4 if length > 60 => {
            let width = if name.ends_with(".swi") { 48 } else { 24 };
            let count = (length as usize - 8) / width;
            let at = 8 + width * random.below(count as u64) as usize;
            if random.is_one_in(2) {
                bytes.drain(at..at + width);
            } else {
                let again = bytes[at..at + width].to_vec();
                bytes.splice(at..at, again);
            }
        }
        _ => {
            let at = random.below(length) as usize;
            bytes[at] = [random.below(10) as u8, random.below(256) as u8, bytes[at] ^ 1][random.below(3) as usize];
        }
    }
}

// The comparison.

pub fn write_folder(place: &Path, files: &Files) {
    let _ = fs::remove_dir_all(place);
    fs::create_dir(place).unwrap();
    for (name, bytes) in files {
        fs::write(place.join(name), bytes).unwrap();
    }
}

pub fn read_files(place: &Path) -> Files {
    let mut files = Files::new();
    for entry in fs::read_dir(place).into_iter().flatten().flatten() {
        files.insert(entry.file_name().into_string().unwrap(), fs::read(entry.path()).unwrap());
    }
    files
}

pub fn ask(sword: &str, words: &[&str]) -> (i32, String) {
    let output = Command::new(sword).args(words).output().unwrap();
    (output.status.code().unwrap_or(-1), String::from_utf8_lossy(&output.stdout).into_owned())
}

/// A folder's place in memory, removed in the end.
struct Place(std::path::PathBuf);

impl Place {
    fn new(name: &str) -> Self {
        Place(Path::new("/dev/shm").join(format!("folders-{name}-{}", process::id())))
    }

    fn name(&self) -> &str {
        self.0.to_str().unwrap()
    }
}

impl Drop for Place {
    fn drop(&mut self) {
        let _ = fs::remove_dir_all(&self.0);
    }
}

/// Two records to confirm, by row and number: any two, or as often two that race, where some do.
fn two_records(random: &mut Random, files: &Files) -> [(u64, u64); 2] {
    if random.is_one_in(2) {
        let logs = read_folder(files).unwrap_or_default();
        let accesses = accesses(&logs);
        let pairs = accesses.iter().flat_map(|one| accesses.iter().map(move |other| (one, other)));
        let races: Vec<_> = pairs.filter(|(one, other)| is_race(one, other)).collect();
        if !races.is_empty() {
            let (one, other) = races[random.below(races.len() as u64) as usize];
            return [one, other].map(|access| (access.row as u64, access.number as u64));
        }
    }
    [(); 2].map(|()| (1 + random.below(8), 1 + random.below(12)))
}

/// What a folder is asked for: the words, and what is due.
fn asked(random: &mut Random, files: &Files, folder: &str) -> Vec<(Vec<String>, (i32, String))> {
    let number = |random: &mut Random, count: u64| 1 + random.below(count);
    let (workers, low) = (number(random, 4), number(random, 6));
    let high = low + random.below(3);
    let [one, other] = two_records(random, files);
    let words = |word: &str, numbers: &[u64]| {
        let numbers = numbers.iter().map(u64::to_string);
        [word.to_string(), folder.to_string()].into_iter().chain(numbers).collect::<Vec<String>>()
    };
    let at = |(row, number): (u64, u64)| (row as usize, number as usize);
    vec![
        (words("check", &[workers]), check(files)),
        (words("show", &[]), show(files)),
        (words("explain", &[low, high]), explain(files, low as u32, high as u32)),
        (words("confirm", &[one.0, one.1, other.0, other.1]), confirm(files, at(one), at(other))),
    ]
}

/// A folder to upgrade to: most often there is none, or it has a log that is in the way, or an index.
fn new_folder(random: &mut Random) -> Files {
    let mut new = Files::new();
    match random.below(8) {
        0 => drop(new.insert("index.swi".to_string(), INDEX[..random.below(9) as usize].to_vec())),
        1 => drop(new.insert("t.swl".to_string(), vec![7; random.below(200) as usize])),
        _ => {}
    }
    new
}

fn compare(sword: &str, seed: u64, count: u64, is_one: bool) -> bool {
    let (place, new_place) = (Place::new("old"), Place::new("new"));
    let mut random = Random::new(seed);
    let (mut seen, mut calls): (std::collections::BTreeMap<(String, i32), u64>, u64) = Default::default();
    let mut tell = |number: u64, words: &[&str], due: &(i32, String)| {
        let found = ask(sword, words);
        calls += 1;
        *seen.entry((words[0].to_string(), due.0)).or_default() += 1;
        let is_due = found == *due;
        if !is_due {
            println!("folder {number} of seed {seed} differs: {words:?}\ndue {due:?}\nfound {found:?}");
        }
        is_due
    };
    for number in 0..count {
        let format = if random.is_one_in(3) { FIRST } else { SECOND };
        let mut files = random_folder(&mut random, format);
        for _ in 0..[0, 0, 1, 1, 2][random.below(5) as usize] {
            damage(&mut random, &mut files);
        }
        write_folder(&place.0, &files);
        let mut is_well = true;
        if format.last_kind == UPDATE {
            let mut questions = asked(&mut random, &files, place.name());
            if is_one {
                let at = random.below(questions.len() as u64) as usize;
                questions = vec![questions.swap_remove(at)];
            }
            for (words, due) in questions {
                is_well &= tell(number, &words.iter().map(String::as_str).collect::<Vec<&str>>(), &due);
            }
        }
        if format.last_kind != UPDATE || random.is_one_in(50) {
            let new = new_folder(&mut random);
            let _ = fs::remove_dir_all(&new_place.0);
            if !new.is_empty() {
                write_folder(&new_place.0, &new);
            }
            let (status, text, left) = upgrade(&files, &new);
            is_well &= tell(number, &["upgrade", place.name(), new_place.name()], &(status, text));
            is_well &= tell(number, &["check", new_place.name(), "2"], &check(&left)) && read_files(&new_place.0) == left;
        }
        if !is_well || read_files(&place.0) != files {
            write_folder(Path::new("differs"), &files);
            println!("folder {number} of seed {seed} differs, kept in differs");
            return false;
        }
    }
    println!("{count} folders of seed {seed}, {calls} commands: no difference; none took more than {} KiB", most_memory());
    seen.iter().for_each(|((word, status), count)| println!("  {count} times {word} with status {status}"));
    true
}

/// The most memory that a command took, in KiB.
fn most_memory() -> i64 {
    #[repr(C)]
    struct Usage {
        times: [i64; 4],
        most: i64,
        others: [i64; 13],
    }
    extern "C" {
        fn getrusage(who: i32, usage: *mut Usage) -> i32;
    }
    let mut usage = Usage { times: [0; 4], most: 0, others: [0; 13] };
    // SAFETY: the struct has the layout of `struct rusage` on 64-bit Linux; -1 asks for the children that ended.
    unsafe { getrusage(-1, &mut usage) };
    usage.most
}

/// What this program itself answers to words of `sword`.
fn answer(words: &[&str]) -> Option<(i32, String)> {
    let number = |word: &str| word.parse().unwrap();
    Some(match words {
        ["check", folder, ..] => check(&read_files(Path::new(folder))),
        ["show", folder] => show(&read_files(Path::new(folder))),
        ["explain", folder, low, high] => explain(&read_files(Path::new(folder)), number(low) as u32, number(high) as u32),
        ["confirm", folder, a, i, b, j] => confirm(&read_files(Path::new(folder)), (number(a), number(i)), (number(b), number(j))),
        _ => return None,
    })
}

fn main() {
    let words: Vec<String> = env::args().skip(1).collect();
    let words: Vec<&str> = words.iter().map(String::as_str).collect();
    if let Some((status, text)) = answer(&words) {
        print!("{text}");
        process::exit(status);
    }
    match words[..] {
        ["make", folder, seed] => write_folder(Path::new(folder), &random_folder(&mut Random::new(seed.parse().unwrap()), SECOND)),
        [sword, seed, count] => process::exit(i32::from(!compare(sword, seed.parse().unwrap(), count.parse().unwrap(), false))),
        [sword, seed, count, "one"] => process::exit(i32::from(!compare(sword, seed.parse().unwrap(), count.parse().unwrap(), true))),
        _ => process::exit(2),
    }
}
