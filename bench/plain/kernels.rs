//! A second reader of kernels, plain and slow, that follows docs/KERNELS.md and shares no code with the program: it refuses texts, follows the
//! logs of a folder, and searches a legal history of a run. `bench/soak.py` compares what it says with what the program does.
//!
//!     rustc --edition 2021 -O -o /tmp/kernels bench/plain/kernels.rs
//!     /tmp/kernels WORD ..        answers the words of one line
//!     /tmp/kernels serve          answers each line of its input, with a last line `= STATUS`
//!
//!     kernel FILE                 the refusal of a text, or `kernel`
//!     replay FILE DIR             what `replay` prints
//!     ran FILE DIR OUT STATUS     whether a `run` of the kernel that printed the file OUT and left the folder is one by the definitions
//!     certify FILE                what `certify` prints
//!     run FILE DIR SEED           runs a kernel itself, slowly, with the steps of its tasks in some order
//!     make SEED FILE              makes a kernel
//!     change SEED FILE            makes a text that is perhaps no kernel
//!     damage SEED DIR NEW         copies a folder and damages it
//!     check DIR W, show DIR       as in folders.rs
#[allow(dead_code)]
#[path = "folders.rs"]
mod folders;
#[path = "kernel_histories.rs"]
mod kernel_histories;
#[path = "kernel_runs.rs"]
mod kernel_runs;
#[path = "kernel_text.rs"]
mod kernel_text;
#[path = "kernel_traces.rs"]
mod kernel_traces;
#[path = "random_kernels.rs"]
mod random_kernels;

use std::collections::BTreeMap;
use std::io::{BufRead, Write};
use std::path::Path;
use std::{env, fs, io, process};

use folders::{Files, Logs, Random, Record};
use kernel_histories::Found;
use kernel_text::{Block, Kernel, Schedule, Stmt};
use kernel_traces::Halt;

fn read(file: &str) -> Vec<u8> {
    fs::read(file).unwrap_or_default()
}

fn kernel_of(file: &str) -> Result<Kernel, (i32, String)> {
    kernel_text::read_kernel(&read(file)).map_err(|(line, why)| (3, format!("kernel line {line}: {why}\n")))
}

/// What a run prints that ends with these logs and this memory.
fn sums(kernel: &Kernel, logs: &Logs, memory: &BTreeMap<u64, i64>) -> String {
    let records: usize = logs.iter().map(|(_, records)| records.len()).sum();
    let mut text = format!("tasks {}\nrecords {records}\n", logs.len());
    for (array, address) in kernel.arrays.iter().zip(kernel_traces::addresses(kernel)) {
        let end = address + array.count as u64 * u64::from(array.size);
        let sum: i128 = memory.range(address..end).map(|(_, value)| i128::from(*value)).sum();
        text.push_str(&format!("sum {} {sum}\n", array.name));
    }
    text
}

fn history(logs: &Logs, is_end: &dyn Fn(&BTreeMap<u64, i64>) -> bool) -> (i32, String) {
    match kernel_histories::find(logs, is_end) {
        Found::Legal => (0, "well\n".to_string()),
        Found::None => (1, "no legal history with this end\n".to_string()),
        Found::Unknown => (2, "too many states\n".to_string()),
    }
}

/// Whether a run that ended with 0 is one by the definitions.
fn ended(kernel: &Kernel, files: &Files, out: &str) -> (i32, String) {
    let logs = match folders::read_folder(files) {
        Ok(logs) => logs,
        Err(text) => return (1, text),
    };
    if logs.len() + 1 != files.len() {
        return (1, "a file of no task\n".to_string());
    }
    let tasks = kernel_traces::tasks(kernel, &logs);
    if tasks.len() != logs.len() || tasks.iter().any(|(_, halt)| *halt != Halt::End) {
        return (1, "a task has no whole trace\n".to_string());
    }
    if let Some(fault) = kernel_traces::draws_fault(&logs, &tasks, true) {
        return (1, fault);
    }
    history(&logs, &|memory| sums(kernel, &logs, memory) == out)
}

/// Whether a run that stopped, without a fault, is one by the definitions.
fn stopped(kernel: &Kernel, files: &Files, out: &str) -> (i32, String) {
    let logs = match kernel_traces::beginnings(files) {
        Ok(logs) => logs,
        Err(text) => return (1, text),
    };
    let tasks = kernel_traces::tasks(kernel, &logs);
    if tasks.len() != logs.len() {
        return (1, "a task that nobody forks\n".to_string());
    }
    for place in 0..logs.len() {
        if let Err(text) = kernel_traces::stop(&logs, &tasks, &logs[place].0) {
            return (1, text);
        }
    }
    let due = kernel_traces::stop(&logs, &tasks, &[]).unwrap().unwrap_or("no stop\n".to_string());
    if due != out {
        return (1, format!("due {due}"));
    }
    if let Some(fault) = kernel_traces::draws_fault(&logs, &tasks, false) {
        return (1, fault);
    }
    history(&logs, &|_| true)
}

/// A run by this program, which gives up at 5,000 records.
fn run(kernel: &Kernel, folder: &str, seed: &str) -> (i32, String) {
    if Path::new(folder).join("index.swi").exists() {
        return (9, String::new());
    }
    let Some((logs, world)) = kernel_runs::run(kernel, &mut Random::new(seed.parse().unwrap()), 5_000) else {
        return (8, String::new());
    };
    let (files, stop) = kernel_runs::files(kernel, &logs);
    folders::write_folder(Path::new(folder), &files);
    stop.map_or_else(|| (0, sums(kernel, &logs, &world.memory)), |stop| (5, stop))
}

/// The line of the first critical section, atomic update or loop whose chunks are drawn.
fn construct(block: &Block) -> Option<u32> {
    block.body.iter().find_map(|statement| match statement {
        Stmt::Update(element, ..) => Some(element.line),
        Stmt::Critical(line, ..) => Some(*line),
        Stmt::For(share) if matches!(share.schedule, Schedule::Dynamic(..)) => Some(share.line),
        Stmt::If(_, one, other) => construct(one).or_else(|| other.as_ref().and_then(construct)),
        Stmt::Loop(_, body) | Stmt::Parallel(_, _, body) => construct(body),
        Stmt::For(share) => construct(&share.block),
        _ => None,
    })
}

/// The verdict on a kernel, which gives up at 500 records.
fn certify(kernel: &Kernel) -> (i32, String) {
    if let Some(line) = construct(&kernel.main) {
        return (1, format!("uncertain: construct line {line}\n"));
    }
    let Some((logs, world)) = kernel_runs::run_in_turn(kernel, 500) else {
        return (8, String::new());
    };
    let (files, stop) = kernel_runs::files(kernel, &logs);
    let verdict = stop.map_or_else(|| folders::check(&files), |stop| (1, stop));
    match verdict {
        (0, _) => (0, format!("certain\n{}", sums(kernel, &logs, &world.memory))),
        (_, text) if text.starts_with("race") => (1, format!("{text}uncertain: races\n")),
        (_, text) => (1, format!("uncertain: {text}")),
    }
}

fn ran(kernel: &Kernel, folder: &str, out: &str, status: &str) -> (i32, String) {
    let (files, out) = (folders::read_files(Path::new(folder)), String::from_utf8_lossy(&read(out)).into_owned());
    match status {
        "0" => ended(kernel, &files, &out),
        "5" => stopped(kernel, &files, &out),
        _ => (1, format!("status {status}\n")),
    }
}

/// Changes one field of one record, in a log that stays of its length.
fn change_record(random: &mut Random, files: &mut Files) {
    let mut names: Vec<String> = files.keys().filter(|name| name.ends_with(".swl")).cloned().collect();
    names.sort();
    let bytes = files.get_mut(&names[random.below(names.len() as u64) as usize]).unwrap();
    if bytes.len() < 32 {
        return;
    }
    let at = 8 + 24 * random.below((bytes.len() as u64 - 8) / 24) as usize;
    let Ok(mut record): Result<Record, _> = folders::decode(&bytes[at..at + 24]) else {
        return;
    };
    match random.below(8) {
        0 => record.line = (record.line + random.below(3) as u32).saturating_sub(1),
        1 => record.addr = (record.addr + [1, 2, 8, 64][random.below(4) as usize]) - 1,
        2 => record.site = record.site.wrapping_add(1),
        3 => record.kind = [1, 2, 9][random.below(3) as usize],
        4 => record.size = [1, 2, 4, 8][random.below(4) as usize],
        _ => record.value = [0, 1, 127, 128, 255, u64::MAX, record.value ^ 1, record.value.wrapping_add(1)][random.below(8) as usize],
    }
    bytes[at..at + 24].copy_from_slice(&record.bytes());
}

fn damage(random: &mut Random, folder: &str, new: &str) {
    let mut files = folders::read_files(Path::new(folder));
    for _ in 0..1 + random.below(2) {
        if random.below(4) > 0 { change_record(random, &mut files) } else { folders::damage(random, &mut files) }
        if !files.keys().any(|name| name.ends_with(".swl")) {
            break;
        }
    }
    folders::write_folder(Path::new(new), &files);
}

fn answer(words: &[&str]) -> (i32, String) {
    let random = |seed: &str| Random::new(seed.parse().unwrap());
    let write = |file: &str, text: Vec<u8>| {
        fs::write(file, text).unwrap();
        (0, String::new())
    };
    let of_kernel = |file: &str, then: &dyn Fn(&Kernel) -> (i32, String)| kernel_of(file).map_or_else(|refusal| refusal, |kernel| then(&kernel));
    match words {
        ["kernel", file] => of_kernel(file, &|_| (0, "kernel\n".to_string())),
        ["replay", file, folder] => of_kernel(file, &|kernel| kernel_traces::replay(kernel, &folders::read_files(Path::new(folder)))),
        ["certify", file] => of_kernel(file, &certify),
        ["run" | "live", file, folder, seed] => of_kernel(file, &|kernel| run(kernel, folder, seed)),
        ["ran", file, folder, out, status] => of_kernel(file, &|kernel| ran(kernel, folder, out, status)),
        ["make", seed, file] => write(file, random_kernels::kernel(&mut random(seed))),
        ["change", seed, file] => write(file, random_kernels::changed(&mut random(seed))),
        ["damage", seed, folder, new] => {
            damage(&mut random(seed), folder, new);
            (0, String::new())
        }
        ["check", folder, ..] => folders::check(&folders::read_files(Path::new(folder))),
        ["show", folder] => folders::show(&folders::read_files(Path::new(folder))),
        _ => (2, String::new()),
    }
}

fn serve() {
    for line in io::stdin().lock().lines() {
        let line = line.unwrap();
        let (status, text) = answer(&line.split(' ').collect::<Vec<&str>>());
        print!("{text}= {status}\n");
        io::stdout().flush().unwrap();
    }
}

fn main() {
    let words: Vec<String> = env::args().skip(1).collect();
    let words: Vec<&str> = words.iter().map(String::as_str).collect();
    if words == ["serve"] {
        return serve();
    }
    let (status, text) = answer(&words);
    print!("{text}");
    process::exit(status);
}
