//! The memory written in Rust with the standard library alone: the same commands, checks and answers, once plainly and
//! once tuned by hand. It has the workloads of `crates/im_bench/src/memory.rt`, and prints the same lines:
//! `memory plain|tuned WORKLOAD COUNT`.

mod plain;
mod tuned;

use std::process::ExitCode;

const MAX_CELLS: u32 = 1_048_576;
const ELEMENTS: u32 = 64;
const WINDOW: usize = 64;
const LAST: u64 = 1 << 62;

#[derive(Clone, Copy, Debug, PartialEq, Eq)]
enum Kind {
    I,
    M,
}

#[derive(Clone, Copy, Debug, PartialEq, Eq)]
enum Op {
    Alloc(Kind, u32),
    Release(u32),
    Fetch(u32),
    Store(u32, u64),
    Take(u32),
    Put(u32, u64),
}

#[derive(Clone, Copy, Debug, PartialEq, Eq)]
enum Reply {
    Base(u32),
    NoSpace,
    BadLength,
    Value(u64),
    Stored,
    Clash,
    NoCell,
    WrongKind,
    Released,
    NoBlock,
    StillWaiting,
}

#[derive(Clone, Copy, Debug, PartialEq, Eq)]
enum Entry {
    Waiting,
    Answered(Reply),
}

#[derive(Clone, Copy, Debug, PartialEq, Eq)]
enum Refusal {
    Gap,
    Forgotten,
    WindowFull,
    Mismatch,
    NoElement,
    NotAnswered,
}

#[derive(Clone, Copy, Debug)]
struct Request {
    element: u16,
    number: u64,
    op: Op,
}

#[derive(Clone, Copy, Debug)]
enum Command {
    Request(Request),
    Confirm { element: u16, upto: u64 },
}

#[derive(Clone, Copy, Debug)]
enum Outcome {
    Entry(Entry),
    Confirmed,
}

enum Judged {
    Fresh,
    Repeat(Entry),
}

#[derive(Clone, Copy, Debug)]
struct Waiter {
    element: u16,
    number: u64,
}

/// What both memories do.
trait Memory {
    fn new(cells: u32, elements: u32) -> Self;
    fn request(&mut self, request: &Request) -> Result<Entry, Refusal>;
    fn confirm(&mut self, element: u16, upto: u64) -> Result<(), Refusal>;
    fn collect(&self, element: u16, number: u64) -> Result<Entry, Refusal>;
    /// The base of an element's window, and its next number.
    fn window(&self, element: u16) -> Result<(u64, u64), Refusal>;

    fn step(&mut self, command: &Command) -> Result<Outcome, Refusal> {
        match command {
            Command::Request(request) => self.request(request).map(Outcome::Entry),
            Command::Confirm { element, upto } => {
                self.confirm(*element, *upto)?;
                Ok(Outcome::Confirmed)
            }
        }
    }
}

// The workloads.

fn element_of(index: u32) -> u16 {
    (index % ELEMENTS) as u16
}

fn number_of(index: u32) -> u64 {
    (index / ELEMENTS) as u64 + 1
}

fn digest(entry: Entry) -> u64 {
    match entry {
        Entry::Waiting => 100,
        Entry::Answered(Reply::Value(value)) => value,
        Entry::Answered(Reply::Base(base)) => base as u64,
        Entry::Answered(Reply::NoSpace) => 101,
        Entry::Answered(Reply::BadLength) => 102,
        Entry::Answered(Reply::Stored) => 103,
        Entry::Answered(Reply::Clash) => 104,
        Entry::Answered(Reply::NoCell) => 105,
        Entry::Answered(Reply::WrongKind) => 106,
        Entry::Answered(Reply::Released) => 107,
        Entry::Answered(Reply::NoBlock) => 108,
        Entry::Answered(Reply::StillWaiting) => 109,
    }
}

fn mixed(sum: u64, entry: Entry) -> u64 {
    sum.wrapping_mul(31).wrapping_add(digest(entry))
}

fn with_windows(mut sum: u64, memory: &impl Memory) -> Result<u64, Refusal> {
    for element in 0..ELEMENTS {
        let (base, next) = memory.window(element as u16)?;
        sum = sum.wrapping_mul(31).wrapping_add(base).wrapping_mul(31).wrapping_add(next);
    }
    Ok(sum)
}

fn ask(memory: &mut impl Memory, index: u32, op: Op) -> Result<Entry, Refusal> {
    let element = element_of(index);
    let number = number_of(index);
    if number > WINDOW as u64 && number % WINDOW as u64 == 1 {
        let upto = number;
        memory.step(&Command::Confirm { element, upto })?;
    }
    let request = Request { element, number, op };
    match memory.step(&Command::Request(request))? {
        Outcome::Entry(entry) => Ok(entry),
        Outcome::Confirmed => Ok(Entry::Waiting),
    }
}

fn one_block<M: Memory>(kind: Kind) -> Result<M, Refusal> {
    let mut memory = M::new(MAX_CELLS, ELEMENTS);
    ask(&mut memory, 0, Op::Alloc(kind, MAX_CELLS))?;
    Ok(memory)
}

fn read(kind: Kind, a: u32) -> Op {
    match kind {
        Kind::I => Op::Fetch(a),
        Kind::M => Op::Take(a),
    }
}

fn write(kind: Kind, a: u32) -> Op {
    let value = a as u64 + 7;
    match kind {
        Kind::I => Op::Store(a, value),
        Kind::M => Op::Put(a, value),
    }
}

fn write_and_read<M: Memory>(kind: Kind, count: u32) -> Result<u64, Refusal> {
    let mut memory: M = one_block(kind)?;
    let mut sum = 0;
    for a in 0..count {
        let index = 2 * a + 1;
        sum = mixed(sum, ask(&mut memory, index, write(kind, a))?);
        sum = mixed(sum, ask(&mut memory, index + 1, read(kind, a))?);
    }
    with_windows(sum, &memory)
}

fn read_and_write<M: Memory>(kind: Kind, count: u32) -> Result<u64, Refusal> {
    let mut memory: M = one_block(kind)?;
    let mut sum = 0;
    for a in 0..count {
        let index = 2 * a + 1;
        sum = mixed(sum, ask(&mut memory, index, read(kind, a))?);
        sum = mixed(sum, ask(&mut memory, index + 1, write(kind, a))?);
        sum = mixed(sum, memory.collect(element_of(index), number_of(index))?);
    }
    with_windows(sum, &memory)
}

fn release_and_allocate<M: Memory>(count: u32) -> Result<u64, Refusal> {
    let mut memory = M::new(MAX_CELLS, ELEMENTS);
    let mut bases = [u32::MAX; 64];
    let mut seed = 1u32;
    let mut sum = 0;
    for round in 0..count {
        seed = seed.wrapping_mul(1_664_525).wrapping_add(1_013_904_223);
        let place = (seed >> 26) as usize;
        let n = (seed >> 16) % 16 + 1;
        let index = 4 * round;
        sum = mixed(sum, ask(&mut memory, index, Op::Release(bases[place]))?);
        let made = ask(&mut memory, index + 1, Op::Alloc(Kind::I, n))?;
        sum = mixed(sum, made);
        bases[place] = u32::MAX;
        if let Entry::Answered(Reply::Base(base)) = made {
            let last = base + n - 1;
            sum = mixed(sum, ask(&mut memory, index + 2, write(Kind::I, last))?);
            sum = mixed(sum, ask(&mut memory, index + 3, read(Kind::I, last))?);
            bases[place] = base;
        }
    }
    with_windows(sum, &memory)
}

fn checksum<M: Memory>(workload: &str, count: u32) -> Option<Result<u64, Refusal>> {
    Some(match workload {
        "store_and_fetch" => write_and_read::<M>(Kind::I, count),
        "put_and_take" => write_and_read::<M>(Kind::M, count),
        "fetch_and_store" => read_and_write::<M>(Kind::I, count),
        "take_and_put" => read_and_write::<M>(Kind::M, count),
        "release_and_allocate" => release_and_allocate::<M>(count),
        _ => return None,
    })
}

fn main() -> ExitCode {
    let words: Vec<String> = std::env::args().collect();
    let [_, memory, workload, count] = words.as_slice() else {
        eprintln!("usage: memory plain|tuned WORKLOAD COUNT");
        return ExitCode::from(2);
    };
    let sum = |count| match memory.as_str() {
        "plain" => checksum::<plain::Plain>(workload, count),
        "tuned" => checksum::<tuned::Tuned>(workload, count),
        _ => None,
    };
    match count.parse().ok().and_then(sum) {
        Some(Ok(sum)) => {
            println!("{workload} {count} {sum}");
            ExitCode::SUCCESS
        }
        Some(Err(refusal)) => {
            println!("refused {refusal:?}");
            ExitCode::FAILURE
        }
        None => ExitCode::from(2),
    }
}
