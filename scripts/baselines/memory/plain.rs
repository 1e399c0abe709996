//! The memory written plainly: a Vec of cells, each with its own VecDeque of waiters, a VecDeque of entries for each
//! element, and BTreeMaps for blocks and for holes.

use super::{Entry, Judged, Kind, Memory, Op, Refusal, Reply, Request, Waiter, LAST, WINDOW};
use std::collections::{BTreeMap, VecDeque};

// The cells.

enum Cell {
    Empty,
    Waiting(VecDeque<Waiter>),
    Full(u64),
    Clashed(u64),
}

struct Block {
    length: u32,
    kind: Kind,
}

/// The cells, with their blocks and holes by base.
struct Cells {
    cells: Vec<Cell>,
    blocks: BTreeMap<u32, Block>,
    holes: BTreeMap<u32, u32>,
}

impl Cells {
    fn new(count: u32) -> Self {
        Cells {
            cells: (0..count).map(|_| Cell::Empty).collect(),
            blocks: BTreeMap::new(),
            holes: BTreeMap::from([(0, count)]),
        }
    }

    /// A cell of a block of this kind.
    fn look(&mut self, a: u32, kind: Kind) -> Result<&mut Cell, Reply> {
        match self.blocks.range(..=a).next_back() {
            Some((base, block)) if a - base < block.length => {
                if block.kind == kind {
                    Ok(&mut self.cells[a as usize])
                } else {
                    Err(Reply::WrongKind)
                }
            }
            _ => Err(Reply::NoCell),
        }
    }

    fn block(&mut self, base: u32, length: u32) -> &mut [Cell] {
        &mut self.cells[base as usize..(base + length) as usize]
    }

    fn allocate(&mut self, kind: Kind, n: u32) -> Reply {
        if n == 0 {
            return Reply::BadLength;
        }
        let Some((&base, &length)) = self.holes.iter().find(|&(_, &length)| length >= n) else {
            return Reply::NoSpace;
        };
        self.holes.remove(&base);
        if length > n {
            self.holes.insert(base + n, length - n);
        }
        self.blocks.insert(base, Block { length: n, kind });
        Reply::Base(base)
    }

    fn release(&mut self, base: u32) -> Reply {
        let Some(&Block { length, .. }) = self.blocks.get(&base) else {
            return Reply::NoBlock;
        };
        let cells = self.block(base, length);
        if cells.iter().any(|cell| matches!(cell, Cell::Waiting(_))) {
            return Reply::StillWaiting;
        }
        for cell in cells {
            *cell = Cell::Empty;
        }
        self.blocks.remove(&base);
        self.add_hole(base, length);
        Reply::Released
    }

    /// A new hole, in one with the holes beside it.
    fn add_hole(&mut self, mut base: u32, mut length: u32) {
        if let Some(behind) = self.holes.remove(&(base + length)) {
            length += behind;
        }
        if let Some((&before, &its)) = self.holes.range(..base).next_back() {
            if before + its == base {
                base = before;
                length += its;
            }
        }
        self.holes.insert(base, length);
    }
}

// The windows.

struct Kept {
    op: Op,
    entry: Entry,
}

/// What is kept for an element, numbered from a base on.
struct Window {
    base: u64,
    kept: VecDeque<Kept>,
}

impl Window {
    fn new() -> Self {
        Window {
            base: 1,
            kept: VecDeque::with_capacity(WINDOW),
        }
    }

    fn next(&self) -> u64 {
        self.base + self.kept.len() as u64
    }

    fn judge(&self, request: &Request) -> Result<Judged, Refusal> {
        if request.number < self.base {
            return Err(Refusal::Forgotten);
        }
        if let Some(kept) = self.kept.get((request.number - self.base) as usize) {
            return if kept.op == request.op {
                Ok(Judged::Repeat(kept.entry))
            } else {
                Err(Refusal::Mismatch)
            };
        }
        if request.number > self.next() || request.number > LAST {
            Err(Refusal::Gap)
        } else if self.kept.len() >= WINDOW {
            Err(Refusal::WindowFull)
        } else {
            Ok(Judged::Fresh)
        }
    }

    fn answer(&mut self, number: u64, reply: Reply) {
        self.kept[(number - self.base) as usize].entry = Entry::Answered(reply);
    }

    fn entry(&self, number: u64) -> Result<Entry, Refusal> {
        if number < self.base {
            return Err(Refusal::Forgotten);
        }
        match self.kept.get((number - self.base) as usize) {
            Some(kept) => Ok(kept.entry),
            None => Err(Refusal::Gap),
        }
    }

    fn confirm(&mut self, upto: u64) -> Result<(), Refusal> {
        if upto > self.next() {
            return Err(Refusal::Gap);
        }
        let count = upto.saturating_sub(self.base) as usize;
        let mut dropped = self.kept.iter().take(count);
        if dropped.any(|kept| kept.entry == Entry::Waiting) {
            return Err(Refusal::NotAnswered);
        }
        self.kept.drain(..count);
        self.base += count as u64;
        Ok(())
    }
}

// The memory.

pub struct Plain {
    cells: Cells,
    windows: Vec<Window>,
}

impl Memory for Plain {
    fn new(cells: u32, elements: u32) -> Self {
        Plain {
            cells: Cells::new(cells),
            windows: (0..elements).map(|_| Window::new()).collect(),
        }
    }

    fn request(&mut self, request: &Request) -> Result<Entry, Refusal> {
        match self.element(request.element)?.judge(request)? {
            Judged::Repeat(entry) => Ok(entry),
            Judged::Fresh => {
                let who = Waiter {
                    element: request.element,
                    number: request.number,
                };
                let entry = self.act(who, request.op);
                let op = request.op;
                self.windows[request.element as usize].kept.push_back(Kept { op, entry });
                Ok(entry)
            }
        }
    }

    fn confirm(&mut self, element: u16, upto: u64) -> Result<(), Refusal> {
        self.windows.get_mut(element as usize).ok_or(Refusal::NoElement)?.confirm(upto)
    }

    fn collect(&self, element: u16, number: u64) -> Result<Entry, Refusal> {
        self.element(element)?.entry(number)
    }

    fn window(&self, element: u16) -> Result<(u64, u64), Refusal> {
        let window = self.element(element)?;
        Ok((window.base, window.next()))
    }
}

impl Plain {
    fn element(&self, element: u16) -> Result<&Window, Refusal> {
        self.windows.get(element as usize).ok_or(Refusal::NoElement)
    }

    fn act(&mut self, who: Waiter, op: Op) -> Entry {
        let done = match op {
            Op::Alloc(kind, n) => Ok(Entry::Answered(self.cells.allocate(kind, n))),
            Op::Release(a) => Ok(Entry::Answered(self.cells.release(a))),
            Op::Fetch(a) => self.fetch(a, who),
            Op::Store(a, value) => self.store(a, value),
            Op::Take(a) => self.take(a, who),
            Op::Put(a, value) => self.put(a, value),
        };
        done.unwrap_or_else(Entry::Answered)
    }

    fn fetch(&mut self, a: u32, who: Waiter) -> Result<Entry, Reply> {
        let cell = self.cells.look(a, Kind::I)?;
        Ok(match cell {
            Cell::Empty => {
                *cell = Cell::Waiting(VecDeque::from([who]));
                Entry::Waiting
            }
            Cell::Waiting(readers) => {
                readers.push_back(who);
                Entry::Waiting
            }
            Cell::Full(value) => Entry::Answered(Reply::Value(*value)),
            Cell::Clashed(_) => Entry::Answered(Reply::Clash),
        })
    }

    fn store(&mut self, a: u32, value: u64) -> Result<Entry, Reply> {
        let cell = self.cells.look(a, Kind::I)?;
        let reply = match std::mem::replace(cell, Cell::Full(value)) {
            Cell::Empty => Reply::Stored,
            Cell::Waiting(readers) => {
                for reader in readers {
                    self.windows[reader.element as usize].answer(reader.number, Reply::Value(value));
                }
                Reply::Stored
            }
            Cell::Full(kept) | Cell::Clashed(kept) => {
                *cell = Cell::Clashed(kept);
                Reply::Clash
            }
        };
        Ok(Entry::Answered(reply))
    }

    fn take(&mut self, a: u32, who: Waiter) -> Result<Entry, Reply> {
        let cell = self.cells.look(a, Kind::M)?;
        Ok(match cell {
            Cell::Empty => {
                *cell = Cell::Waiting(VecDeque::from([who]));
                Entry::Waiting
            }
            Cell::Waiting(takers) => {
                takers.push_back(who);
                Entry::Waiting
            }
            Cell::Full(value) => {
                let value = *value;
                *cell = Cell::Empty;
                Entry::Answered(Reply::Value(value))
            }
            Cell::Clashed(_) => Entry::Answered(Reply::Clash),
        })
    }

    fn put(&mut self, a: u32, value: u64) -> Result<Entry, Reply> {
        let cell = self.cells.look(a, Kind::M)?;
        let reply = match cell {
            Cell::Empty => {
                *cell = Cell::Full(value);
                Reply::Stored
            }
            Cell::Waiting(takers) => {
                let taker = takers.pop_front();
                if takers.is_empty() {
                    *cell = Cell::Empty;
                }
                if let Some(taker) = taker {
                    self.windows[taker.element as usize].answer(taker.number, Reply::Value(value));
                }
                Reply::Stored
            }
            Cell::Full(kept) => {
                *cell = Cell::Clashed(*kept);
                Reply::Clash
            }
            Cell::Clashed(_) => Reply::Clash,
        };
        Ok(Entry::Answered(reply))
    }
}
