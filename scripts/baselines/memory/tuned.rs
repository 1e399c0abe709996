//! The memory tuned by hand: flat arrays and no map. A cell outside of all blocks has a tag of its own, so that an access
//! is one look. A block costs a step for each of its cells when it is made and released.

use super::{Entry, Judged, Kind, Memory, Op, Refusal, Reply, Request, Waiter, LAST, WINDOW};

const NONE: u32 = u32::MAX;

// The cells.

#[derive(Clone, Copy, PartialEq, Eq)]
enum Tag {
    Outside,
    Empty,
    Waiting,
    Full,
    Clashed,
}

#[derive(Clone, Copy)]
struct Cell {
    tag: Tag,
    kind: Kind,
    /// The value, or the first and the last waiter's node.
    word: u64,
}

#[derive(Clone, Copy)]
struct Node {
    who: Waiter,
    next: u32,
}

/// The cells, the length of the block that begins at each, the holes in their order, and the nodes of those who wait.
struct Cells {
    cells: Vec<Cell>,
    lengths: Vec<u32>,
    holes: Vec<(u32, u32)>,
    nodes: Vec<Node>,
    free: u32,
}

const OUTSIDE: Cell = Cell {
    tag: Tag::Outside,
    kind: Kind::I,
    word: 0,
};

fn ends(word: u64) -> (u32, u32) {
    (word as u32, (word >> 32) as u32)
}

fn list(first: u32, last: u32) -> u64 {
    first as u64 | (last as u64) << 32
}

impl Cells {
    fn new(count: u32, waiters: usize) -> Self {
        let who = Waiter {
            element: 0,
            number: 0,
        };
        Cells {
            cells: vec![OUTSIDE; count as usize],
            lengths: vec![0; count as usize],
            holes: vec![(0, count)],
            nodes: (1..=waiters as u32).map(|next| Node { who, next }).collect(),
            free: 0,
        }
    }

    /// A cell of a block of this kind.
    #[inline]
    fn look(&mut self, a: u32, kind: Kind) -> Result<&mut Cell, Reply> {
        match self.cells.get_mut(a as usize) {
            Some(cell) if cell.tag != Tag::Outside => {
                if cell.kind == kind {
                    Ok(cell)
                } else {
                    Err(Reply::WrongKind)
                }
            }
            _ => Err(Reply::NoCell),
        }
    }

    fn allocate(&mut self, kind: Kind, n: u32) -> Reply {
        if n == 0 {
            return Reply::BadLength;
        }
        let Some(at) = self.holes.iter().position(|hole| hole.1 >= n) else {
            return Reply::NoSpace;
        };
        let (base, length) = self.holes[at];
        if length > n {
            self.holes[at] = (base + n, length - n);
        } else {
            self.holes.remove(at);
        }
        let cell = Cell {
            tag: Tag::Empty,
            kind,
            word: 0,
        };
        self.cells[base as usize..(base + n) as usize].fill(cell);
        self.lengths[base as usize] = n;
        Reply::Base(base)
    }

    fn release(&mut self, base: u32) -> Reply {
        let length = self.lengths.get(base as usize).copied().unwrap_or(0);
        if length == 0 {
            return Reply::NoBlock;
        }
        let cells = &mut self.cells[base as usize..(base + length) as usize];
        if cells.iter().any(|cell| cell.tag == Tag::Waiting) {
            return Reply::StillWaiting;
        }
        cells.fill(OUTSIDE);
        self.lengths[base as usize] = 0;
        self.add_hole(base, length);
        Reply::Released
    }

    /// A new hole, in one with the holes beside it.
    fn add_hole(&mut self, base: u32, length: u32) {
        let at = self.holes.partition_point(|hole| hole.0 < base);
        let joins_behind = at < self.holes.len() && self.holes[at].0 == base + length;
        let joins_before = at > 0 && self.holes[at - 1].0 + self.holes[at - 1].1 == base;
        match (joins_before, joins_behind) {
            (true, true) => {
                self.holes[at - 1].1 += length + self.holes[at].1;
                self.holes.remove(at);
            }
            (true, false) => self.holes[at - 1].1 += length,
            (false, true) => self.holes[at] = (base, length + self.holes[at].1),
            (false, false) => self.holes.insert(at, (base, length)),
        }
    }

    /// Puts a request behind those that wait at a cell. There is a node for each, as its entry is kept.
    fn defer(&mut self, a: u32, who: Waiter) -> Entry {
        let node = self.free;
        self.free = self.nodes[node as usize].next;
        self.nodes[node as usize] = Node { who, next: NONE };
        let cell = &mut self.cells[a as usize];
        let first = if cell.tag == Tag::Waiting {
            let (first, last) = ends(cell.word);
            self.nodes[last as usize].next = node;
            first
        } else {
            node
        };
        cell.tag = Tag::Waiting;
        cell.word = list(first, node);
        Entry::Waiting
    }

    /// Takes a node from its list. Returns its request and the next node.
    fn resume(&mut self, node: u32) -> (Waiter, u32) {
        let Node { who, next } = self.nodes[node as usize];
        self.nodes[node as usize].next = self.free;
        self.free = node;
        (who, next)
    }
}

// The windows.

#[derive(Clone, Copy)]
struct Kept {
    op: Op,
    entry: Entry,
}

/// What is kept for an element, numbered from a base on: a ring, in which a number has its place for good.
struct Window {
    base: u64,
    next: u64,
    kept: [Kept; WINDOW],
}

fn place(number: u64) -> usize {
    number as usize % WINDOW
}

impl Window {
    fn new() -> Self {
        let nothing = Kept {
            op: Op::Fetch(0),
            entry: Entry::Waiting,
        };
        Window {
            base: 1,
            next: 1,
            kept: [nothing; WINDOW],
        }
    }

    #[inline]
    fn judge(&self, request: &Request) -> Result<Judged, Refusal> {
        let number = request.number;
        if number == self.next && number - self.base < WINDOW as u64 && number <= LAST {
            return Ok(Judged::Fresh);
        }
        if number < self.base {
            return Err(Refusal::Forgotten);
        }
        if number < self.next {
            let kept = &self.kept[place(number)];
            return if kept.op == request.op {
                Ok(Judged::Repeat(kept.entry))
            } else {
                Err(Refusal::Mismatch)
            };
        }
        if number > self.next || number > LAST {
            Err(Refusal::Gap)
        } else {
            Err(Refusal::WindowFull)
        }
    }

    fn confirm(&mut self, upto: u64) -> Result<(), Refusal> {
        if upto > self.next {
            return Err(Refusal::Gap);
        }
        if (self.base..upto).any(|number| self.kept[place(number)].entry == Entry::Waiting) {
            return Err(Refusal::NotAnswered);
        }
        self.base = self.base.max(upto);
        Ok(())
    }
}

// The memory.

pub struct Tuned {
    cells: Cells,
    windows: Vec<Window>,
}

impl Memory for Tuned {
    fn new(cells: u32, elements: u32) -> Self {
        Tuned {
            cells: Cells::new(cells, WINDOW * elements as usize),
            windows: (0..elements).map(|_| Window::new()).collect(),
        }
    }

    #[inline]
    fn request(&mut self, request: &Request) -> Result<Entry, Refusal> {
        match self.element(request.element)?.judge(request)? {
            Judged::Repeat(entry) => Ok(entry),
            Judged::Fresh => {
                let who = Waiter {
                    element: request.element,
                    number: request.number,
                };
                let entry = self.act(who, request.op).unwrap_or_else(Entry::Answered);
                let window = &mut self.windows[request.element as usize];
                window.kept[place(request.number)] = Kept {
                    op: request.op,
                    entry,
                };
                window.next += 1;
                Ok(entry)
            }
        }
    }

    fn confirm(&mut self, element: u16, upto: u64) -> Result<(), Refusal> {
        self.windows.get_mut(element as usize).ok_or(Refusal::NoElement)?.confirm(upto)
    }

    fn collect(&self, element: u16, number: u64) -> Result<Entry, Refusal> {
        let window = self.element(element)?;
        if number < window.base {
            Err(Refusal::Forgotten)
        } else if number >= window.next {
            Err(Refusal::Gap)
        } else {
            Ok(window.kept[place(number)].entry)
        }
    }

    fn window(&self, element: u16) -> Result<(u64, u64), Refusal> {
        let window = self.element(element)?;
        Ok((window.base, window.next))
    }
}

impl Tuned {
    fn element(&self, element: u16) -> Result<&Window, Refusal> {
        self.windows.get(element as usize).ok_or(Refusal::NoElement)
    }

    #[inline]
    fn act(&mut self, who: Waiter, op: Op) -> Result<Entry, Reply> {
        match op {
            Op::Alloc(kind, n) => Err(self.cells.allocate(kind, n)),
            Op::Release(a) => Err(self.cells.release(a)),
            Op::Fetch(a) => {
                let cell = self.cells.look(a, Kind::I)?;
                match cell.tag {
                    Tag::Full => Err(Reply::Value(cell.word)),
                    Tag::Clashed => Err(Reply::Clash),
                    _ => Ok(self.cells.defer(a, who)),
                }
            }
            Op::Store(a, value) => self.store(a, value),
            Op::Take(a) => {
                let cell = self.cells.look(a, Kind::M)?;
                match cell.tag {
                    Tag::Full => {
                        cell.tag = Tag::Empty;
                        Err(Reply::Value(cell.word))
                    }
                    Tag::Clashed => Err(Reply::Clash),
                    _ => Ok(self.cells.defer(a, who)),
                }
            }
            Op::Put(a, value) => self.put(a, value),
        }
    }

    fn answer(&mut self, who: Waiter, value: u64) {
        self.windows[who.element as usize].kept[place(who.number)].entry = Entry::Answered(Reply::Value(value));
    }

    #[inline]
    fn store(&mut self, a: u32, value: u64) -> Result<Entry, Reply> {
        let cell = self.cells.look(a, Kind::I)?;
        let old = *cell;
        if old.tag == Tag::Full || old.tag == Tag::Clashed {
            cell.tag = Tag::Clashed;
            return Err(Reply::Clash);
        }
        cell.tag = Tag::Full;
        cell.word = value;
        if old.tag == Tag::Waiting {
            let (mut node, _) = ends(old.word);
            while node != NONE {
                let (who, next) = self.cells.resume(node);
                self.answer(who, value);
                node = next;
            }
        }
        Err(Reply::Stored)
    }

    #[inline]
    fn put(&mut self, a: u32, value: u64) -> Result<Entry, Reply> {
        let cell = self.cells.look(a, Kind::M)?;
        match cell.tag {
            Tag::Full | Tag::Clashed => {
                cell.tag = Tag::Clashed;
                return Err(Reply::Clash);
            }
            Tag::Waiting => {
                let (first, last) = ends(cell.word);
                let (who, next) = self.cells.resume(first);
                let cell = &mut self.cells.cells[a as usize];
                cell.tag = if next == NONE { Tag::Empty } else { Tag::Waiting };
                cell.word = list(next, last);
                self.answer(who, value);
            }
            _ => {
                cell.tag = Tag::Full;
                cell.word = value;
            }
        }
        Err(Reply::Stored)
    }
}
