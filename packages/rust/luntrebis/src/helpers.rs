//! Named blocks, a counter, a queue and bytes, over the requests of an element.

use crate::lanes::Lanes;
use crate::pending::Value;
use crate::shared::{Element, ElementAnew, Shared};
use crate::words::{Op, Result};

/// What makes requests: an element, or a lease.
///
/// With [`Element`] a program that was killed makes the requests of a helper again, and they act once. So a unit of work
/// may hold several helpers, up to 64 requests, before its `done`.
pub trait Asks {
    /// Sends a request.
    fn ask(&self, op: Op) -> Value;
}

impl Asks for Element {
    fn ask(&self, op: Op) -> Value {
        Element::ask(self, op)
    }
}

impl Asks for ElementAnew {
    fn ask(&self, op: Op) -> Value {
        ElementAnew::ask(self, op)
    }
}

impl Asks for Lanes {
    fn ask(&self, op: Op) -> Value {
        Lanes::ask(self, op)
    }
}

/// Cells in a row.
#[derive(Clone, Copy, Debug, PartialEq, Eq)]
pub struct Block {
    /// The address of the first one.
    pub base: u32,
    /// How many there are.
    pub length: u32,
}

impl Block {
    /// Returns the address of a cell of the block, counted from 0. Panics if it has no such cell.
    pub fn at(&self, index: u32) -> u32 {
        assert!(index < self.length, "a block of {} cells has no cell {index}", self.length);
        self.base + index
    }
}

/// What a block is to be made of.
#[derive(Clone, Debug)]
pub struct Cells {
    is_m: bool,
    length: u32,
    values: Vec<u64>,
}

impl Cells {
    /// So many I cells.
    pub fn i(length: u32) -> Cells {
        Cells { is_m: false, length, values: Vec::new() }
    }

    /// So many M cells.
    pub fn m(length: u32) -> Cells {
        Cells { is_m: true, ..Cells::i(length) }
    }

    /// The same, with values in the first cells.
    pub fn with(self, values: &[u64]) -> Cells {
        Cells { values: values.to_vec(), ..self }
    }

    /// The cells of a [`Counter`].
    pub fn counter() -> Cells {
        Cells::m(1).with(&[0])
    }

    /// The cells of a [`Queue`] with so many places.
    pub fn queue(places: u32) -> Cells {
        Cells::m(2 * places + 2).with(&[0, 0])
    }
}

/// Makes blocks, or finds them again: `let [queue, state] = layout(&image, [Cells::i(200), Cells::m(2)])?`.
///
/// Element 0 asks for them, under the numbers from 1 on, and confirms nothing. So each run gets the same blocks, if it
/// names the same ones in the same order; new ones come last. Ask nothing else of element 0. A block is a request, and so
/// is each value: 64 in all.
pub fn layout<const N: usize>(image: &Shared, cells: [Cells; N]) -> Result<[Block; N]> {
    let (maker, mut blocks) = (image.element(0), [Block { base: 0, length: 0 }; N]);
    for (block, Cells { is_m, length, values }) in blocks.iter_mut().zip(cells) {
        let base = maker.ask(if is_m { Op::AllocM(length) } else { Op::AllocI(length) }).wait()? as u32;
        *block = Block { base, length };
        let fill = |(at, value): (usize, &u64)| {
            let address = block.at(at as u32);
            maker.ask(if is_m { Op::Put(address, *value) } else { Op::Store(address, *value) })
        };
        let filled: Vec<_> = values.iter().enumerate().map(fill).collect();
        filled.into_iter().try_for_each(|it| it.wait().map(drop))?;
    }
    Ok(blocks)
}

/// A number in an M cell, to which any number of elements add.
#[derive(Debug)]
pub struct Counter<'a, A> {
    one: &'a A,
    block: Block,
}

impl<'a, A: Asks> Counter<'a, A> {
    /// The counter of a block, by this element.
    pub fn new(one: &'a A, block: Block) -> Counter<'a, A> {
        Counter { one, block }
    }

    /// Adds to the number. Returns what it is then. It is two requests.
    pub fn add(&self, amount: u64) -> Result<u64> {
        let value = self.one.ask(Op::Take(self.block.at(0))).wait()? + amount;
        self.one.ask(Op::Put(self.block.at(0), value)).wait()?;
        Ok(value)
    }

    /// Returns the number. It is two requests.
    pub fn read(&self) -> Result<u64> {
        self.add(0)
    }
}

/// A queue of numbers, for any number of elements that put and get.
///
/// A `put` waits while all places are taken, a `get` while there is nothing. Each is at most four requests.
#[derive(Debug)]
pub struct Queue<'a, A> {
    one: &'a A,
    block: Block,
    places: u32,
}

// The block has the next place to get, the next one to put, a mark for each place that was emptied, and the places.
impl<'a, A: Asks> Queue<'a, A> {
    /// The queue of a block, by this element.
    pub fn new(one: &'a A, block: Block) -> Queue<'a, A> {
        Queue { one, block, places: block.length / 2 - 1 }
    }

    /// Puts a number behind the others. Returns its place, counted from 0.
    pub fn put(&self, value: u64) -> Result<u64> {
        let (at, place) = self.next(1)?;
        if at >= u64::from(self.places) {
            self.one.ask(Op::Take(self.block.at(2 + place))).wait()?;
        }
        self.one.ask(Op::Put(self.block.at(2 + self.places + place), value)).wait()?;
        Ok(at)
    }

    /// Takes the first number out.
    pub fn get(&self) -> Result<u64> {
        let (_, place) = self.next(0)?;
        let value = self.one.ask(Op::Take(self.block.at(2 + self.places + place))).wait()?;
        self.one.ask(Op::Put(self.block.at(2 + place), 0)).wait()?;
        Ok(value)
    }

    /// Takes the next number at one of the queue's ends. Returns it, and its place.
    fn next(&self, end: u32) -> Result<(u64, u32)> {
        let at = Counter::new(self.one, Block { base: self.block.at(end), length: 1 }).add(1)? - 1;
        Ok((at, (at % u64::from(self.places)) as u32))
    }
}

/// The most requests that are under way together.
const AT_ONCE: usize = 48;

/// Fetches so many I cells, each once it is stored. With a lease or an [`ElementAnew`] there may be any number of them.
pub fn fetch_range(one: &impl Asks, base: u32, count: u32) -> Result<Vec<u64>> {
    let mut values = Vec::with_capacity(count as usize);
    let addresses: Vec<u32> = (base..base + count).collect();
    for part in addresses.chunks(AT_ONCE) {
        let asked: Vec<_> = part.iter().map(|it| one.ask(Op::Fetch(*it))).collect();
        for value in asked {
            values.push(value.wait()?);
        }
    }
    Ok(values)
}

/// Stores bytes in an I block: their length, and eight in each cell behind it. Panics if the block has too few cells.
///
/// `place` is a counter's block of its own, which says how many cells are stored. So there may be any number of them, and
/// after a kill the same call goes on. It calls `done` of the element: use one that has nothing else to confirm.
pub fn store_bytes(one: &Element, block: Block, place: Block, data: &[u8]) -> Result<()> {
    let mut words = vec![data.len() as u64];
    words.extend(data.chunks(8).map(|it| it.iter().rev().fold(0, |word, byte| word << 8 | u64::from(*byte))));
    assert!(words.len() <= block.length as usize, "{} cells for {} words", block.length, words.len());
    loop {
        let at = one.take(place.at(0)).wait()? as usize;
        let part = &words[at..words.len().min(at + AT_ONCE)];
        let stores = part.iter().zip(at..).map(|(word, at)| one.store(block.at(at as u32), *word));
        let stores: Vec<_> = stores.collect();
        stores.into_iter().try_for_each(|it| it.wait().map(drop))?;
        one.put(place.at(0), (at + part.len()) as u64).wait()?;
        one.done().wait()?;
        if at + part.len() == words.len() {
            return Ok(());
        }
    }
}

/// Fetches the bytes of [`store_bytes`], once they are there.
pub fn fetch_bytes(one: &impl Asks, block: Block) -> Result<Vec<u8>> {
    let length = one.ask(Op::Fetch(block.at(0))).wait()? as usize;
    let words = fetch_range(one, block.base + 1, ((length + 7) / 8) as u32)?;
    Ok(words.iter().flat_map(|it| it.to_le_bytes()).take(length).collect())
}
