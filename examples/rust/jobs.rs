//! Three workers take numbers out of a queue and add their squares, from Rust, with the helpers of the package. The
//! program may be killed at any moment, and is simply run again: each number is added once.
//!
//! usage: jobs IMAGE [JOBS]      It makes the image where there is none. There are JOBS numbers (40), from 1 on.

use luntrebis::{
    fetch_bytes, layout, store_bytes, Block, Cells, Counter, Element, Error, Limits, Queue, Result, Shared,
};
use std::thread;

/// The blocks of the program.
#[derive(Clone, Copy)]
struct Blocks {
    queue: Block,
    text: Block,
    end: Block,
    made: Block,
    total: Block,
    over: Block,
    stored: Block,
}

/// Puts the numbers that weren't put yet. Each is a unit of work.
fn make(one: &Element, blocks: Blocks, jobs: u64) -> Result<()> {
    let made = Counter::new(one, blocks.made);
    loop {
        let last = made.read()?;
        if last < jobs {
            Queue::new(one, blocks.queue).put(last + 1)?;
            made.add(1)?;
        }
        one.done().wait()?;
        if last >= jobs {
            return Ok(());
        }
    }
}

/// Adds squares until the program ends. Whoever adds the last one says so.
fn work(one: &Element, blocks: Blocks, jobs: u64) -> Result<()> {
    loop {
        let job = Queue::new(one, blocks.queue).get()?;
        Counter::new(one, blocks.total).add(job * job)?;
        if Counter::new(one, blocks.over).add(1)? == jobs {
            one.store(blocks.end.at(0), jobs).wait()?;
        }
        one.done().wait()?;
    }
}

/// Keeps a text with the result twenty times, once all is added, and returns a line of it.
fn report(image: &Shared, blocks: Blocks) -> Result<String> {
    let jobs = image.lease(1)?.fetch(blocks.end.at(0)).wait()?;
    let reader = image.element(5);
    let total = Counter::new(&reader, blocks.total).read()?;
    reader.done().wait()?;
    let text = format!("the squares of {jobs} numbers are {total}\n").repeat(20);
    store_bytes(&image.element(6), blocks.text, blocks.stored, text.as_bytes())?;
    let kept = fetch_bytes(&image.lease(1)?, blocks.text)?;
    assert_eq!(kept, text.as_bytes());
    Ok(text.lines().next().unwrap_or_default().to_owned())
}

fn main() -> Result<()> {
    let mut words = std::env::args().skip(1);
    let path = words.next().expect("usage: jobs IMAGE [JOBS]");
    let jobs = words.next().map_or(40, |it| it.parse().expect("a number of jobs"));
    let image = Shared::open_or_create(path, Limits { cells: 512, elements: 16, slots: 64 })?;
    let counters = [Cells::counter(), Cells::counter(), Cells::counter(), Cells::counter()];
    let [made, total, over, stored] = counters;
    let cells = [Cells::queue(8), Cells::i(256), Cells::i(1), made, total, over, stored];
    let [queue, text, end, made, total, over, stored] = layout(&image, cells)?;
    let blocks = Blocks { queue, text, end, made, total, over, stored };
    for number in 1..5 {
        let (one, does) = (image.element(number), if number == 1 { make } else { work });
        thread::spawn(move || match does(&one, blocks, jobs) {
            Ok(()) | Err(Error::Closed) => {}
            Err(error) => panic!("{error}"),
        });
    }
    println!("{}", report(&image, blocks)?);
    Ok(())
}
