//! Five threads add to one counter, from Rust. The program may be killed at any moment, and is simply run again.
//!
//! usage: restarted IMAGE [UNITS]      It makes the image where there is none. Each thread adds 1 to the counter UNITS
//! times (20), whatever was killed in between; a unit is a take, a put, and `done`.

use luntrebis::{Limits, Result, Shared};
use std::thread;

const THREADS: u16 = 5;

/// Adds 1 until this element has done all its units: each made two requests, and was confirmed.
fn add(image: &Shared, number: u16, counter: u32, units: u64) -> Result<()> {
    let one = image.element(number);
    for _ in image.window(number)?.start / 2..units {
        let value = one.take(counter).wait()?;
        one.put(counter, value + 1).wait()?;
        drop(one.done()); // Nobody has to wait for it.
    }
    Ok(())
}

fn main() -> Result<()> {
    let mut words = std::env::args().skip(1);
    let path = words.next().expect("usage: restarted IMAGE [UNITS]");
    let units = words.next().map_or(20, |it| it.parse().expect("a number of units"));
    let image = Shared::open_or_create(path, Limits { cells: 16, elements: 2 + THREADS, slots: 64 })?;
    let (maker, reader) = (image.element(0), image.element(1 + THREADS));
    let counter = maker.alloc_m(1).wait()? as u32; // The same block in each run, as maker calls no `done`.
    maker.put(counter, 0).wait()?;
    let image = &image;
    thread::scope(|scope| {
        let threads: Vec<_> =
            (1..=THREADS).map(|number| scope.spawn(move || add(image, number, counter, units))).collect();
        threads.into_iter().try_for_each(|it| it.join().expect("a thread that adds"))
    })?;
    let count = reader.take(counter).wait()?;
    reader.put(counter, count).wait()?;
    reader.done().wait()?;
    println!("counted {count}");
    Ok(())
}
