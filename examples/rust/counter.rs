//! A counter in an image file, from Rust. Each answer is printed as the file has it.
//!
//! usage: counter IMAGE      It makes the image where there is none. A run that was stopped is simply run again: what was
//! asked before is answered as before, as the same is asked under the same numbers, 64 at most.

use luntrebis::{Image, Limits, Op, Reply, Request, Result};
use std::io::Write;

struct Counter {
    image: Image,
    number: u64,
}

impl Counter {
    /// Asks the next request, and tells what it came to.
    fn ask(&mut self, op: Op) -> Result<u64> {
        self.number += 1;
        let reply = self.image.ask(&Request { element: 0, number: self.number, op })?;
        let (number, mut out) = (self.number, std::io::stdout());
        match reply {
            Reply::Base(base) => writeln!(out, "0.{number} base {base}")?,
            Reply::Value(value) => writeln!(out, "0.{number} value {value}")?,
            other => writeln!(out, "0.{number} {}", format!("{other:?}").to_lowercase())?,
        }
        out.flush()?;
        reply.value()
    }
}

fn main() -> Result<()> {
    let path = std::env::args().nth(1).expect("usage: counter IMAGE");
    let limits = Limits { cells: 16, elements: 1, slots: 16 };
    let mut counter = Counter { image: Image::open_or_create(&path, limits)?, number: 0 };
    let cell = counter.ask(Op::AllocM(1))? as u32;
    counter.ask(Op::Put(cell, 0))?;
    for _ in 0..6 {
        let count = counter.ask(Op::Take(cell))?;
        counter.ask(Op::Put(cell, count + 1))?;
    }
    println!("counted {}", counter.ask(Op::Take(cell))?);
    Ok(())
}
