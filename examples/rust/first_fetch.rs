//! A fetch that comes before its store, from Rust.

use luntrebis::{Memory, Op, Request, Result};

fn main() -> Result<()> {
    println!("no cells {:?}", Memory::new(0, 2).err());
    let mut memory = Memory::new(16, 2)?;
    let mut ask = |element, number, op| memory.ask(&Request { element, number, op });
    println!("block {:?}", ask(0, 1, Op::AllocI(4)));
    println!("fetch {:?}", ask(1, 1, Op::Fetch(2)));
    println!("store {:?}", ask(0, 2, Op::Store(2, 7)));
    println!("again {:?}", ask(0, 3, Op::Store(2, 8)));
    println!("reset {:?}", ask(0, 4, Op::Reset(0)));
    println!("gap {:?}", ask(1, 9, Op::Fetch(2)));
    println!("collected {:?}", memory.collect(1, 1));
    Ok(())
}
