//! A wavefront by six threads over one image, from Rust: each cell is the sum of the cell above and the cell to the left,
//! and 1 at the upper and left edges. Each row is an element with a thread of its own, which waits for the row above.
//!
//! usage: wavefront IMAGE      It makes the image where there is none. It may be killed at any moment, and is simply run
//! again: a request has the same number in each run, so what was asked before is answered as before.

use luntrebis::{Limits, Op, Request, Result, Shared};
use std::thread;

const SIDE: u32 = 6;

fn main() -> Result<()> {
    let path = std::env::args().nth(1).expect("usage: wavefront IMAGE");
    let shared = Shared::open_or_create(path, Limits { cells: SIDE * SIDE, elements: SIDE as u16, slots: 64 })?;
    shared.ask(Request { element: 0, number: 1, op: Op::AllocI(SIDE * SIDE) })?.value()?; // Its base is 0.
    let rows: Vec<_> = (0..SIDE).map(|row| (row, shared.clone())).collect();
    let threads = rows.into_iter().map(|(row, shared)| thread::spawn(move || fill(&shared, row)));
    let threads: Vec<_> = threads.collect();
    for thread in threads {
        let cells = thread.join().expect("a thread that fills a row")?;
        println!("{}", cells.iter().map(u64::to_string).collect::<Vec<_>>().join(" "));
    }
    Ok(())
}

/// Fills a row, as the row above comes to be there: by a fetch of each cell above, where there are some, and a store of each
/// cell behind them. No request waits for another one: what is there at the same time is put on the disk together.
fn fill(shared: &Shared, row: u32) -> Result<Vec<u64>> {
    let mut number = if row == 0 { 1 } else { 0 };
    let mut submit = |op| {
        number += 1;
        shared.submit(Request { element: row as u16, number, op })
    };
    let fetched = if row > 0 { SIDE } else { 0 };
    let above: Vec<_> = (0..fetched).map(|at| submit(Op::Fetch((row - 1) * SIDE + at))).collect();
    let (mut cells, mut stores, mut above) = (Vec::new(), Vec::new(), above.into_iter());
    for at in 0..SIDE {
        let above = above.next().map_or(Ok(0), |it| it.wait()?.value())?;
        let cell = match cells.last() {
            Some(left) if row > 0 => above + left,
            _ => 1,
        };
        stores.push(submit(Op::Store(row * SIDE + at, cell)));
        cells.push(cell);
    }
    for store in stores {
        store.wait()?.value()?;
    }
    Ok(cells)
}
