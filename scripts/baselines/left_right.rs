// The two copies of a left-right structure, written by hand. Readers mark that they read, and look at the copy that is
// shown. The writer changes the other copy and shows it. Then it waits until nobody reads the first copy any longer,
// and changes that.
//
// usage: left_right WORKLOAD COUNT      as im_bench_threads: readings, readings_beside, shows
use std::cell::UnsafeCell;
use std::sync::Arc;
use std::sync::atomic::{AtomicU64, AtomicUsize, Ordering, fence};
use std::{env, thread};

const CELLS: u32 = 65_536;
const READERS: usize = 16;

type Copy = Vec<Option<u64>>;

#[repr(align(128))]
struct Epoch(AtomicU64);

struct Both {
    copies: [UnsafeCell<Copy>; 2],
    shown: AtomicUsize,
    epochs: Vec<Epoch>,
}

// One writer alone changes a copy, and only a copy that nobody reads.
unsafe impl Sync for Both {}

#[derive(Clone, Copy)]
enum Change {
    Full(u32, u64),
    Gone(u32),
}

fn write(copy: &mut [Option<u64>], change: Change) {
    match change {
        Change::Full(a, value) => copy[a as usize] = Some(value),
        Change::Gone(a) => copy[a as usize] = None,
    }
}

fn address(index: u32) -> u32 {
    index.wrapping_mul(40_503) % CELLS
}

fn change(index: u32) -> Change {
    if index / CELLS % 2 == 0 { Change::Full(address(index), u64::from(index)) } else { Change::Gone(address(index)) }
}

impl Both {
    fn new() -> Both {
        let copy = || UnsafeCell::new(vec![None; CELLS as usize]);
        let epochs = (0..READERS).map(|_| Epoch(AtomicU64::new(0))).collect();
        Both { copies: [copy(), copy()], shown: AtomicUsize::new(0), epochs }
    }

    fn read(&self, reader: usize, a: u32) -> Option<u64> {
        let epoch = &self.epochs[reader].0;
        epoch.fetch_add(1, Ordering::SeqCst);
        let copy = unsafe { &*self.copies[self.shown.load(Ordering::SeqCst)].get() };
        let value = copy.get(a as usize).copied().flatten();
        epoch.fetch_add(1, Ordering::Release);
        value
    }

    fn show(&self, changes: &[Change]) {
        let hidden = 1 - self.shown.load(Ordering::Relaxed);
        let both = [hidden, 1 - hidden];
        for side in both {
            let copy = unsafe { &mut *self.copies[side].get() };
            changes.iter().for_each(|it| write(copy, *it));
            if side == hidden {
                self.shown.store(hidden, Ordering::SeqCst);
                fence(Ordering::SeqCst);
                self.wait();
            }
        }
    }

    fn wait(&self) {
        let seen: Vec<u64> = self.epochs.iter().map(|it| it.0.load(Ordering::SeqCst)).collect();
        for (epoch, before) in self.epochs.iter().zip(seen) {
            while before % 2 == 1 && epoch.0.load(Ordering::Acquire) == before {
                thread::yield_now();
            }
        }
    }

    fn show_all(&self, count: u32) -> u64 {
        let mut ahead = Vec::with_capacity(READERS);
        for index in 0..count {
            ahead.push(change(index));
            if index % 16 == 15 {
                self.show(&ahead);
                ahead.clear();
            }
        }
        u64::from(count)
    }

    fn read_all(&self, reader: usize, count: u32) -> u64 {
        (0..count).filter_map(|index| self.read(reader, address(index))).fold(0, u64::wrapping_add)
    }
}

fn beside(both: Arc<Both>, count: u32) -> u64 {
    let readers: Vec<_> = (0..3)
        .map(|reader| {
            let both = both.clone();
            thread::spawn(move || both.read_all(reader, count))
        })
        .collect();
    both.show_all(count / 4);
    readers.into_iter().map(|it| it.join().map_or(0, |_| 1)).sum()
}

fn main() {
    let words: Vec<String> = env::args().collect();
    let count: u32 = words[2].parse().unwrap();
    let both = Arc::new(Both::new());
    let sum = match words[1].as_str() {
        "readings" => {
            both.show_all(CELLS);
            both.read_all(0, count)
        }
        "readings_beside" => beside(both, count),
        _ => both.show_all(count),
    };
    println!("{} {count} {sum}", words[1]);
}
