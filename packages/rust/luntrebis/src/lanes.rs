//! Elements by lease.

use crate::pending::{Told, Value};
use crate::shared::{lock, Numbered, Shared, LENT};
use crate::words::{Op, Request};
use std::collections::VecDeque;
use std::sync::{Arc, Mutex};

/// Elements by lease: nobody else gets them before this is dropped, and then each as soon as none of its requests waits.
/// Their requests get new numbers.
///
/// If there are several, the first has what is answered at once, and the others share what may wait: a fetch or a take
/// goes to the one with the most room in its window. If a take is given up, as its [`Value`] is dropped, the next take of
/// its cell by a lease gets the value. If none is made before the value comes, it is put back. So a time-out loses nothing,
/// and of what waited when the program was killed nothing is lost either. A value that it had by then is lost to it.
#[derive(Debug)]
pub struct Lanes {
    shared: Shared,
    lanes: Mutex<Vec<Lane>>,
}

/// A leased element, with its requests from the oldest that isn't answered on.
#[derive(Debug)]
struct Lane {
    number: u16,
    asked: VecDeque<Arc<Told>>,
}

impl Lane {
    /// Returns how many entries can't be confirmed yet.
    fn used(&mut self) -> usize {
        while self.asked.front().is_some_and(|it| it.is_over()) {
            self.asked.pop_front();
        }
        self.asked.len()
    }
}

impl Lanes {
    requests!();

    pub(crate) fn new(shared: Shared, numbers: Vec<u16>) -> Lanes {
        let lanes = numbers.into_iter().map(|number| Lane { number, asked: VecDeque::new() }).collect();
        Lanes { shared, lanes: Mutex::new(lanes) }
    }

    /// Returns the numbers of its elements.
    pub fn numbers(&self) -> Vec<u16> {
        lock(&self.lanes).iter().map(|it| it.number).collect()
    }

    pub(crate) fn ask(&self, op: Op) -> Value {
        let left = &self.shared.inner.left[LENT];
        if let Some(found) = left.find((0, op)) {
            return Value(found);
        }
        let mut lanes = lock(&self.lanes);
        let first = usize::from(lanes.len() > 1 && matches!(op, Op::Fetch(_) | Op::Take(_)));
        let last = if first == 0 { 1 } else { lanes.len() };
        let used = lanes[first..last].iter_mut().map(|it| (it.used(), it));
        let (_, lane) = used.min_by_key(|(used, _)| *used).expect("a lease has an element");
        let request = Request { element: lane.number, number: 0, op };
        let pending = self.shared.send_to_keep(request, Numbered::Anew, left, (0, op), true);
        lane.asked.push_back(pending.told.clone());
        Value(pending)
    }
}

impl Drop for Lanes {
    fn drop(&mut self) {
        let mut elements = lock(&self.shared.inner.elements);
        for number in self.numbers() {
            elements.leased.remove(&number);
        }
    }
}
