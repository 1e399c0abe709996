//! The answer that comes later, and what becomes of it if nobody has it (decision 880).

use crate::shared::{lock, Inner};
use crate::words::{Error, Op, Reply, Result};
use std::collections::{HashMap, VecDeque};
use std::future::Future;
use std::pin::Pin;
use std::sync::{Arc, Condvar, Mutex, PoisonError, Weak};
use std::task::{Context, Poll, Waker};
use std::time::{Duration, Instant};

/// The answer to a request, which comes later. It is a future, or a thread waits for it.
///
/// If it is dropped before, the request stays in the memory, and is answered under its number.
#[derive(Debug)]
#[must_use = "it may be refused"]
pub struct Pending {
    pub(crate) told: Arc<Told>,
}

impl Pending {
    /// Blocks the thread until the request is answered.
    pub fn wait(self) -> Result<Reply> {
        let mut slot = lock(&self.told.slot);
        loop {
            if let Some(answer) = slot.get() {
                return answer;
            }
            slot = self.told.there.wait(slot).unwrap_or_else(PoisonError::into_inner);
        }
    }

    /// Blocks the thread until the request is answered, at most so long. Returns `None` if it isn't: wait again.
    pub fn wait_for(&mut self, timeout: Duration) -> Option<Result<Reply>> {
        let (mut slot, end) = (lock(&self.told.slot), Instant::now() + timeout);
        loop {
            let left = end.saturating_duration_since(Instant::now());
            if slot.answer.is_some() || left.is_zero() {
                return slot.get();
            }
            slot = self.told.there.wait_timeout(slot, left).unwrap_or_else(PoisonError::into_inner).0;
        }
    }

    /// Returns the value of a reply, or the error that says of what it is.
    fn valued(told: &Told, reply: Result<Reply>) -> Result<u64> {
        reply?.value().map_err(|it| it.of(&lock(&told.slot).of))
    }

    /// Whether the request is answered.
    pub fn is_ready(&self) -> bool {
        lock(&self.told.slot).answer.is_some()
    }
}

impl From<Error> for Pending {
    /// What is answered already.
    fn from(error: Error) -> Pending {
        let told = Arc::<Told>::default();
        Teller { told: told.clone() }.tell(Err(error));
        Pending { told }
    }
}

impl Future for Pending {
    type Output = Result<Reply>;

    fn poll(self: Pin<&mut Self>, context: &mut Context<'_>) -> Poll<Result<Reply>> {
        let mut slot = lock(&self.told.slot);
        match slot.get() {
            Some(answer) => Poll::Ready(answer),
            None => {
                slot.waker = Some(context.waker().clone());
                Poll::Pending
            }
        }
    }
}

impl Drop for Pending {
    fn drop(&mut self) {
        if let Some(home) = &self.told.home {
            home.keep(&self.told);
        }
    }
}

/// A value, a base, or 0, which comes later. It is a future, or a thread waits for it. A reply that is an error gives
/// [`Error::Answered`].
///
/// If that of a fetch or a take is dropped before, as by a time-out, the request is given up. It stays in the memory, and
/// the same call of the element gets its answer. A value that was taken under a new number, as by a lease, is put back if
/// nobody asks for it before it comes.
#[derive(Debug)]
#[must_use = "it may be refused"]
pub struct Value(pub(crate) Pending);

impl Value {
    /// Blocks the thread until the value is there.
    pub fn wait(self) -> Result<u64> {
        let told = self.0.told.clone();
        Pending::valued(&told, self.0.wait())
    }

    /// Blocks the thread until the value is there, at most so long. Returns `None` if it isn't: wait again.
    pub fn wait_for(&mut self, timeout: Duration) -> Option<Result<u64>> {
        let reply = self.0.wait_for(timeout)?;
        Some(Pending::valued(&self.0.told, reply))
    }

    /// Whether the value is there.
    pub fn is_ready(&self) -> bool {
        self.0.is_ready()
    }
}

impl Future for Value {
    type Output = Result<u64>;

    fn poll(mut self: Pin<&mut Self>, context: &mut Context<'_>) -> Poll<Result<u64>> {
        Pin::new(&mut self.0).poll(context).map(|it| Pending::valued(&self.0.told, it))
    }
}

/// An element and what it asked.
pub(crate) type Key = (u16, Op);

/// The fetches and takes that were given up. The same request, made again, is one of these.
#[derive(Debug, Default)]
pub(crate) struct Left {
    kept: Mutex<HashMap<Key, VecDeque<Arc<Told>>>>,
}

impl Left {
    /// Takes out the oldest of these requests, if there is one.
    pub(crate) fn find(&self, key: Key) -> Option<Pending> {
        let told = lock(&self.kept).get_mut(&key)?.pop_front()?;
        lock(&told.slot).is_left = false;
        Some(Pending { told })
    }

    /// Whether a request of an element was given up.
    pub(crate) fn has_of(&self, element: u16) -> bool {
        lock(&self.kept).iter().any(|(key, kept)| key.0 == element && !kept.is_empty())
    }

    pub(crate) fn clear(&self) {
        lock(&self.kept).clear();
    }
}

/// What becomes of a fetch or a take that is given up.
#[derive(Debug)]
pub(crate) struct Home {
    pub(crate) left: Arc<Left>,
    pub(crate) key: Key,
    /// Of a request under a new number, by which element a value is put back.
    pub(crate) back: Option<(Weak<Inner>, u16)>,
}

impl Home {
    /// Keeps a request whose answer nobody got, for whoever asks the same.
    fn keep(&self, told: &Arc<Told>) {
        let mut kept = lock(&self.left.kept);
        let mut slot = lock(&told.slot);
        if slot.is_got {
            return;
        }
        (slot.is_left, slot.waker) = (true, None);
        if self.back.is_some() && slot.answer.is_some() {
            let answer = slot.get();
            drop((slot, kept));
            self.put_back(answer);
        } else {
            kept.entry(self.key).or_default().push_back(told.clone());
        }
    }

    /// Puts a value back that was taken. No lock is held meanwhile: the image may end here.
    fn put_back(&self, answer: Option<Result<Reply>>) {
        if let (Some((inner, element)), Some(Ok(Reply::Value(value)))) = (&self.back, answer) {
            if let (Some(inner), Op::Take(address)) = (inner.upgrade(), self.key.1) {
                inner.put_back(*element, address, value);
            }
        }
    }
}

/// The place where an answer is left for the one who asked.
#[derive(Debug, Default)]
pub(crate) struct Told {
    slot: Mutex<Slot>,
    there: Condvar,
    home: Option<Home>,
}

impl Told {
    pub(crate) fn of(home: Option<Home>) -> Told {
        Told { home, ..Told::default() }
    }

    /// Whether it is answered.
    pub(crate) fn is_over(&self) -> bool {
        lock(&self.slot).is_told
    }

    /// Returns the request's number, once it was served.
    pub(crate) fn number(&self) -> u64 {
        lock(&self.slot).number
    }
}

#[derive(Debug, Default)]
struct Slot {
    answer: Option<Result<Reply>>,
    waker: Option<Waker>,
    is_told: bool,
    is_got: bool,
    /// Whether it was given up, and nobody asked the same.
    is_left: bool,
    number: u64,
    /// Which request of which file an answer that is an error is of.
    of: String,
}

impl Slot {
    fn get(&mut self) -> Option<Result<Reply>> {
        let answer = self.answer.take()?;
        self.is_got = true;
        Some(answer)
    }
}

/// Gives an answer, once. If it is dropped without one, it says that the image is closed.
#[derive(Debug)]
pub(crate) struct Teller {
    pub(crate) told: Arc<Told>,
}

impl Teller {
    /// Gives an answer that is an error, of this request.
    pub(crate) fn tell_of(&self, answer: Result<Reply>, of: String) {
        lock(&self.told.slot).of = of;
        self.tell(answer);
    }

    pub(crate) fn tell(&self, answer: Result<Reply>) {
        let home = self.told.home.as_ref();
        let mut kept = home.map(|it| lock(&it.left.kept));
        let mut slot = lock(&self.told.slot);
        if slot.is_told {
            return;
        }
        (slot.answer, slot.is_told) = (Some(answer), true);
        let back = home.filter(|it| slot.is_left && it.back.is_some());
        let unwanted = if back.is_some() { slot.get() } else { None };
        if let (Some(home), Some(kept)) = (back, &mut kept) {
            kept.entry(home.key).or_default().retain(|it| !Arc::ptr_eq(it, &self.told));
        }
        let waker = slot.waker.take();
        drop((slot, kept));
        if let Some(home) = back {
            home.put_back(unwanted);
        }
        self.told.there.notify_all();
        if let Some(waker) = waker {
            waker.wake();
        }
    }

    /// Says which number the request got.
    pub(crate) fn note(&self, number: u64) {
        lock(&self.told.slot).number = number;
    }

    /// Whether anyone is to have the answer.
    pub(crate) fn is_wanted(&self) -> bool {
        Arc::strong_count(&self.told) > 1
    }
}

impl Drop for Teller {
    fn drop(&mut self) {
        self.tell(Err(Error::Closed));
    }
}
