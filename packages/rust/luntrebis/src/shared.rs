//! An image for any number of threads. A thread of its own makes all calls, and answers are futures.

use crate::helpers::Block;
use crate::lanes::Lanes;
use crate::memories::{Image, Limits};
use crate::owner::{waiting, Message, Owner};
use crate::pending::{Home, Key, Left, Pending, Teller, Told, Value};
use crate::words::{confirmation, Cell, Error, Of, Op, Refusal, Reply, Request, Result, Stat};
use std::collections::{HashMap, HashSet};
use std::ops::Range;
use std::path::Path;
use std::sync::mpsc::{channel, Sender};
use std::sync::{Arc, Mutex, MutexGuard, PoisonError};
use std::thread::{self, JoinHandle};
use std::time::Duration;

/// An image for any number of threads. A clone is the same image.
///
/// What is sent is done in the order in which it came. Up to sixteen commands that stand there together are put on the
/// disk together: requests, of one element or several, and confirmations. When the last clone and the last [`Element`]
/// are dropped, what was asked is served and the image is closed. Those who still wait then get [`Error::Closed`]. After a lost step all get [`Refusal::Device`](crate::Refusal::Device), or why the step failed:
/// drop the image, open it again, and ask again under the same numbers.
#[derive(Clone, Debug)]
pub struct Shared {
    pub(crate) inner: Arc<Inner>,
}

#[derive(Debug)]
pub(crate) struct Inner {
    asked: Mutex<Sender<Message>>,
    /// The numbers of the elements that ask again.
    counted: Mutex<HashMap<u16, Arc<Counted>>>,
    pub(crate) elements: Mutex<Elements>,
    /// What was given up, of elements that ask again, of others, and of leases.
    pub(crate) left: [Arc<Left>; 3],
    thread: Option<JoinHandle<()>>,
}

/// Who uses an element.
#[derive(Debug, Default)]
pub(crate) struct Elements {
    /// The program, by its number.
    used: HashSet<u16>,
    /// Leases, now or later.
    pool: HashSet<u16>,
    pub(crate) leased: HashSet<u16>,
}

const FOR_LEASES: &str = "it is for leases, of which `lease` was called";

/// Of which part of `left` a lease is.
pub(crate) const LENT: usize = 2;

impl Inner {
    pub(crate) fn send(&self, request: Request, numbered: Numbered, waits: bool, told: Told) -> Pending {
        let told = Arc::new(told);
        let asked = Asked { request, numbered, waits, teller: Teller { told: told.clone() } };
        // If nobody listens any longer, the request is dropped, and its teller says so.
        let _sent = lock(&self.asked).send(Message::Ask(asked));
        Pending { told }
    }

    /// Puts a value back that was taken for nobody.
    pub(crate) fn put_back(&self, element: u16, address: u32, value: u64) {
        let put = Request { element, number: 0, op: Op::Put(address, value) };
        drop(self.send(put, Numbered::Anew, true, Told::default()));
    }
}

impl Drop for Inner {
    fn drop(&mut self) {
        self.left.iter().for_each(|it| it.clear());
        let _ended = lock(&self.asked).send(Message::End);
        if let Some(thread) = self.thread.take().filter(|it| it.thread().id() != thread::current().id()) {
            let _joined = thread.join();
        }
    }
}

impl Shared {
    /// Makes the image of an empty memory at a path where nothing exists.
    pub fn create(path: impl AsRef<Path>, limits: Limits) -> Result<Shared> {
        let path = path.as_ref().to_owned();
        Shared::begin(move || Image::create(path, limits))
    }

    /// Opens the image of an existing file.
    pub fn open(path: impl AsRef<Path>) -> Result<Shared> {
        let path = path.as_ref().to_owned();
        Shared::begin(move || Image::open(path))
    }

    /// Opens the image of an existing file, or makes it if nothing is at the path.
    pub fn open_or_create(path: impl AsRef<Path>, limits: Limits) -> Result<Shared> {
        let path = path.as_ref().to_owned();
        Shared::begin(move || Image::open_or_create(path, limits))
    }

    fn begin(make: impl FnOnce() -> Result<Image> + Send + 'static) -> Result<Shared> {
        let ((sender, asked), (began, begins)) = (channel(), channel());
        let thread = thread::Builder::new().name("luntrebis".into()).spawn(move || match make() {
            Ok(image) => {
                let _told = began.send(Ok(()));
                Owner::new(image, asked).run();
            }
            Err(error) => {
                let _told = began.send(Err(error));
            }
        })?;
        begins.recv().unwrap_or(Err(Error::Closed))?;
        let (asked, counted, elements) = (Mutex::new(sender), Mutex::default(), Mutex::default());
        let inner = Inner { asked, counted, elements, left: Default::default(), thread: Some(thread) };
        Ok(Shared { inner: Arc::new(inner) })
    }

    /// Sends a request under its own number, or a confirmation. Its future is done once the request is answered, for a
    /// fetch or a take as soon as its cell is full.
    pub fn submit(&self, request: Request) -> Pending {
        self.send(request, Numbered::Here, true)
    }

    /// Sends a request. Its future is done once the reply is on the disk; [`Reply::Waiting`] is a reply, too. The same
    /// request again is answered as before.
    pub fn ask(&self, request: Request) -> Result<Reply> {
        self.send(request, Numbered::Here, false).wait()
    }

    /// Sends a request, and waits for its answer, at most so long once the request is on the disk. Returns its number, and
    /// the reply: [`Reply::Waiting`] if there is no answer yet. Then wait for that number again, as often as you like, also
    /// after a kill. A request with the number 0 gets the element's next one.
    pub fn wait(&self, request: Request, timeout: Duration) -> Result<(u64, Reply)> {
        let is_new = request.number == 0 && request.op != Op::Confirm;
        let first = self.send(request, if is_new { Numbered::Anew } else { Numbered::Here }, false);
        let told = first.told.clone();
        let (reply, number) = (first.wait()?, told.number());
        if reply != Reply::Waiting {
            return Ok((number, reply));
        }
        let later = self.submit(Request { number, ..request }).wait_for(timeout);
        Ok((number, later.unwrap_or(Ok(Reply::Waiting))?))
    }

    /// Drops the entries of the element below the number.
    pub fn confirm(&self, element: u16, upto: u64) -> Result<()> {
        self.ask(confirmation(element, upto)).map(|_| ())
    }

    /// Makes a call of the image in its thread, after what was sent before.
    pub fn call<T: Send + 'static>(&self, call: impl FnOnce(&mut Image) -> T + Send + 'static) -> Result<T> {
        let (tell, told) = channel();
        let call = Box::new(move |image: &mut Image| {
            let _told = tell.send(call(image));
        });
        let _sent = lock(&self.inner.asked).send(Message::Call(call));
        told.recv().map_err(|_| Error::Closed)
    }

    /// Returns the numbers of an element that are kept. The range's end is the number of its next new request. This and
    /// what follows makes no request. It shows what is on the disk, once what was sent before is.
    pub fn window(&self, element: u16) -> Result<Range<u64>> {
        self.call(move |image| image.window(element))?
    }

    /// Returns the request that is kept under an element's number.
    pub fn entry(&self, element: u16, number: u64) -> Result<Option<Request>> {
        self.call(move |image| image.entry(element, number))
    }

    /// Returns the reply that is kept under an element's number.
    pub fn collect(&self, element: u16, number: u64) -> Result<Reply> {
        self.call(move |image| image.collect(element, number))?
    }

    /// Returns what a cell holds, or `None` if it lies in no block.
    pub fn cell(&self, address: u32) -> Result<Option<Cell>> {
        self.call(move |image| image.cell(address))?
    }

    /// Returns what so many cells hold at one time, from an address on: fewer at the end of the memory.
    pub fn cells(&self, start: u32, count: u32) -> Result<Vec<Option<Cell>>> {
        self.call(move |image| image.cells(start, count))?
    }

    /// Returns the block that an address lies in.
    pub fn block(&self, address: u32) -> Result<Option<Block>> {
        self.call(move |image| image.block(address))?
    }

    /// Returns the requests that wait at a cell, in the order in which they came: each an element and a number.
    pub fn waiters(&self, address: u32) -> Result<Vec<(u16, u64)>> {
        self.call(move |image| image.waiters(address))?
    }

    /// Returns the oldest request of each element that is stuck: 64 of its requests are kept, and that one waits. It asks
    /// nothing more before that is answered.
    pub fn stuck(&self) -> Result<Vec<Request>> {
        self.call(|image| image.stuck())?
    }

    /// Returns the numbers of the image: its blocks, cells, entries, and elements that are stuck.
    pub fn stat(&self) -> Result<Stat> {
        self.call(|image| image.stat())?
    }

    /// Returns how many more commands there is room for in the journal.
    pub fn room(&self) -> Result<u32> {
        self.call(|image| image.room())
    }

    /// Returns how many commands have been accepted since the image was made.
    pub fn count(&self) -> Result<u64> {
        self.call(|image| image.count())
    }

    /// Returns the sizes of the image.
    pub fn limits(&self) -> Result<Limits> {
        self.call(|image| image.limits())
    }

    /// Copies the image to a path where nothing exists, between two groups. Others may ask meanwhile. The copy is on the
    /// disk, and was seen to open as an image, before this returns.
    pub fn backup(&self, path: impl AsRef<Path>) -> Result<()> {
        let path = path.as_ref().to_owned();
        self.call(move |image| image.backup(path))?
    }

    /// Returns the element, whose requests are numbered here from the first that isn't confirmed on: a program that was
    /// killed makes them again and goes on where it was. It is the same at each call. Panics if it is one for leases.
    pub fn element(&self, number: u16) -> Element {
        let counted = lock(&self.inner.counted).entry(number).or_default().clone();
        assert!(self.may_use(number), "element {number}: {FOR_LEASES}");
        Element { shared: self.clone(), number, counted }
    }

    /// Returns an element whose requests get new numbers. What a run before asked is not asked again, so a value that it
    /// had taken when it was killed is lost to the program. Panics if it is one for leases.
    pub fn element_anew(&self, number: u16) -> ElementAnew {
        assert!(self.may_use(number), "element {number}: {FOR_LEASES}");
        ElementAnew { shared: self.clone(), number }
    }

    /// Leases elements of the upper half: none that is leased, or of which a request waits. The program uses none of these
    /// by its number, in no run. They are given back when the [`Lanes`] are dropped. Of several, each fetch or take goes to
    /// the one with the most room. If there aren't so many, returns [`Refusal::NoElement`].
    pub fn lease(&self, count: usize) -> Result<Lanes> {
        let half = self.call(|image| image.limits().elements / 2)?;
        self.lease_from(half, count)
    }

    /// The same, of the elements from this number on.
    pub fn lease_from(&self, first: u16, count: usize) -> Result<Lanes> {
        let mut elements = lock(&self.inner.elements);
        let used = elements.used.clone();
        let found: Vec<(u16, Vec<Request>)> = self.call(move |image| {
            let pool = (first..image.limits().elements).rev().filter(|it| !used.contains(it));
            pool.map(|it| (it, waiting(image, it))).collect()
        })?;
        for (number, waiting) in &found {
            if elements.pool.insert(*number) {
                waiting.iter().for_each(|it| self.take_over(*it));
            }
        }
        let free = found.iter().filter(|(it, waiting)| waiting.is_empty() && !elements.leased.contains(it));
        let free: Vec<u16> = free.map(|(it, _)| *it).take(count.max(1)).collect();
        if free.len() < count.max(1) {
            let why = "each element for leases is leased, or a request of it waits";
            return Err(Error::Refused(Refusal::NoElement, Of::new(why)));
        }
        elements.leased.extend(&free);
        drop(elements);
        Ok(Lanes::new(self.clone(), free))
    }

    /// Takes over a request that waited at the end of an earlier run.
    fn take_over(&self, request: Request) {
        let key = (0, request.op);
        drop(self.send_to_keep(request, Numbered::Here, &self.inner.left[LENT], key, true));
    }

    /// Notes that the program uses an element by its number. Returns whether it may: the element isn't for leases.
    fn may_use(&self, number: u16) -> bool {
        let mut elements = lock(&self.inner.elements);
        let is_free = !elements.pool.contains(&number);
        if is_free {
            elements.used.insert(number);
        }
        is_free
    }

    fn send(&self, request: Request, numbered: Numbered, waits: bool) -> Pending {
        if !self.may_use(request.element) {
            return Error::Refused(Refusal::NoElement, Of::new(format_args!("{request}: {FOR_LEASES}"))).into();
        }
        self.inner.send(request, numbered, waits, Told::default())
    }

    /// Sends a request of an element under a new number, or under its next one if it asks again.
    fn send_of(&self, request: Request, numbered: Numbered) -> Pending {
        let goes_back = matches!(numbered, Numbered::Anew);
        let (left, key) = (&self.inner.left[usize::from(goes_back)], (request.element, request.op));
        left.find(key).unwrap_or_else(|| self.send_to_keep(request, numbered, left, key, goes_back))
    }

    /// Sends a request. If it is a fetch or a take that is given up, it is kept there, or its value goes back.
    pub(crate) fn send_to_keep(
        &self,
        request: Request,
        numbered: Numbered,
        left: &Arc<Left>,
        key: Key,
        goes_back: bool,
    ) -> Pending {
        let back = goes_back.then(|| (Arc::downgrade(&self.inner), request.element));
        let may_wait = matches!(request.op, Op::Fetch(_) | Op::Take(_));
        let home = may_wait.then(|| Home { left: left.clone(), key, back });
        self.inner.send(request, numbered, true, Told::of(home))
    }
}

/// The next number of an element that asks again what isn't confirmed, once its window was read.
pub(crate) type Counted = Mutex<Option<u64>>;

/// How a request gets its number.
#[derive(Clone, Debug)]
pub(crate) enum Numbered {
    /// It came with it.
    Here,
    /// It gets the element's next one.
    Anew,
    /// It gets the next of those from the window's base on.
    Again(Arc<Counted>),
}

macro_rules! requests {
    () => {
        /// Makes a block of the given number of I cells, to be fetched and stored. Gives its base.
        pub fn alloc_i(&self, length: u32) -> Value {
            self.ask(Op::AllocI(length))
        }

        /// Makes a block of the given number of M cells, to be taken and put. Gives its base.
        pub fn alloc_m(&self, length: u32) -> Value {
            self.ask(Op::AllocM(length))
        }

        /// Reads an I cell, once it is stored.
        pub fn fetch(&self, address: u32) -> Value {
            self.ask(Op::Fetch(address))
        }

        /// Writes an I cell, once.
        pub fn store(&self, address: u32, value: u64) -> Value {
            self.ask(Op::Store(address, value))
        }

        /// Empties an M cell, once it is full. Gives its value.
        pub fn take(&self, address: u32) -> Value {
            self.ask(Op::Take(address))
        }

        /// Fills an empty M cell.
        pub fn put(&self, address: u32, value: u64) -> Value {
            self.ask(Op::Put(address, value))
        }

        /// Gives a block back.
        pub fn release(&self, base: u32) -> Value {
            self.ask(Op::Release(base))
        }

        /// Empties the cells of a block.
        pub fn reset(&self, base: u32) -> Value {
            self.ask(Op::Reset(base))
        }
    };
}

/// Makes the requests of an element. Each returns a future of its value, its base, or 0.
///
/// The numbers begin at the first that isn't confirmed. So a program that was killed makes the same requests again from
/// its last [`done`](Element::done) on. They are answered as before, and act once. It goes on where it was, if it asks
/// the same whenever it gets the same answers. At most 64 requests may follow a `done`.
#[derive(Clone, Debug)]
pub struct Element {
    shared: Shared,
    number: u16,
    counted: Arc<Counted>,
}

impl Element {
    requests!();

    /// A unit of work is over: the next run begins here. All that was asked has to be answered. Nobody has to wait for
    /// it.
    pub fn done(&self) -> Value {
        if self.shared.inner.left[0].has_of(self.number) {
            let why = "a fetch or a take was given up: ask the same again before `done`";
            let of = Of::new(format_args!("element {}: {why}", self.number));
            return Value(Error::Refused(Refusal::NotAnswered, of).into());
        }
        self.ask(Op::Confirm)
    }

    pub(crate) fn ask(&self, op: Op) -> Value {
        let request = Request { element: self.number, number: 0, op };
        Value(self.shared.send_of(request, Numbered::Again(self.counted.clone())))
    }
}

/// Makes requests of an element, under new numbers. Each returns a future of its value, its base, or 0.
///
/// When its window is full, answered entries are confirmed, together with other requests.
#[derive(Clone, Debug)]
pub struct ElementAnew {
    shared: Shared,
    number: u16,
}

impl ElementAnew {
    requests!();

    pub(crate) fn ask(&self, op: Op) -> Value {
        Value(self.shared.send_of(Request { element: self.number, number: 0, op }, Numbered::Anew))
    }
}

/// A request that is to be served.
#[derive(Debug)]
pub(crate) struct Asked {
    pub(crate) request: Request,
    pub(crate) numbered: Numbered,
    /// Whether its future is done only once it is answered.
    pub(crate) waits: bool,
    pub(crate) teller: Teller,
}

/// Locks a mutex. What it guards is whole between two statements, so a panic of another thread doesn't matter.
pub(crate) fn lock<T>(mutex: &Mutex<T>) -> MutexGuard<'_, T> {
    mutex.lock().unwrap_or_else(PoisonError::into_inner)
}
