//! A future over the front of threads, whose waker is called once its last answer is on the disk: two tasks on one thread,
//! of which the first waits for what the second puts.
//!
//! usage: waker IMAGE      The image is made, so nothing may have its name.
use std::cell::UnsafeCell;
use std::ffi::{CString, c_char, c_int, c_void};
use std::future::Future;
use std::pin::{Pin, pin};
use std::sync::{Arc, Mutex};
use std::task::{Context, Poll, Wake, Waker};
use std::thread::{self, Thread};

const WAITING: u8 = 0;
const ALLOC_M: u8 = 2;
const TAKE: u8 = 6;
const PUT: u8 = 7;

#[repr(C)]
#[derive(Clone, Copy, Default)]
struct Command {
    tag: u8,
    element: u16,
    address: u32,
    number: u64,
    value: u64,
}

#[repr(C)]
#[derive(Clone, Copy, Default)]
struct Outcome {
    refusal: u8,
    tag: u8,
    value: u64,
}

#[repr(C)]
struct Answer {
    command: Command,
    outcome: Outcome,
    mark: *mut c_void,
    later: c_int,
}

#[repr(C)]
struct Lts {
    opaque: UnsafeCell<[u8; 0]>,
}

#[link(name = "luntrebis", kind = "static")]
unsafe extern "C" {
    fn lts_create(path: *const c_char, cells: u32, elements: u16, slots: u32, made: *mut *mut Lts) -> c_int;
    fn lts_close(shared: *mut Lts);
    fn lts_lease(shared: *mut Lts, element: *mut u16) -> c_int;
    fn lts_submit(
        shared: *mut Lts,
        commands: *const Command,
        count: usize,
        done: extern "C" fn(*const Answer),
        mark: *mut c_void,
    ) -> c_int;
}

/// The answer, and whoever is to be woken by it.
#[derive(Default)]
struct Slot {
    outcome: Option<Outcome>,
    waker: Option<Waker>,
}

/// What a request comes to: its value, or the number of a refusal.
struct Asked(Arc<Mutex<Slot>>);

impl Future for Asked {
    type Output = Result<u64, u8>;

    fn poll(self: Pin<&mut Self>, context: &mut Context<'_>) -> Poll<Self::Output> {
        let mut slot = self.0.lock().unwrap();
        match slot.outcome {
            Some(Outcome { refusal: 0, value, .. }) => Poll::Ready(Ok(value)),
            Some(Outcome { refusal, .. }) => Poll::Ready(Err(refusal)),
            None => {
                slot.waker = Some(context.waker().clone());
                Poll::Pending
            }
        }
    }
}

// On the thread that holds the file.
extern "C" fn keep(answer: *const Answer) {
    let answer = unsafe { &*answer };
    if answer.outcome.refusal == 0 && answer.outcome.tag == WAITING {
        return; // It is called again.
    }
    let slot = unsafe { Arc::from_raw(answer.mark as *const Mutex<Slot>) };
    let mut slot = slot.lock().unwrap();
    slot.outcome = Some(answer.outcome);
    if let Some(waker) = slot.waker.take() {
        waker.wake();
    }
}

struct Shared(*mut Lts);

impl Shared {
    fn create(path: &str) -> Result<Shared, i32> {
        let path = CString::new(path).unwrap();
        let mut made = std::ptr::null_mut();
        match unsafe { lts_create(path.as_ptr(), 64, 8, 256, &mut made) } {
            0 => Ok(Shared(made)),
            refused => Err(refused),
        }
    }

    fn lease(&self) -> u16 {
        let mut element = 0;
        assert_eq!(unsafe { lts_lease(self.0, &mut element) }, 0);
        element
    }

    fn ask(&self, tag: u8, element: u16, address: u32, value: u64) -> Asked {
        let slot = Arc::new(Mutex::new(Slot::default()));
        let command = Command { tag, element, address, number: 0, value };
        let mark = Arc::into_raw(slot.clone()) as *mut c_void;
        if unsafe { lts_submit(self.0, &command, 1, keep, mark) } != 0 {
            drop(unsafe { Arc::from_raw(mark as *const Mutex<Slot>) });
            slot.lock().unwrap().outcome = Some(Outcome { refusal: 8, ..Outcome::default() });
        }
        Asked(slot)
    }
}

impl Drop for Shared {
    fn drop(&mut self) {
        unsafe { lts_close(self.0) }
    }
}

struct Unparks(Thread);

impl Wake for Unparks {
    fn wake(self: Arc<Self>) {
        self.0.unpark();
    }
}

/// Polls two tasks until the first is done.
fn run<T>(first: impl Future<Output = T>, second: impl Future<Output = ()>) -> T {
    let waker = Waker::from(Arc::new(Unparks(thread::current())));
    let mut context = Context::from_waker(&waker);
    let (mut first, mut second, mut ended) = (pin!(first), pin!(second), false);
    loop {
        if let Poll::Ready(value) = first.as_mut().poll(&mut context) {
            return value;
        }
        ended = ended || second.as_mut().poll(&mut context).is_ready();
        thread::park();
    }
}

async fn consume(shared: &Shared, element: u16) -> Result<u64, u8> {
    let mut sum = 0;
    for _ in 0..10 {
        sum += shared.ask(TAKE, element, 3, 0).await?;
        shared.ask(PUT, element, 4, 0).await?;
    }
    Ok(sum)
}

async fn produce(shared: &Shared, element: u16) {
    for item in 1..=10 {
        shared.ask(PUT, element, 3, item).await.unwrap();
        shared.ask(TAKE, element, 4, 0).await.unwrap(); // Until the item is taken.
    }
}

fn main() {
    let path = std::env::args().nth(1).expect("usage: waker IMAGE");
    let shared = Shared::create(&path).expect("the image");
    let (one, other) = (shared.lease(), shared.lease());
    let all = async {
        shared.ask(ALLOC_M, one, 8, 0).await?;
        consume(&shared, one).await
    };
    println!("sum {}", run(all, produce(&shared, other)).unwrap());
}
