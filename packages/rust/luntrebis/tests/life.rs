//! An image through its whole life, and one for many threads.

use luntrebis::{fetch_bytes, layout, store_bytes, Block, Cell, Cells, Counter, Kind, Queue, State};
use luntrebis::{Error, Image, Limits, Memory, Op, Refusal, Reply, Request, Shared};
use std::future::Future;
use std::path::PathBuf;
use std::sync::Arc;
use std::task::{Context, Poll, Wake};
use std::thread::{self, Thread};
use std::time::Duration;

fn place(name: &str) -> PathBuf {
    std::env::temp_dir().join(format!("luntrebis-{}-{name}.image", std::process::id()))
}

fn asked(element: u16, number: u64, op: Op) -> Request {
    Request { element, number, op }
}

const SMALL: Limits = Limits { cells: 64, elements: 4, slots: 16 };

#[test]
fn what_was_answered_is_there_after_an_opening() {
    let path = place("life");
    {
        let mut image = Image::create(&path, SMALL).unwrap();
        assert_eq!(image.ask(&asked(0, 1, Op::AllocI(8))).unwrap(), Reply::Base(0));
        assert_eq!(image.ask(&asked(1, 1, Op::Fetch(0))).unwrap(), Reply::Waiting);
        assert!(matches!(Image::open(&path), Err(Error::Io(_))), "another one has the lock");
        assert!(matches!(Image::create(&path, SMALL), Err(Error::Io(_))), "a file is there");
        let all = image.ask_all(&[asked(2, 1, Op::Store(0, 5)), asked(3, 1, Op::Fetch(0))]).unwrap();
        assert!(matches!(all[..], [Ok(Reply::Stored), Ok(Reply::Value(5))]));
        for number in 2..64 {
            image.ask(&asked(3, number, Op::Fetch(0))).unwrap();
        }
        let gap = image.ask(&asked(3, 66, Op::Fetch(0)));
        assert!(matches!(gap, Err(Error::Refused(Refusal::Gap, _))));
    }
    let mut image = Image::open(&path).unwrap();
    assert_eq!(image.collect(1, 1).unwrap(), Reply::Value(5));
    assert_eq!(image.ask(&asked(2, 1, Op::Store(0, 5))).unwrap(), Reply::Stored, "as before");
    assert_eq!(image.window(3).unwrap(), 1..64);
    image.confirm(3, 64).unwrap();
    assert_eq!(image.window(3).unwrap(), 64..64);
    assert_eq!(image.count(), 67);
    drop(image);
    assert!(luntrebis::inspect(&path).unwrap().contains("cell 0 full 5"));
    std::fs::remove_file(path).unwrap();
}

#[test]
fn it_tells_whom_a_request_resumed() {
    let path = place("woken");
    let mut image = Image::open_or_create(&path, SMALL).unwrap();
    image.ask(&asked(0, 1, Op::AllocI(8))).unwrap();
    image.ask_all(&[asked(1, 1, Op::Fetch(3)), asked(2, 1, Op::Fetch(3)), asked(3, 1, Op::Fetch(4))]).unwrap();
    assert!(image.woken().is_empty());
    image.ask(&asked(0, 2, Op::Store(3, 5))).unwrap();
    assert_eq!(image.woken(), [(1, 1), (2, 1)]);
    image.ask(&asked(0, 2, Op::Store(3, 5))).unwrap();
    assert!(image.woken().is_empty(), "asked again, it acts no second time");
    assert_eq!(image.limits(), SMALL);
    std::fs::remove_file(path).unwrap();
}

#[test]
fn a_note_of_a_failed_sync_keeps_an_image_closed() {
    let path = place("noted");
    drop(Image::create(&path, SMALL).unwrap());
    let note = PathBuf::from(format!("{}.unsynced", path.display()));
    std::fs::write(&note, std::fs::read("/proc/sys/kernel/random/boot_id").unwrap()).unwrap();
    assert!(matches!(Image::open(&path), Err(Error::SyncFailed(_))));
    assert!(matches!(Shared::open(&path), Err(Error::SyncFailed(_))));
    std::fs::remove_file(note).unwrap();
    assert_eq!(Image::open(&path).unwrap().count(), 0);
    std::fs::remove_file(path).unwrap();
}

#[test]
fn a_memory_has_no_disk() {
    assert!(matches!(Memory::new(0, 2), Err(Error::Refused(Refusal::BadLimits, _))));
    let mut memory = Memory::new(16, 2).unwrap();
    assert_eq!(memory.ask(&asked(0, 1, Op::AllocM(4))).unwrap(), Reply::Base(0));
    assert_eq!(memory.ask(&asked(1, 1, Op::Take(2))).unwrap(), Reply::Waiting);
    assert_eq!(memory.ask(&asked(0, 2, Op::Put(2, 9))).unwrap(), Reply::Stored);
    assert_eq!(memory.collect(1, 1).unwrap(), Reply::Value(9));
    memory.confirm(1, 2).unwrap();
    assert!(matches!(memory.collect(1, 1), Err(Error::Refused(Refusal::Forgotten, _))));
}

struct Unpark(Thread);

impl Wake for Unpark {
    fn wake(self: Arc<Self>) {
        self.0.unpark();
    }
}

/// The least executor that there is.
fn run<T>(future: impl Future<Output = T>) -> T {
    let (waker, mut future) = (Arc::new(Unpark(thread::current())).into(), Box::pin(future));
    loop {
        match future.as_mut().poll(&mut Context::from_waker(&waker)) {
            Poll::Ready(value) => return value,
            Poll::Pending => thread::park(),
        }
    }
}

#[test]
fn many_threads_share_an_image() {
    let path = place("shared");
    let shared = Shared::create(&path, Limits { cells: 256, elements: 16, slots: 64 }).unwrap();
    let base = shared.element_anew(0).alloc_m(16).wait().unwrap() as u32;
    let first = shared.element_anew(0).take(base);
    assert!(!first.is_ready(), "nobody has put");
    let workers: Vec<_> = (1..16).map(|number| (shared.element_anew(number), base + u32::from(number))).collect();
    thread::scope(|scope| {
        for (element, cell) in workers {
            scope.spawn(move || {
                element.put(cell, 0).wait().unwrap();
                for _ in 0..100 {
                    let count = element.take(cell).wait().unwrap();
                    element.put(cell, count + 1).wait().unwrap();
                }
                assert_eq!(element.take(cell).wait().unwrap(), 100);
            });
        }
    });
    let count = run(async {
        shared.element_anew(1).put(base, 7).await?;
        first.await
    });
    assert_eq!(count.unwrap(), 7);
    let clash = run(async { (shared.element_anew(2).put(base, 1).await, shared.element_anew(2).put(base, 2).await) });
    assert!(matches!(clash, (Ok(0), Err(Error::Answered(Reply::Clash, _)))));
    assert!(matches!(shared.element_anew(16).take(base).wait(), Err(Error::Refused(Refusal::NoElement, _))));
    assert_eq!(shared.call(|image| image.window(0).map(|it| it.end)).unwrap().unwrap(), 3);
    let late = shared.element_anew(3).take(base + 1);
    drop(shared);
    assert!(matches!(late.wait(), Err(Error::Closed)));
    std::fs::remove_file(path).unwrap();
}

#[test]
fn commands_of_one_element_share_a_group() {
    let path = place("together");
    let shared = Shared::create(&path, Limits { cells: 256, elements: 3, slots: 256 }).unwrap();
    let (one, two) = (shared.element_anew(1), shared.element_anew(2));
    let base = one.alloc_i(200).wait().unwrap() as u32;
    let before = shared.call(|image| image.work()).unwrap();
    let (release, held) = std::sync::mpsc::channel::<()>();
    let holder = shared.clone(); // Its call holds the image's thread until all is asked.
    let (tell, begun) = std::sync::mpsc::channel();
    let holds = thread::spawn(move || {
        holder.call(move |_| {
            tell.send(()).unwrap();
            held.recv().unwrap();
        })
    });
    begun.recv().unwrap();
    let fetches: Vec<_> = (0..60).map(|at| two.fetch(base + at)).collect();
    let stores: Vec<_> = (0..200).map(|at| one.store(base + at, at.into())).collect();
    let confirmed = shared.submit(asked(2, 31, Op::Confirm));
    let after = two.fetch(base + 199);
    release.send(()).unwrap();
    holds.join().unwrap().unwrap();
    for (at, fetch) in fetches.into_iter().enumerate() {
        assert_eq!(fetch.wait().unwrap(), at as u64);
    }
    stores.into_iter().for_each(|it| assert_eq!(it.wait().unwrap(), 0));
    assert_eq!(confirmed.wait().unwrap(), Reply::Confirmed);
    assert_eq!(after.wait().unwrap(), 199);
    assert_eq!(shared.call(|image| image.window(2)).unwrap().unwrap(), 31..62);
    let groups = shared.call(|image| image.work()).unwrap().groups - before.groups;
    assert!(groups <= 24, "{groups} groups of some 270 commands");
    std::fs::remove_file(path).unwrap();
}

#[test]
fn an_element_asks_again_what_is_not_confirmed() {
    let path = place("again");
    let small = Limits { cells: 16, elements: 3, slots: 64 };
    let run = |ends_in_between: bool| {
        let shared = Shared::open_or_create(&path, small).unwrap();
        let (maker, one) = (shared.element(0), shared.element(1));
        let counter = maker.alloc_m(1).wait().unwrap() as u32;
        maker.put(counter, 0).wait().unwrap();
        let value = one.take(counter).wait().unwrap();
        if ends_in_between {
            return value; // It has the value, and nobody else does.
        }
        one.put(counter, value + 1).wait().unwrap();
        one.done().wait().unwrap();
        value + 1
    };
    assert_eq!([run(false), run(true), run(true), run(false), run(false)], [1, 1, 1, 2, 3]);
    let shared = Shared::open(&path).unwrap();
    let one = shared.element(1);
    let fetches: Vec<_> = (0..70).map(|_| one.put(15, 0)).collect(); // Of no block: each is answered `NoCell`.
    let told: Vec<_> = fetches.into_iter().map(|it| it.wait().unwrap_err().to_string()).collect();
    let name = path.display().to_string();
    assert_eq!(told[0], format!("answered NoCell: {name}: 1.7 put 15 0"));
    assert!(told[64].starts_with(&format!("refused 3 WindowFull: {name}: 1.71 put 15 0, and 64 requests")));
    assert_eq!(shared.element(1).done().wait().unwrap(), 0, "the same element");
    assert_eq!(shared.call(|image| image.window(1)).unwrap().unwrap(), 71..71);
    let other = shared.submit(asked(0, 2, Op::Take(0))).wait().unwrap_err().to_string();
    assert_eq!(
        other,
        format!("refused 4 Mismatch: {name}: 0.2 take 0, and under this number it asked before: 0.2 put 0 0")
    );
    let none = shared.ask(asked(9, 1, Op::Take(0))).unwrap_err().to_string();
    assert_eq!(none, format!("refused 5 NoElement: {name}: 9.1 take 0, and its elements are 0 to 2"));
    drop((shared, one));
    std::fs::remove_file(path).unwrap();
}

const SOON: Duration = Duration::from_micros(100);
const LATE: Duration = Duration::from_secs(30);

#[test]
fn a_thousand_time_outs_lose_nothing() {
    let path = place("time-outs");
    let shared = Shared::create(&path, Limits { cells: 16, elements: 8, slots: 256 }).unwrap();
    let [cells] = layout(&shared, [Cells::m(4)]).unwrap();
    let (cell, other) = (cells.at(0), shared.element_anew(1));
    let put = |value| other.put(cell, value).wait().unwrap();

    let mut number = 0;
    for _ in 0..1000 {
        let told = shared.wait(asked(2, number, Op::Take(cell)), SOON).unwrap();
        assert_eq!(told, (1, Reply::Waiting));
        (number, _) = told;
    }
    put(5);
    assert_eq!(shared.wait(asked(2, number, Op::Take(cell)), LATE).unwrap(), (1, Reply::Value(5)));

    let (one, anew) = (shared.element(3), shared.element_anew(4));
    for _ in 0..1000 {
        assert!(one.take(cell).wait_for(SOON).is_none());
    }
    assert_eq!(shared.window(3).unwrap(), 1..2, "each is the same request");
    assert!(matches!(one.done().wait(), Err(Error::Refused(Refusal::NotAnswered, _))));
    put(6);
    assert_eq!(one.take(cell).wait_for(LATE).unwrap().unwrap(), 6);
    one.done().wait().unwrap();

    drop(anew.take(cell)); // It waits in front.
    let behind = shared.element_anew(1).take(cell);
    put(7);
    assert_eq!(behind.wait().unwrap(), 7, "what nobody has is put back");

    let lanes = shared.lease_from(5, 3).unwrap();
    assert_eq!(lanes.numbers(), [7, 6, 5]);
    for _ in 0..1000 {
        assert!(lanes.take(cell).wait_for(SOON).is_none());
    }
    drop(lanes);
    assert_eq!(shared.lease_from(5, 2).unwrap().numbers(), [7, 5], "a take of 6 waits");
    assert!(matches!(shared.lease_from(5, 3), Err(Error::Refused(Refusal::NoElement, _))));
    put(8);
    assert_eq!(other.take(cell).wait().unwrap(), 8);
    assert_eq!(shared.lease_from(5, 3).unwrap().numbers(), [7, 6, 5]);

    let late = shared.lease_from(5, 1).unwrap().take(cell);
    drop((one, other, anew, shared));
    assert!(matches!(late.wait(), Err(Error::Closed)));
    let shared = Shared::open(&path).unwrap();
    let lanes = shared.lease_from(5, 1).unwrap();
    assert_eq!(lanes.numbers(), [6], "the take of 7 waits");
    assert!(matches!(shared.ask(asked(7, 1, Op::Take(cell))), Err(Error::Refused(Refusal::NoElement, _))));
    shared.element_anew(1).put(cell, 9).wait().unwrap();
    assert_eq!(lanes.take(cell).wait().unwrap(), 9, "what waited at the end of the run before is taken over");
    drop((lanes, shared));
    std::fs::remove_file(path).unwrap();
}

#[test]
fn lanes_have_more_than_sixty_four_waits() {
    let path = place("lanes");
    let shared = Shared::create(&path, Limits { cells: 512, elements: 16, slots: 256 }).unwrap();
    let [cells] = layout(&shared, [Cells::i(300)]).unwrap();
    let lanes = shared.lease(6).unwrap();
    let fetches: Vec<_> = (0..300).map(|it| lanes.fetch(cells.at(it))).collect();
    for at in (0..300).rev() {
        lanes.store(cells.at(at), at.into()).wait().unwrap();
    }
    for (at, fetch) in fetches.into_iter().enumerate() {
        assert_eq!(fetch.wait().unwrap(), at as u64);
    }
    drop((lanes, shared));
    std::fs::remove_file(path).unwrap();
}

#[test]
fn helpers_go_on_where_they_were() {
    let path = place("helpers");
    let text: Vec<u8> = (0..1999u32).map(|it| (it % 251) as u8).collect();
    for run in 1..4 {
        let shared = Shared::open_or_create(&path, Limits { cells: 512, elements: 8, slots: 256 }).unwrap();
        let cells = [Cells::counter(), Cells::queue(4), Cells::i(300), Cells::counter()];
        let [total, jobs, letters, stored] = layout(&shared, cells).unwrap();
        assert_eq!((total.base, jobs.length), (0, 10));
        let (one, two) = (shared.element(1), shared.element(2));
        assert_eq!(Counter::new(&one, total).add(2).unwrap(), 2 * run);
        one.done().wait().unwrap();
        thread::scope(|scope| {
            scope.spawn(|| {
                for at in 0..20 {
                    Queue::new(&one, jobs).put(20 * run + at).unwrap();
                    one.done().wait().unwrap();
                }
            });
            for at in 0..20 {
                assert_eq!(Queue::new(&two, jobs).get().unwrap(), 20 * run + at);
                two.done().wait().unwrap();
            }
        });
        store_bytes(&shared.element(3), letters, stored, &text).unwrap();
        assert_eq!(fetch_bytes(&shared.lease(2).unwrap(), letters).unwrap(), text);
    }
    std::fs::remove_file(path).unwrap();
}

#[test]
fn what_it_holds_is_shown_and_copied() {
    let (path, copy) = (place("looks"), place("looks-copy"));
    let mut image = Image::create(&path, Limits { cells: 128, elements: 4, slots: 256 }).unwrap();
    let mut requests = vec![
        asked(0, 1, Op::AllocI(3)),
        asked(0, 2, Op::AllocM(64)),
        asked(0, 3, Op::Store(0, 7)),
        asked(0, 4, Op::Put(3, 8)),
        asked(0, 5, Op::Put(3, 9)),
        asked(2, 1, Op::Fetch(2)),
        asked(3, 1, Op::Fetch(2)),
    ];
    requests.extend((0..64).map(|it| asked(1, it + 1, Op::Take(4 + (it % 63) as u32))));
    image.ask_all(&requests).unwrap();
    let (full, clashed) = (cell(Kind::I, State::Full(7)), cell(Kind::M, State::Clashed(8)));
    assert_eq!(image.cells(0, 4).unwrap(), [full, cell(Kind::I, State::Empty), cell(Kind::I, State::Awaited), clashed]);
    assert_eq!((image.cells(126, 9).unwrap().len(), image.cells(128, 1).unwrap().len()), (2, 0));
    assert_eq!((image.cell(66).unwrap(), image.cell(67).unwrap()), (cell(Kind::M, State::Awaited), None));
    assert_eq!(image.block(66).unwrap(), Some(Block { base: 3, length: 64 }));
    assert_eq!(image.block(u32::MAX).unwrap(), None);
    assert_eq!(image.waiters(4).unwrap(), [(1, 1), (1, 64)]);
    assert_eq!(image.stuck().unwrap(), [asked(1, 1, Op::Take(4))]);
    let stat = image.stat().unwrap();
    assert_eq!((stat.blocks, stat.empty, stat.awaited, stat.full, stat.clashed), (2, 1, 64, 1, 1));
    assert_eq!((stat.kept, stat.waiting, stat.full_windows, stat.stuck), (71, 66, 1, 1));
    image.backup(&copy).unwrap();
    assert!(matches!(image.backup(&copy), Err(Error::Io(_))), "it replaces no file");
    drop(image);
    for path in [path, copy] {
        let shared = Shared::open(&path).unwrap();
        assert_eq!((shared.stat().unwrap(), shared.cell(0).unwrap()), (stat, full));
        assert_eq!((shared.stuck().unwrap().len(), shared.count().unwrap()), (1, requests.len() as u64));
        assert_eq!(shared.entry(0, 3).unwrap(), Some(requests[2]));
        assert_eq!((shared.entry(0, 9).unwrap(), shared.collect(0, 2).unwrap()), (None, Reply::Base(3)));
        assert_eq!((shared.limits().unwrap().cells, shared.waiters(2).unwrap()), (128, vec![(2, 1), (3, 1)]));
        assert_eq!((shared.block(2).unwrap().unwrap().base, shared.cells(100, 99).unwrap().len()), (0, 28));
        assert!((1..256).contains(&shared.room().unwrap()));
        drop(shared);
        std::fs::remove_file(path).unwrap();
    }
    let mut memory = Memory::new(128, 4).unwrap();
    for request in &requests {
        memory.ask(request).unwrap();
    }
    assert_eq!((memory.cell(0), memory.cell(127), memory.cell(128)), (full, None, None));
}

fn cell(kind: Kind, state: State) -> Option<Cell> {
    Some(Cell { kind, state })
}

#[test]
fn copies_are_made_while_others_ask() {
    let path = place("copies");
    let shared = Shared::create(&path, Limits { cells: 16, elements: 6, slots: 64 }).unwrap();
    let counter = shared.element(0).alloc_m(1).wait().unwrap() as u32;
    shared.element(0).put(counter, 0).wait().unwrap();
    thread::scope(|scope| {
        for number in 1..6 {
            let one = shared.element(number);
            scope.spawn(move || {
                for _ in 0..200 {
                    let value = one.take(counter).wait().unwrap();
                    one.put(counter, value + 1).wait().unwrap();
                    one.done().wait().unwrap();
                }
            });
        }
        let mut before = 0;
        for at in 0..20 {
            let copy = place(&format!("copies-{at}"));
            shared.backup(&copy).unwrap();
            let image = Image::open(&copy).unwrap();
            let done: u64 = (1..6).map(|it| image.window(it).unwrap().start / 2).sum();
            assert!(before <= done && done <= 1000, "{before} and {done} units");
            if let Some(Cell { state: State::Full(value), .. }) = image.cell(counter).unwrap() {
                assert!(done <= value && value <= done + 5, "{value} by {done} units");
            }
            before = done;
            drop(image);
            std::fs::remove_file(copy).unwrap();
        }
    });
    assert_eq!(shared.cell(counter).unwrap(), cell(Kind::M, State::Full(1000)));
    drop(shared);
    std::fs::remove_file(path).unwrap();
}

#[test]
fn a_group_is_the_first_of_a_list() {
    let path = place("group");
    let mut image = Image::create(&path, Limits { slots: 64, ..SMALL }).unwrap();
    image.ask(&asked(0, 1, Op::AllocI(40))).unwrap();
    let stores: Vec<_> = (0..20).map(|at| asked(0, 2 + u64::from(at), Op::Store(at, 7))).collect();
    assert_eq!(image.ask_group(&stores).unwrap().len(), 16);
    assert_eq!(image.ask_group(&stores[16..]).unwrap().len(), 4);
    assert!(image.ask_group(&[]).unwrap().is_empty());
    let all = image.ask_all(&[asked(0, 22, Op::Confirm), asked(0, 22, Op::Store(20, 7)), asked(0, 24, Op::Confirm)]);
    assert!(matches!(
        all.unwrap()[..],
        [Ok(Reply::Confirmed), Ok(Reply::Stored), Err(Error::Refused(Refusal::Gap, _))]
    ));
    assert_eq!(image.window(0).unwrap(), 22..23);
    std::fs::remove_file(path).unwrap();
}

#[test]
fn a_shared_image_goes_from_thread_to_thread() {
    fn goes<T: Send + Sync>() {}
    goes::<Shared>();
    goes::<luntrebis::Element>();
    goes::<luntrebis::ElementAnew>();
    goes::<luntrebis::Lanes>();
    goes::<luntrebis::Value>();
    fn moves<T: Send>() {}
    moves::<Image>();
    moves::<Memory>();
}
