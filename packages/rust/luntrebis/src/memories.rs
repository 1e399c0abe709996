//! A memory without a disk, and an image in its file.

use crate::helpers::Block;
use crate::words::{answered, confirmation, passed, request_of, seen, spelled, told};
use crate::words::{Cell, Error, Of, Refusal, Reply, Request, Result, Stat};
use luntrebis_sys as sys;
use std::ffi::{c_int, CString};
use std::fs::File;
use std::io::{self, Read};
use std::ops::Range;
use std::os::fd::AsRawFd;
use std::os::unix::ffi::OsStrExt;
use std::path::{Path, PathBuf};
use std::ptr;

/// The sizes of an image: 1 to 1,048,576 cells, 1 to 64 elements, 16 to 4,096 slots of the journal.
#[derive(Clone, Copy, Debug, PartialEq, Eq)]
pub struct Limits {
    /// The number of cells.
    pub cells: u32,
    /// The number of elements. They are numbered from 0.
    pub elements: u16,
    /// The number of journal slots.
    pub slots: u32,
}

/// What there is to say if a window is full.
pub(crate) const FULL: &str =
    ", and 64 requests of the element aren't confirmed: call `done` once a unit of work is over";

/// The most entries that are kept of an element.
pub(crate) const KEPT: u64 = 64;

/// What was done since an image was opened.
#[derive(Clone, Copy, Debug, PartialEq, Eq)]
pub struct Work {
    /// How many groups were served. A command alone is one, too.
    pub groups: u64,
    /// How many syncs were made.
    pub syncs: u64,
    /// How many writes were made.
    pub writes: u64,
    /// How many sweeps made room in the journal.
    pub sweeps: u64,
    /// How many turns of a checkpoint made room in the journal.
    pub turns: u64,
}

impl Default for Limits {
    /// The default sizes of `imem format`.
    fn default() -> Limits {
        Limits { cells: 4096, elements: 16, slots: 256 }
    }
}

/// A memory with no disk. Its contents end with it.
#[derive(Debug)]
pub struct Memory {
    handle: sys::lt_memory,
}

// SAFETY: a handle may go to another thread, which is proved of what it holds. The type isn't `Sync`, so a borrow of it
// makes no call at the same time as another thread.
unsafe impl Send for Memory {}

impl Memory {
    /// Makes a memory of 1 to 1,048,576 cells and 1 to 64 elements.
    pub fn new(cells: u32, elements: u16) -> Result<Memory> {
        let mut handle = sys::lt_memory { block: ptr::null_mut() };
        // SAFETY: `handle` holds nothing, and is written for this call alone.
        let answer = passed(unsafe { sys::lt_memory_new(cells, elements, &mut handle) });
        answer.map_err(|it| it.of(format_args!("{cells} cells, {elements} elements")))?;
        Ok(Memory { handle })
    }

    /// Sends one request and returns its reply. The same request again is answered as before.
    pub fn ask(&mut self, request: &Request) -> Result<Reply> {
        told(&self.step(&spelled(request))).map_err(|it| it.of(request))
    }

    /// Drops the entries of the element below the number.
    pub fn confirm(&mut self, element: u16, upto: u64) -> Result<()> {
        self.ask(&confirmation(element, upto)).map(|_| ())
    }

    /// Returns the reply that is kept under an element's number.
    pub fn collect(&self, element: u16, number: u64) -> Result<Reply> {
        let mut outcome = sys::lt_outcome::default();
        // SAFETY: the handle is held.
        unsafe { sys::lt_memory_collect(&self.handle, element, number, &mut outcome) };
        told(&outcome).map_err(|it| it.of(format_args!("{element}.{number}")))
    }

    /// Returns what a cell holds, or `None` if it lies in no block.
    pub fn cell(&self, address: u32) -> Option<Cell> {
        // SAFETY: the handle is held.
        seen(&unsafe { sys::lt_memory_cell(&self.handle, address) })
    }

    fn step(&mut self, command: &sys::lt_command) -> sys::lt_outcome {
        let (mut outcome, handle) = (sys::lt_outcome::default(), self.handle);
        // SAFETY: the handle is handed over once, and held again as it comes back.
        unsafe { sys::lt_memory_step(handle, command, &mut self.handle, &mut outcome) };
        outcome
    }
}

impl Drop for Memory {
    fn drop(&mut self) {
        // SAFETY: the handle is held, and handed over for the last time.
        unsafe { sys::lt_memory_free(self.handle) }
    }
}

/// A memory in an image file, which this program has for itself. Each reply is on the disk before it is returned.
///
/// One thread at a time makes its calls; [`Shared`](crate::Shared) is for several. After a step that couldn't be
/// carried out, each call returns why: drop the image, open it again, and ask again under the same numbers.
#[derive(Debug)]
pub struct Image {
    file: *mut sys::ltf,
    path: PathBuf,
}

// SAFETY: the library's handle may be used from any thread, one call at a time.
unsafe impl Send for Image {}

impl Image {
    /// Makes the image of an empty memory at a path where nothing exists.
    ///
    /// It is formed as `PATH.new`, and gets its name once it is whole: a run that is stopped leaves no half image.
    pub fn create(path: impl AsRef<Path>, limits: Limits) -> Result<Image> {
        let Limits { cells, elements, slots } = limits;
        // SAFETY: the path is ended by a zero, and the place is written for this call alone.
        Image::made(path.as_ref(), |path, made| unsafe { sys::ltf_create(path, cells, elements, slots, made) })
    }

    /// Opens the image of an existing file, and never makes one in it: a file that is refused with
    /// [`NoHeader`](crate::Refusal::NoHeader) may be damaged. If another program has it, the error's kind is
    /// `WouldBlock`.
    pub fn open(path: impl AsRef<Path>) -> Result<Image> {
        // SAFETY: as above.
        Image::made(path.as_ref(), |path, made| unsafe { sys::ltf_open(path, made) })
    }

    /// Opens the image of an existing file, or makes it if nothing is at the path.
    pub fn open_or_create(path: impl AsRef<Path>, limits: Limits) -> Result<Image> {
        let Limits { cells, elements, slots } = limits;
        // SAFETY: as above.
        Image::made(path.as_ref(), |path, made| unsafe { sys::ltf_open_or_create(path, cells, elements, slots, made) })
    }

    fn made(path: &Path, make: impl FnOnce(*const std::ffi::c_char, *mut *mut sys::ltf) -> c_int) -> Result<Image> {
        let name = name_of(path)?;
        let mut file = ptr::null_mut();
        answered(make(name.as_ptr(), &mut file)).map_err(|it| it.of(path.display()))?;
        Ok(Image { file, path: path.to_owned() })
    }

    /// Says of a request which file it is of.
    pub(crate) fn named(&self, request: &Request) -> String {
        format!("{}: {request}", self.path.display())
    }

    /// Says of a refused request which one it is, and why it is refused.
    fn placed(&self, error: Error, request: &Request) -> Error {
        let Error::Refused(refusal, _) = error else { return error };
        let why = match refusal {
            Refusal::NoElement => format!(", and its elements are 0 to {}", self.limits().elements - 1),
            Refusal::Mismatch => self
                .entry(request.element, request.number)
                .map_or_else(String::new, |before| format!(", and under this number it asked before: {before}")),
            Refusal::WindowFull => FULL.to_owned(),
            _ => String::new(),
        };
        Error::Refused(refusal, Of::new(format_args!("{}{why}", self.named(request))))
    }

    /// Sends one request, and returns its reply once that is on the disk. The same request again is answered as before,
    /// and doesn't act again.
    pub fn ask(&mut self, request: &Request) -> Result<Reply> {
        told(&self.serve(&spelled(request))?).map_err(|it| self.placed(it, request))
    }

    /// Sends any requests, in their order. Returns the reply or the refusal of each. Up to sixteen neighbours are put on
    /// the disk together: of one element or several, with confirmations ([`Op::Confirm`](crate::Op::Confirm)) among them.
    pub fn ask_all(&mut self, requests: &[Request]) -> Result<Vec<Result<Reply>>> {
        let commands: Vec<_> = requests.iter().map(spelled).collect();
        let mut outcomes = vec![sys::lt_outcome::default(); commands.len()];
        // SAFETY: the handle is held, and there are as many outcomes as commands.
        let answer = unsafe { sys::ltf_serve_all(self.file, commands.as_ptr(), commands.len(), outcomes.as_mut_ptr()) };
        self.check(answer)?;
        Ok(self.replies(requests, &outcomes))
    }

    /// Sends the first of these requests, at most sixteen, and puts them on the disk together. Returns the reply or the
    /// refusal of each that was served: at least one if there is any. The others changed nothing, and are sent again. It
    /// is for a program to which requests keep coming.
    pub fn ask_group(&mut self, requests: &[Request]) -> Result<Vec<Result<Reply>>> {
        let commands: Vec<_> = requests.iter().map(spelled).collect();
        let (mut outcomes, mut served) = (vec![sys::lt_outcome::default(); commands.len()], 0);
        let (asked, count) = (commands.as_ptr(), commands.len());
        // SAFETY: the handle is held, and there are as many outcomes as commands.
        let answer = unsafe { sys::ltf_serve_group(self.file, asked, count, outcomes.as_mut_ptr(), &mut served) };
        self.check(answer)?;
        Ok(self.replies(requests, &outcomes[..served]))
    }

    fn replies(&self, requests: &[Request], outcomes: &[sys::lt_outcome]) -> Vec<Result<Reply>> {
        let both = outcomes.iter().zip(requests);
        both.map(|(outcome, request)| told(outcome).map_err(|it| self.placed(it, request))).collect()
    }

    /// Returns the requests that the last `ask`, `ask_all` or `ask_group` resumed: they waited before, and are answered
    /// now. Each is an element and a number. Those of one cell are in the order in which they came.
    pub fn woken(&self) -> Vec<(u16, u64)> {
        let mut count = 0;
        // SAFETY: the handle is held; what the call points to stays until the next request.
        let woken = unsafe { sys::ltf_woken(self.file, &mut count) };
        // SAFETY: `count` of them are there.
        (0..count).map(|at| unsafe { *woken.add(at) }).map(|it| (it.element, it.number)).collect()
    }

    /// Drops the entries of the element below the number. Their replies can't be asked for again.
    pub fn confirm(&mut self, element: u16, upto: u64) -> Result<()> {
        self.ask(&confirmation(element, upto)).map(|_| ())
    }

    /// Returns the reply that is kept under an element's number.
    pub fn collect(&self, element: u16, number: u64) -> Result<Reply> {
        let mut outcome = sys::lt_outcome::default();
        // SAFETY: the handle is held. So it is below.
        unsafe { sys::ltf_collect(self.file, element, number, &mut outcome) };
        told(&outcome).map_err(|it| it.of(format_args!("{}: {element}.{number}", self.path.display())))
    }

    /// Returns the request that is kept under an element's number.
    pub fn entry(&self, element: u16, number: u64) -> Option<Request> {
        // SAFETY: as above.
        request_of(&unsafe { sys::ltf_entry(self.file, element, number) })
    }

    /// Returns the numbers of an element that are kept. The range's end is the number of its next new request.
    pub fn window(&self, element: u16) -> Result<Range<u64>> {
        // SAFETY: as above.
        let window = unsafe { sys::ltf_window(self.file, element) };
        let of = || format!("{}: element {element} of {}", self.path.display(), self.limits().elements);
        passed(window.refusal).map_err(|it| it.of(of()))?;
        Ok(window.base..window.next)
    }

    /// Returns what a cell holds, or `None` if it lies in no block. This and what follows makes no request.
    pub fn cell(&self, address: u32) -> Result<Option<Cell>> {
        Ok(self.cells(address, 1)?.pop().flatten())
    }

    /// Returns what so many cells hold, from an address on: fewer at the end of the memory.
    pub fn cells(&self, start: u32, count: u32) -> Result<Vec<Option<Cell>>> {
        let mut cells = vec![sys::lt_presence::default(); count.min(self.limits().cells) as usize];
        // SAFETY: as above, and there are so many cells.
        let shown = unsafe { sys::ltf_cells(self.file, start, cells.as_mut_ptr(), cells.len()) };
        self.check(0)?;
        Ok(cells[..shown].iter().map(seen).collect())
    }

    /// Returns the block that an address lies in.
    pub fn block(&self, address: u32) -> Result<Option<Block>> {
        // SAFETY: as above.
        let sys::lt_presence { kind, base, length, .. } = unsafe { sys::ltf_cell(self.file, address) };
        self.check(0)?;
        Ok((kind > 0).then_some(Block { base, length }))
    }

    /// Returns the requests that wait at a cell, in the order in which they came: each an element and a number.
    pub fn waiters(&self, address: u32) -> Result<Vec<(u16, u64)>> {
        // SAFETY: as above, and there is so much room.
        self.listed(|places, room| unsafe { sys::ltf_waiters(self.file, address, places, room) })
    }

    /// Returns the oldest request of each element that is stuck: 64 of its requests are kept, and that one waits. It asks
    /// nothing more before that is answered.
    pub fn stuck(&self) -> Result<Vec<Request>> {
        // SAFETY: as above, and there is so much room.
        let stuck = self.listed(|places, room| unsafe { sys::ltf_stuck(self.file, places, room) })?;
        Ok(stuck.into_iter().filter_map(|(element, number)| self.entry(element, number)).collect())
    }

    fn listed(&self, list: impl FnOnce(*mut sys::lt_waiter, usize) -> usize) -> Result<Vec<(u16, u64)>> {
        let mut places = vec![sys::lt_waiter::default(); KEPT as usize * usize::from(self.limits().elements)];
        let listed = list(places.as_mut_ptr(), places.len());
        self.check(0)?;
        Ok(places[..listed].iter().map(|it| (it.element, it.number)).collect())
    }

    /// Returns the numbers of the image: its blocks, cells, entries, and elements that are stuck.
    pub fn stat(&self) -> Result<Stat> {
        // SAFETY: as above.
        let sys::lt_figures { blocks, empty, awaited, full, clashed, kept, waiting, full_windows, stuck } =
            unsafe { sys::ltf_stat(self.file) };
        self.check(0)?;
        Ok(Stat { blocks, empty, awaited, full, clashed, kept, waiting, full_windows, stuck })
    }

    /// Copies the image to a path where nothing exists, with all that was answered. The copy is on the disk, and was seen
    /// to open as an image, before this returns.
    pub fn backup(&self, path: impl AsRef<Path>) -> Result<()> {
        let path = path.as_ref();
        let name = name_of(path)?;
        // SAFETY: as above, and the path is ended by a zero.
        let answer = unsafe { sys::ltf_backup(self.file, name.as_ptr()) };
        self.check(0)?;
        answered(answer).map_err(|it| it.of(path.display()))
    }

    /// Returns how many more commands there is room for in the journal.
    pub fn room(&self) -> u32 {
        // SAFETY: as above.
        unsafe { sys::ltf_room(self.file) }
    }

    /// Returns how many commands have been accepted since the image was made.
    pub fn count(&self) -> u64 {
        // SAFETY: as above.
        unsafe { sys::ltf_count(self.file) }
    }

    /// Returns the sizes of the image.
    pub fn limits(&self) -> Limits {
        // SAFETY: as above.
        let sys::lt_sizes { cells, elements, slots } = unsafe { sys::ltf_limits(self.file) };
        Limits { cells, elements, slots }
    }

    /// Returns the work that was done since the image was opened.
    pub fn work(&self) -> Work {
        // SAFETY: as above.
        let sys::ltf_counts { groups, syncs, writes, sweeps, turns } = unsafe { sys::ltf_work(self.file) };
        Work { groups, syncs, writes, sweeps, turns }
    }

    /// Makes room in the journal, by a sweep or a turn of a checkpoint, if less than half of it is free. Returns
    /// whether there was anything to do. Each request does it, too; this is for a program that is idle.
    pub fn make_room(&mut self) -> Result<bool> {
        // SAFETY: as above.
        match unsafe { sys::ltf_tidy(self.file) } {
            1 => Ok(true),
            answer => self.check(answer).map(|()| false),
        }
    }

    fn serve(&mut self, command: &sys::lt_command) -> Result<sys::lt_outcome> {
        let mut outcome = sys::lt_outcome::default();
        // SAFETY: as above.
        let answer = unsafe { sys::ltf_serve(self.file, command, &mut outcome) };
        if answer == c_int::from(sys::LT_DEVICE) {
            self.check(answer)?;
        }
        Ok(outcome)
    }

    /// Why a step couldn't be carried out, or another refusal.
    fn check(&self, answer: c_int) -> Result<()> {
        // SAFETY: as above.
        let fault = unsafe { sys::ltf_failure(self.file) };
        let error = io::Error::from_raw_os_error(fault.error);
        match (fault.error, fault.sync) {
            (0, _) => answered(answer),
            (_, 0) => Err(Error::Io(error)),
            _ => Err(Error::SyncFailed(error)),
        }
    }
}

impl Drop for Image {
    fn drop(&mut self) {
        // SAFETY: the handle is held, and handed over for the last time.
        unsafe { sys::ltf_close(self.file) }
    }
}

fn name_of(path: &Path) -> io::Result<CString> {
    Ok(CString::new(path.as_os_str().as_bytes())?)
}

extern "C" {
    fn flock(file: c_int, how: c_int) -> c_int;
}

/// Opens the file under a shared lock, which keeps others from writing it while it is open.
fn open_to_read(path: &Path) -> io::Result<File> {
    const SHARED_AT_ONCE: c_int = 5;
    let file = File::open(path)?;
    // SAFETY: the descriptor is open, and no memory is handed over.
    match unsafe { flock(file.as_raw_fd(), SHARED_AT_ONCE) } {
        0 => Ok(file),
        _ => Err(io::Error::last_os_error()),
    }
}

/// Returns what `imem inspect` prints for a file.
pub fn inspect(path: impl AsRef<Path>) -> Result<String> {
    let mut bytes = Vec::new();
    open_to_read(path.as_ref())?.read_to_end(&mut bytes)?;
    let (mut text, mut length) = (vec![0u8; 1], 0);
    loop {
        let (room, buffer) = (text.len(), text.as_mut_ptr().cast());
        // SAFETY: `bytes` and `text` are as long as told, and initialized.
        let answer = passed(unsafe { sys::lt_inspect(bytes.as_ptr(), bytes.len(), buffer, room, &mut length) });
        answer.map_err(|it| it.of(format_args!("{}, which has {} bytes", path.as_ref().display(), bytes.len())))?;
        if length <= room {
            text.truncate(length);
            return Ok(String::from_utf8_lossy(&text).into_owned());
        }
        text.resize(length, 0);
    }
}
