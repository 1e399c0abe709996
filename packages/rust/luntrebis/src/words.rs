//! Requests, replies and refusals.

use luntrebis_sys as sys;
use std::ffi::c_int;
use std::{error, fmt, io, result};

/// What a request asks for. A number of cells is a block's length; an address is that of a cell.
#[derive(Clone, Copy, Debug, PartialEq, Eq, Hash)]
pub enum Op {
    /// Makes a block of the given number of I cells, to be fetched and stored.
    AllocI(u32),
    /// Makes a block of the given number of M cells, to be taken and put.
    AllocM(u32),
    /// Gives the block with this base back.
    Release(u32),
    /// Reads an I cell, once it is stored.
    Fetch(u32),
    /// Writes an I cell, once.
    Store(u32, u64),
    /// Empties an M cell, once it is full.
    Take(u32),
    /// Fills an empty M cell.
    Put(u32, u64),
    /// Empties the cells of the block with this base.
    Reset(u32),
    /// Drops the entries of the element below the request's number: a confirmation.
    Confirm,
}

/// A request of an element, under a number of its own: 1, 2, 3 and so on. Or a confirmation ([`Op::Confirm`]).
#[derive(Clone, Copy, Debug, PartialEq, Eq)]
pub struct Request {
    /// The element that asks.
    pub element: u16,
    /// The number of the request. That of a confirmation is the first number that stays.
    pub number: u64,
    /// What it asks for.
    pub op: Op,
}

/// The reply to a request.
#[derive(Clone, Copy, Debug, PartialEq, Eq)]
#[non_exhaustive]
pub enum Reply {
    /// The request is deferred, and answered later.
    Waiting,
    /// The base of the new block.
    Base(u32),
    /// There is no place for a block of this length.
    NoSpace,
    /// A block needs at least one cell.
    BadLength,
    /// The value that was read.
    Value(u64),
    /// The cell is written.
    Stored,
    /// The cell was full at a store or a put, now or before.
    Clash,
    /// The address lies in no block.
    NoCell,
    /// A fetch or store at an M block, or a take or put at an I block.
    WrongKind,
    /// The block is given back.
    Released,
    /// No block begins at the address.
    NoBlock,
    /// A request waits at a cell of the block. The block stays as it is.
    StillWaiting,
    /// The cells are empty.
    Cleared,
    /// The entries are dropped.
    Confirmed,
}

impl Reply {
    /// Returns the value, the base, or 0. Returns [`Error::Answered`] if the reply is an error or `Waiting`.
    pub fn value(self) -> Result<u64> {
        match self {
            Reply::Value(value) => Ok(value),
            Reply::Base(base) => Ok(base.into()),
            Reply::Stored | Reply::Released | Reply::Cleared | Reply::Confirmed => Ok(0),
            other => Err(Error::Answered(other, Of::default())),
        }
    }

    /// Whether it says that the program asked for something impossible.
    pub fn is_error(self) -> bool {
        use Reply::*;
        matches!(self, NoSpace | BadLength | Clash | NoCell | WrongKind | NoBlock | StillWaiting)
    }
}

impl fmt::Display for Request {
    /// Writes the request as a line of the program's dialogue, such as `2.7 store 1 2`.
    fn fmt(&self, f: &mut fmt::Formatter<'_>) -> fmt::Result {
        let Request { element, number, op } = self;
        match op {
            Op::Confirm => return write!(f, "confirm {element} {number}"),
            _ => write!(f, "{element}.{number} ")?,
        }
        match op {
            Op::AllocI(length) => write!(f, "alloc i {length}"),
            Op::AllocM(length) => write!(f, "alloc m {length}"),
            Op::Release(base) => write!(f, "release {base}"),
            Op::Fetch(address) => write!(f, "fetch {address}"),
            Op::Store(address, value) => write!(f, "store {address} {value}"),
            Op::Take(address) => write!(f, "take {address}"),
            Op::Put(address, value) => write!(f, "put {address} {value}"),
            Op::Reset(base) => write!(f, "reset {base}"),
            Op::Confirm => Ok(()),
        }
    }
}

/// The kind of a block.
#[derive(Clone, Copy, Debug, PartialEq, Eq)]
pub enum Kind {
    /// Its cells are fetched and stored.
    I,
    /// Its cells are taken and put.
    M,
}

/// What a cell holds.
#[derive(Clone, Copy, Debug, PartialEq, Eq)]
pub enum State {
    /// Nothing.
    Empty,
    /// Nothing, and requests wait for it.
    Awaited,
    /// This value.
    Full(u64),
    /// This value, when it was written once more.
    Clashed(u64),
}

/// A cell of a block.
#[derive(Clone, Copy, Debug, PartialEq, Eq)]
pub struct Cell {
    /// The kind of its block.
    pub kind: Kind,
    /// What it holds.
    pub state: State,
}

/// The numbers of an image.
#[derive(Clone, Copy, Debug, PartialEq, Eq)]
pub struct Stat {
    /// How many blocks there are.
    pub blocks: u64,
    /// How many cells of blocks are empty, and nobody waits for them.
    pub empty: u64,
    /// For how many cells requests wait.
    pub awaited: u64,
    /// How many cells are full.
    pub full: u64,
    /// How many cells clashed.
    pub clashed: u64,
    /// How many entries are kept.
    pub kept: u64,
    /// How many of them wait.
    pub waiting: u64,
    /// How many elements keep 64 entries.
    pub full_windows: u64,
    /// How many of them are stuck: their oldest entry waits.
    pub stuck: u64,
}

/// Returns a cell, or `None` if it lies in no block.
pub(crate) fn seen(cell: &sys::lt_presence) -> Option<Cell> {
    let state = match cell.state {
        sys::LT_EMPTY => State::Empty,
        sys::LT_AWAITED => State::Awaited,
        sys::LT_FULL => State::Full(cell.value),
        sys::LT_CLASHED => State::Clashed(cell.value),
        _ => return None,
    };
    Some(Cell { kind: if cell.kind == sys::LT_ALLOC_I { Kind::I } else { Kind::M }, state })
}

/// Which request of which file an error is of, and what else there is to say.
#[derive(Clone, Default, PartialEq, Eq)]
pub struct Of(String);

impl Of {
    pub(crate) fn new(text: impl fmt::Display) -> Of {
        Of(text.to_string())
    }
}

impl fmt::Display for Of {
    fn fmt(&self, f: &mut fmt::Formatter<'_>) -> fmt::Result {
        f.write_str(&self.0)
    }
}

impl fmt::Debug for Of {
    fn fmt(&self, f: &mut fmt::Formatter<'_>) -> fmt::Result {
        f.write_str(&self.0)
    }
}

/// Why a call is refused.
#[derive(Clone, Copy, Debug, PartialEq, Eq)]
#[repr(u8)]
#[non_exhaustive]
pub enum Refusal {
    /// A number beyond the element's next one.
    Gap = sys::LT_GAP,
    /// A number below the window: its entry was confirmed.
    Forgotten = sys::LT_FORGOTTEN,
    /// 64 entries of the element are kept: confirm some.
    WindowFull = sys::LT_WINDOW_FULL,
    /// The number was used for another request.
    Mismatch = sys::LT_MISMATCH,
    /// There is no such element.
    NoElement = sys::LT_NO_ELEMENT,
    /// A confirmation of an entry that waits.
    NotAnswered = sys::LT_NOT_ANSWERED,
    /// The journal has no room, and none can be made.
    JournalFull = sys::LT_JOURNAL_FULL,
    /// A step was lost. Open the image again; after a failed sync, not before its file system is mounted anew or the
    /// machine is restarted.
    Device = sys::LT_DEVICE,
    /// An earlier call failed.
    Failed = sys::LT_FAILED,
    /// There wasn't enough memory.
    NoMemory = sys::LT_NO_MEMORY,
    /// The file doesn't have the length of an image.
    WrongLength = sys::LT_WRONG_LENGTH,
    /// The image was never finished, is damaged, or is none. The file is left as it is.
    NoHeader = sys::LT_NO_HEADER,
    /// The image is damaged in a header.
    BadHeader = sys::LT_BAD_HEADER,
    /// The image is damaged in a page.
    BadPage = sys::LT_BAD_PAGE,
    /// The image is damaged in a record.
    BadRecord = sys::LT_BAD_RECORD,
    /// A number of cells, elements or slots is out of its range.
    BadLimits = sys::LT_BAD_LIMITS,
    /// An image of the first layout: `imem migrate` makes one of this layout from it.
    OldVersion = sys::LT_OLD_VERSION,
    /// A command of a group that wasn't served, and changed nothing. No call of this package returns it.
    Unserved = sys::LT_UNSERVED,
    /// Commands that make no group, or an unknown number of a refusal.
    NoCall = sys::LT_NO_CALL,
}

impl Refusal {
    fn of(number: u8) -> Refusal {
        use Refusal::*;
        let known = [
            Gap,
            Forgotten,
            WindowFull,
            Mismatch,
            NoElement,
            NotAnswered,
            JournalFull,
            Device,
            Failed,
            NoMemory,
            WrongLength,
            NoHeader,
            BadHeader,
            BadPage,
            BadRecord,
            BadLimits,
            OldVersion,
            Unserved,
        ];
        known.into_iter().find(|it| *it as u8 == number).unwrap_or(NoCall)
    }
}

/// Why a call failed.
#[derive(Debug)]
#[non_exhaustive]
pub enum Error {
    /// The library refused it.
    Refused(Refusal, Of),
    /// The memory's reply is an error, or the request waits.
    Answered(Reply, Of),
    /// A call on the file failed.
    Io(io::Error),
    /// A sync of the file failed since this machine was started: what was written may not be on the disk, whatever is
    /// read now. Don't open the image before its file system is mounted anew or the machine is restarted. A note beside
    /// it, `PATH.unsynced`, keeps `imem` and each program over this library from opening it.
    SyncFailed(io::Error),
    /// The image was closed before the answer came. The request isn't lost: it is answered under its number after the
    /// next opening.
    Closed,
}

/// The result of a call.
pub type Result<T> = result::Result<T, Error>;

impl fmt::Display for Error {
    fn fmt(&self, f: &mut fmt::Formatter<'_>) -> fmt::Result {
        match self {
            Error::Refused(it, of) => write!(f, "refused {} {it:?}: {of}", *it as u8),
            Error::Answered(it, of) => write!(f, "answered {it:?}: {of}"),
            Error::Io(it) => it.fmt(f),
            Error::SyncFailed(it) => {
                write!(
                    f,
                    "a sync failed: {it}: mount the file system anew, or restart, before the image is opened again"
                )
            }
            Error::Closed => write!(f, "the image is closed"),
        }
    }
}

impl error::Error for Error {}

impl From<io::Error> for Error {
    fn from(it: io::Error) -> Error {
        Error::Io(it)
    }
}

impl Error {
    /// The same error, which says of what it is.
    pub(crate) fn of(self, of: impl fmt::Display) -> Error {
        match self {
            Error::Refused(it, _) => Error::Refused(it, Of::new(of)),
            Error::Answered(it, _) => Error::Answered(it, Of::new(of)),
            Error::Io(it) => Error::Io(io::Error::new(it.kind(), format!("{of}: {it}"))),
            Error::SyncFailed(it) => Error::SyncFailed(io::Error::new(it.kind(), format!("{of}: {it}"))),
            Error::Closed => Error::Closed,
        }
    }

    /// The same error once more, for another who asked.
    pub(crate) fn again(&self) -> Error {
        match self {
            Error::Refused(it, of) => Error::Refused(*it, of.clone()),
            Error::Answered(it, of) => Error::Answered(*it, of.clone()),
            Error::Io(it) => Error::Io(copied(it)),
            Error::SyncFailed(it) => Error::SyncFailed(copied(it)),
            Error::Closed => Error::Closed,
        }
    }
}

fn copied(error: &io::Error) -> io::Error {
    error.raw_os_error().map_or_else(|| io::Error::new(error.kind(), error.to_string()), io::Error::from_raw_os_error)
}

const IN_USE: &str = "the image is in use by another program";

/// Returns an error unless the number that a call of `luntrebis_file.h` returned is 0.
pub(crate) fn answered(answer: c_int) -> Result<()> {
    if answer < 0 {
        let fault = io::Error::from_raw_os_error(-answer);
        let is_in_use = fault.kind() == io::ErrorKind::WouldBlock;
        return Err(Error::Io(if is_in_use { io::Error::new(fault.kind(), IN_USE) } else { fault }));
    }
    match u8::try_from(answer) {
        Ok(number) => passed(number),
        Err(_) => Err(Error::SyncFailed(io::Error::new(io::ErrorKind::Other, "there is a note beside the file"))),
    }
}

/// Returns an error if the number is that of a refusal.
pub(crate) fn passed(number: u8) -> Result<()> {
    match number {
        sys::LT_OK => Ok(()),
        _ => Err(Error::Refused(Refusal::of(number), Of::default())),
    }
}

/// Returns the reply of an outcome.
pub(crate) fn told(outcome: &sys::lt_outcome) -> Result<Reply> {
    passed(outcome.refusal)?;
    Ok(match outcome.tag {
        sys::LT_WAITING => Reply::Waiting,
        sys::LT_BASE => Reply::Base(outcome.value as u32),
        sys::LT_NO_SPACE => Reply::NoSpace,
        sys::LT_BAD_LENGTH => Reply::BadLength,
        sys::LT_VALUE => Reply::Value(outcome.value),
        sys::LT_STORED => Reply::Stored,
        sys::LT_CLASH => Reply::Clash,
        sys::LT_NO_CELL => Reply::NoCell,
        sys::LT_WRONG_KIND => Reply::WrongKind,
        sys::LT_RELEASED => Reply::Released,
        sys::LT_NO_BLOCK => Reply::NoBlock,
        sys::LT_STILL_WAITING => Reply::StillWaiting,
        sys::LT_CLEARED => Reply::Cleared,
        _ => Reply::Confirmed,
    })
}

/// Returns the request in the library's form.
pub(crate) fn spelled(request: &Request) -> sys::lt_command {
    let (tag, address, value) = match request.op {
        Op::AllocI(length) => (sys::LT_ALLOC_I, length, 0),
        Op::AllocM(length) => (sys::LT_ALLOC_M, length, 0),
        Op::Release(base) => (sys::LT_RELEASE, base, 0),
        Op::Fetch(address) => (sys::LT_FETCH, address, 0),
        Op::Store(address, value) => (sys::LT_STORE, address, value),
        Op::Take(address) => (sys::LT_TAKE, address, 0),
        Op::Put(address, value) => (sys::LT_PUT, address, value),
        Op::Reset(base) => (sys::LT_RESET, base, 0),
        Op::Confirm => (sys::LT_CONFIRM, 0, 0),
    };
    sys::lt_command { tag, element: request.element, address, number: request.number, value }
}

/// Returns the request of a command that is kept, or `None` if it is no request.
pub(crate) fn request_of(it: &sys::lt_command) -> Option<Request> {
    let op = match it.tag {
        sys::LT_ALLOC_I => Op::AllocI(it.address),
        sys::LT_ALLOC_M => Op::AllocM(it.address),
        sys::LT_RELEASE => Op::Release(it.address),
        sys::LT_FETCH => Op::Fetch(it.address),
        sys::LT_STORE => Op::Store(it.address, it.value),
        sys::LT_TAKE => Op::Take(it.address),
        sys::LT_PUT => Op::Put(it.address, it.value),
        sys::LT_RESET => Op::Reset(it.address),
        _ => return None,
    };
    Some(Request { element: it.element, number: it.number, op })
}

/// Returns a confirmation: the entries below the number are dropped.
pub(crate) fn confirmation(element: u16, upto: u64) -> Request {
    Request { element, number: upto, op: Op::Confirm }
}
