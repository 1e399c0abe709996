//! The calls of `luntrebis.h` and `luntrebis_file.h`, as they are: `scripts/bindings` writes this file, comments too.
//!
//! What each call leaves to its caller stands in the first lines of the headers; the crate `luntrebis` keeps it.
#![no_std]
#![allow(non_camel_case_types)]

/// The version of this header, and of the library that it belongs to.
pub const LT_VERSION: &str = "0.1.0";

pub const LT_VERSION_NUMBER: u32 = 100;

/// A block of `address` cells, to be fetched and stored
pub const LT_ALLOC_I: u8 = 1;

/// A block of `address` cells, to be taken and put
pub const LT_ALLOC_M: u8 = 2;

/// The block with the base `address` is given back
pub const LT_RELEASE: u8 = 3;

/// What a command asks for, by `tag`.
pub const LT_FETCH: u8 = 4;

/// What a command asks for, by `tag`.
pub const LT_STORE: u8 = 5;

/// What a command asks for, by `tag`.
pub const LT_TAKE: u8 = 6;

/// What a command asks for, by `tag`.
pub const LT_PUT: u8 = 7;

/// The entries below `number` may be forgotten
pub const LT_CONFIRM: u8 = 8;

/// The cells of the block with the base `address` are emptied
pub const LT_RESET: u8 = 9;

/// Deferred: its answer is collected later
pub const LT_WAITING: u8 = 0;

/// The base of the new block, in `value`
pub const LT_BASE: u8 = 1;

/// The outcome of a command, by `tag`.
pub const LT_NO_SPACE: u8 = 2;

/// The outcome of a command, by `tag`.
pub const LT_BAD_LENGTH: u8 = 3;

/// What was read, in `value`
pub const LT_VALUE: u8 = 4;

/// The outcome of a command, by `tag`.
pub const LT_STORED: u8 = 5;

/// The outcome of a command, by `tag`.
pub const LT_CLASH: u8 = 6;

/// The outcome of a command, by `tag`.
pub const LT_NO_CELL: u8 = 7;

/// The outcome of a command, by `tag`.
pub const LT_WRONG_KIND: u8 = 8;

/// The outcome of a command, by `tag`.
pub const LT_RELEASED: u8 = 9;

/// The outcome of a command, by `tag`.
pub const LT_NO_BLOCK: u8 = 10;

/// The outcome of a command, by `tag`.
pub const LT_STILL_WAITING: u8 = 11;

/// The outcome of a command, by `tag`.
pub const LT_CLEARED: u8 = 12;

/// The outcome of a command, by `tag`.
pub const LT_CONFIRMED: u8 = 128;

/// Why a call is refused. 0 means that it isn't. The other numbers up to 24 are refusals of the program imem. No call
/// here returns them, but lt_refusal_name names them, too.
pub const LT_OK: u8 = 0;

/// A number beyond the next one
pub const LT_GAP: u8 = 1;

/// A number below the window
pub const LT_FORGOTTEN: u8 = 2;

/// 64 entries are kept: confirm some
pub const LT_WINDOW_FULL: u8 = 3;

/// A number that was used, for another request
pub const LT_MISMATCH: u8 = 4;

/// Why a call is refused. 0 means that it isn't. The other numbers up to 24 are refusals of the program imem. No call
/// here returns them, but lt_refusal_name names them, too.
pub const LT_NO_ELEMENT: u8 = 5;

/// A confirmation of an entry that waits
pub const LT_NOT_ANSWERED: u8 = 6;

/// The journal has no room: turns make some
pub const LT_JOURNAL_FULL: u8 = 7;

/// The steps couldn't be listed, or the caller lost one. Open the image again; if a sync failed, not before its file
/// system is mounted anew or the machine is restarted
pub const LT_DEVICE: u8 = 8;

/// An earlier call failed; no call here returns it, because LT_DEVICE is returned again
pub const LT_FAILED: u8 = 9;

/// Of lt_memory_new, lt_format, lt_open and lt_inspect
pub const LT_NO_MEMORY: u8 = 10;

/// Of lt_open and lt_inspect, as the next four: the image's first fault
pub const LT_WRONG_LENGTH: u8 = 12;

/// Never finished, or damaged; this is no reason to call lt_format on an existing file
pub const LT_NO_HEADER: u8 = 13;

/// Why a call is refused. 0 means that it isn't. The other numbers up to 24 are refusals of the program imem. No call
/// here returns them, but lt_refusal_name names them, too.
pub const LT_BAD_HEADER: u8 = 14;

/// Why a call is refused. 0 means that it isn't. The other numbers up to 24 are refusals of the program imem. No call
/// here returns them, but lt_refusal_name names them, too.
pub const LT_BAD_PAGE: u8 = 15;

/// Why a call is refused. 0 means that it isn't. The other numbers up to 24 are refusals of the program imem. No call
/// here returns them, but lt_refusal_name names them, too.
pub const LT_BAD_RECORD: u8 = 16;

/// Of lt_memory_new and lt_format
pub const LT_BAD_LIMITS: u8 = 17;

/// Of lt_open: an image of the first layout; `imem migrate` makes one of this layout
pub const LT_OLD_VERSION: u8 = 21;

/// Of a member of lt_serve_group: it isn't served, and changed nothing; put it again. Of lt_front_submit and
/// lt_front_next: it isn't asked; ask again after lt_front_advance
pub const LT_UNSERVED: u8 = 254;

/// An unknown tag, no such write, or no group
pub const LT_NO_CALL: u8 = 255;

/// A request of an element, under a number of its own: 1, 2, 3 and so on. Or a confirmation.
#[repr(C)]
#[derive(Clone, Copy, Debug, Default, PartialEq, Eq)]
pub struct lt_command {
    pub tag: u8,
    pub element: u16,
    pub address: u32,
    pub number: u64,
    pub value: u64,
}

/// If `refusal` isn't 0, the rest is 0.
#[repr(C)]
#[derive(Clone, Copy, Debug, Default, PartialEq, Eq)]
pub struct lt_outcome {
    pub refusal: u8,
    pub tag: u8,
    pub value: u64,
}

/// The address lies in no block
pub const LT_NOWHERE: u8 = 0;

/// What a cell holds, by `state`.
pub const LT_EMPTY: u8 = 1;

/// Requests wait for it
pub const LT_AWAITED: u8 = 2;

/// It has `value`
pub const LT_FULL: u8 = 3;

/// It had `value` when it was written once more
pub const LT_CLASHED: u8 = 4;

/// A cell, and the block that it lies in. If it lies in none, all is 0.
#[repr(C)]
#[derive(Clone, Copy, Debug, Default, PartialEq, Eq)]
pub struct lt_presence {
    /// LT_ALLOC_I or LT_ALLOC_M, by which the block was made
    pub kind: u8,
    pub state: u8,
    /// The address of the block's first cell
    pub base: u32,
    /// The number of its cells
    pub length: u32,
    pub value: u64,
}

/// A handle of a memory. Zero bytes hold nothing.
#[repr(C)]
#[derive(Clone, Copy, Debug)]
pub struct lt_memory {
    pub block: *mut core::ffi::c_void,
}

/// A handle of an image. Zero bytes hold nothing.
#[repr(C)]
#[derive(Clone, Copy, Debug)]
pub struct lt_image {
    pub block: *mut core::ffi::c_void,
}

/// The window of an element: its entries are kept from `base` on, and `next` is the number of its next new request. If
/// `refusal` isn't 0, the rest is 0.
#[repr(C)]
#[derive(Clone, Copy, Debug, Default, PartialEq, Eq)]
pub struct lt_bounds {
    pub refusal: u8,
    pub base: u64,
    pub next: u64,
}

/// What lt_front_advance did. If `refusal` isn't 0, nothing is ahead.
#[repr(C)]
#[derive(Clone, Copy, Debug, Default, PartialEq, Eq)]
pub struct lt_advanced {
    pub refusal: u8,
    /// How many of those that are asked are ahead now
    pub ahead: u8,
    /// How many are told
    pub answered: u8,
}

/// A command that was asked, by its ticket, and its outcome.
#[repr(C)]
#[derive(Clone, Copy, Debug, Default, PartialEq, Eq)]
pub struct lt_told {
    pub ticket: u64,
    pub outcome: lt_outcome,
}

/// There is none
pub const LT_NONE_ASKED: u8 = 0;

/// Where a command stands that is asked, by `state`.
pub const LT_ASKED: u8 = 1;

/// It acts with the next lt_front_advance
pub const LT_AHEAD: u8 = 2;

#[repr(C)]
#[derive(Clone, Copy, Debug, Default, PartialEq, Eq)]
pub struct lt_asked {
    pub ticket: u64,
    pub command: lt_command,
    pub state: u8,
}

/// The sizes of an image.
#[repr(C)]
#[derive(Clone, Copy, Debug, Default, PartialEq, Eq)]
pub struct lt_sizes {
    pub cells: u32,
    pub elements: u16,
    pub slots: u32,
}

/// A request that waits.
#[repr(C)]
#[derive(Clone, Copy, Debug, Default, PartialEq, Eq)]
pub struct lt_waiter {
    pub element: u16,
    pub number: u64,
}

/// The numbers of an image.
#[repr(C)]
#[derive(Clone, Copy, Debug, Default, PartialEq, Eq)]
pub struct lt_figures {
    pub blocks: u64,
    /// Cells of blocks, by their state
    pub empty: u64,
    /// Cells of blocks, by their state
    pub awaited: u64,
    /// Cells of blocks, by their state
    pub full: u64,
    /// Cells of blocks, by their state
    pub clashed: u64,
    /// Entries
    pub kept: u64,
    /// Those of them that aren't answered
    pub waiting: u64,
    /// Elements that keep 64 entries
    pub full_windows: u64,
    /// Those of them whose oldest entry waits: lt_stuck says which
    pub stuck: u64,
}

/// There is no such step
pub const LT_NO_STEP: u8 = 0;

/// `length` bytes from the offset `place` on
pub const LT_WRITE: u8 = 1;

/// All that was written is put on the disk, as by fsync, before any later step
pub const LT_SYNC: u8 = 2;

#[repr(C)]
#[derive(Clone, Copy, Debug, Default, PartialEq, Eq)]
pub struct lt_step {
    pub kind: u8,
    pub place: u64,
    pub length: u64,
}

/// What a turn of a checkpoint or a sweep did, by `tag` of its outcome.
pub const LT_IDLE: u8 = 0;

/// What a turn of a checkpoint or a sweep did, by `tag` of its outcome.
pub const LT_BEGAN: u8 = 1;

/// The page with the number `value` was written
pub const LT_PAGE: u8 = 2;

/// What a turn of a checkpoint or a sweep did, by `tag` of its outcome.
pub const LT_SYNCED: u8 = 3;

/// What a turn of a checkpoint or a sweep did, by `tag` of its outcome.
pub const LT_IN_FORCE: u8 = 4;

/// What a turn of a checkpoint or a sweep did, by `tag` of its outcome.
pub const LT_SWEPT: u8 = 5;

/// An image in its file.
#[repr(C)]
#[derive(Debug)]
pub struct ltf {
    _held: [u8; 0],
}

/// The file has a note beside it (PATH.unsynced): a sync of the file failed since this machine was started. Mount its
/// file system anew and remove the note, or restart the machine.
pub const LTF_UNSYNCED: u32 = 300;

/// The work that was done since the file was opened.
#[repr(C)]
#[derive(Clone, Copy, Debug, Default, PartialEq, Eq)]
pub struct ltf_counts {
    /// Of commands that shared their syncs, or one command alone
    pub groups: u64,
    pub syncs: u64,
    pub writes: u64,
    pub sweeps: u64,
    pub turns: u64,
}

/// Why a step failed: an errno value, or 0 if none failed. `sync` says whether the step was a sync, and `noted` whether
/// the note is left.
#[repr(C)]
#[derive(Clone, Copy, Debug, Default, PartialEq, Eq)]
pub struct ltf_fault {
    pub error: core::ffi::c_int,
    pub sync: core::ffi::c_int,
    pub noted: core::ffi::c_int,
}

extern "C" {
    /// The version of the library: 10,000 for each major version, 100 for each minor one, 1 for each patch.
    pub fn lt_version() -> u32;

    /// What the library says of its own making, such as "0.1.0, commit 3f2a91c07d1b, all proved". A library that was
    /// built with no proof says "not proved" at the end.
    pub fn lt_version_text() -> *const core::ffi::c_char;

    /// The version of the layout in which images are made and opened.
    pub fn lt_layout_version() -> u16;

    /// Whether an answer says that the program asked for something impossible: LT_NO_SPACE, LT_BAD_LENGTH, LT_CLASH,
    /// LT_NO_CELL, LT_WRONG_KIND, LT_NO_BLOCK or LT_STILL_WAITING. Such a request is answered, and confirmed as any
    /// other.
    pub fn lt_is_error(tag: u8) -> core::ffi::c_int;

    /// Makes a memory of 1 to 1,048,576 cells and 1 to 64 elements. Returns 0, and `next` holds the memory; else
    /// returns the refusal, and `next` is as it was.
    pub fn lt_memory_new(cells: u32, elements: u16, next: *mut lt_memory) -> u8;

    /// Serves one command. Returns its refusal, and writes its outcome at `outcome`. This call and the next three take
    /// a handle that holds a memory.
    pub fn lt_memory_step(
        memory: lt_memory,
        command: *const lt_command,
        next: *mut lt_memory,
        outcome: *mut lt_outcome,
    ) -> u8;

    /// Writes the entry that is kept under an element's number at `outcome`, or its refusal: LT_NO_ELEMENT,
    /// LT_FORGOTTEN or LT_GAP. Returns the refusal.
    pub fn lt_memory_collect(memory: *const lt_memory, element: u16, number: u64, outcome: *mut lt_outcome) -> u8;

    /// Returns the cell at an address.
    pub fn lt_memory_cell(memory: *const lt_memory, address: u32) -> lt_presence;

    /// Frees the memory.
    pub fn lt_memory_free(memory: lt_memory);

    /// Returns the length of an image of 1 to 1,048,576 cells, 1 to 64 elements and 16 to 4,096 journal slots, or 0 if
    /// a number is out of its range.
    pub fn lt_image_length(cells: u32, elements: u16, slots: u32) -> u64;

    /// Reads the sizes of an image from its header in force. `bytes` are all bytes of its file. Returns 0, and the
    /// sizes are at `limits`; else returns the refusal, and nothing is changed. The call works on a copy of the bytes,
    /// which is freed before it returns.
    pub fn lt_limits(bytes: *const u8, length: usize, limits: *mut lt_sizes) -> u8;

    /// Makes the image of an empty memory. Returns 0, and `next` holds the image; else returns the refusal, and `next`
    /// is as it was. The caller's file has the length of lt_image_length. It may hold any bytes, which are lost, so the
    /// caller makes it just before, exclusively (O_EXCL).
    pub fn lt_format(cells: u32, elements: u16, slots: u32, next: *mut lt_image) -> u8;

    /// Opens an image. `bytes` are all bytes of its file, and are copied. Returns 0, and `next` holds the image; else
    /// returns the refusal, and `next` is as it was.
    pub fn lt_open(bytes: *const u8, length: usize, next: *mut lt_image) -> u8;

    /// Serves one command. Returns its refusal, and writes its outcome at `outcome`. lt_steps returns how many steps it
    /// left. This call and all that follow with a handle take one that holds an image.
    pub fn lt_serve(image: lt_image, command: *const lt_command, next: *mut lt_image, outcome: *mut lt_outcome) -> u8;

    /// Serves 1 to 16 commands together: requests, of one element or of several, and confirmations. Each gets the
    /// outcome that lt_serve would give it after those before it. All that are accepted are put on the disk together.
    /// Returns 0, and writes the outcome of each command at its place in `outcomes`. lt_steps returns how many steps it
    /// left.
    ///
    /// The first commands are served, at least one. The call ends before a confirmation if it isn't known, before the
    /// commands ahead of it act, whether each entry that it would drop is answered. The outcome of each command from
    /// there on is LT_UNSERVED: put them again. A program that confirms only what it was told never gets it. The
    /// outcome of each command that would be served is LT_DEVICE if the steps couldn't be listed.
    ///
    /// It returns LT_DEVICE after a lost step, and LT_NO_CALL if a tag is unknown, `count` isn't 1 to 16, or `places`
    /// isn't `count`. Then the outcomes are as they were.
    pub fn lt_serve_group(
        image: lt_image,
        commands: *const lt_command,
        count: usize,
        next: *mut lt_image,
        outcomes: *mut lt_outcome,
        places: usize,
    ) -> u8;

    /// Returns the index, from 0, of the first command with an unknown tag. Such a command keeps lt_serve_group from
    /// taking them. Returns `count` if there is none.
    pub fn lt_first_unknown(commands: *const lt_command, count: usize) -> usize;

    /// Asks for a command, behind all that is asked. Returns 0, LT_NO_CALL for an unknown tag, or LT_UNSERVED if 16 are
    /// asked behind those that are ahead: ask again after lt_front_advance. It leaves no step, as the next call.
    pub fn lt_front_submit(image: lt_image, ticket: u64, command: *const lt_command, next: *mut lt_image) -> u8;

    /// Asks for a request under its element's next number, behind all that is asked. The number is written at
    /// `command`. If 64 entries are kept then, a confirmation is asked before it, with the ticket 0: up to the first
    /// entry that isn't answered yet, and at most up to the number `most`. Returns 0, LT_UNSERVED as lt_front_submit,
    /// or the refusal: LT_WINDOW_FULL if there is nothing to confirm, LT_NO_ELEMENT, LT_DEVICE, or LT_NO_CALL. Then
    /// nothing is asked. It is for an element of which all requests come this way. The number is the next one then,
    /// unless a command asked before is told LT_NOT_ANSWERED or LT_JOURNAL_FULL: behind such a one the request may be
    /// refused.
    pub fn lt_front_next(image: lt_image, ticket: u64, command: *mut lt_command, most: u64, next: *mut lt_image) -> u8;

    /// Lets those that are ahead act, and puts the next ones ahead that are asked. Those that acted are asked no more:
    /// they are told at the first places of `told`, which has 16, in their order, with the outcomes that lt_serve would
    /// give to one after another. The others are as they were.
    ///
    /// The next ones are the first of those behind: as many as there is room for, up to a confirmation if it isn't
    /// known, before those that were ahead act, whether each entry that it would drop is answered. If nothing is ahead,
    /// at least one is put. If nothing is ahead and there is no room, the first that is asked is told alone:
    /// LT_JOURNAL_FULL if it would change the memory, and else as before. If the steps couldn't be listed, each that is
    /// told has LT_DEVICE.
    ///
    /// Returns the refusal of `done`: 0, LT_DEVICE, or LT_NO_CALL if `places` isn't 16.
    pub fn lt_front_advance(
        image: lt_image,
        next: *mut lt_image,
        done: *mut lt_advanced,
        told: *mut lt_told,
        places: usize,
    ) -> u8;

    /// Returns what is asked, by its place from 0. Those that are ahead come first. This call only reads.
    pub fn lt_front_asked(image: *const lt_image, index: usize) -> lt_asked;

    /// Makes one turn of a checkpoint. Returns its refusal, and writes what it did at `outcome`.
    pub fn lt_turn(image: lt_image, next: *mut lt_image, outcome: *mut lt_outcome) -> u8;

    /// Frees at most `most` slots of the journal that are to be swept: the area in force holds their commands. It needs
    /// one sync for all of them, while a turn frees three slots. `outcome` is LT_SWEPT with the number of freed slots,
    /// which is 0 while a checkpoint is under way. It leaves a step for each slot, and the sync.
    pub fn lt_sweep(image: lt_image, most: u32, next: *mut lt_image, outcome: *mut lt_outcome) -> u8;

    /// Says that a step couldn't be carried out. From then on each call on the image that may be refused returns
    /// LT_DEVICE or LT_NO_CALL, and no call leaves a step. lt_room and lt_count return what they returned before.
    pub fn lt_failed(image: lt_image, next: *mut lt_image);

    /// Returns how many steps the last call left. This call and those that follow up to lt_count only read, and add no
    /// steps.
    pub fn lt_steps(image: *const lt_image) -> usize;

    /// Returns the step with this index, from 0. If there is none, its kind is LT_NO_STEP and the rest is 0.
    pub fn lt_step_at(image: *const lt_image, index: usize) -> lt_step;

    /// Copies the bytes of the write with this index into a buffer of just their length. Returns 0; else LT_NO_CALL,
    /// and the buffer is as it was.
    pub fn lt_step_bytes(image: *const lt_image, index: usize, buffer: *mut u8, length: usize) -> u8;

    /// Writes the entry that is kept under an element's number at `outcome`, or its refusal: LT_NO_ELEMENT,
    /// LT_FORGOTTEN, LT_GAP, or LT_DEVICE after a lost step. Returns the refusal.
    pub fn lt_collect(image: *const lt_image, element: u16, number: u64, outcome: *mut lt_outcome) -> u8;

    /// Returns the request that is kept under an element's number. Its tag is 0 if there is none, and after a lost
    /// step.
    pub fn lt_entry(image: *const lt_image, element: u16, number: u64) -> lt_command;

    /// Writes the requests that wait at a cell at `waiters`, in their order of arrival, as many as there is room for.
    /// Returns how many it wrote, 0 after a lost step. A store answers all of them, a put the first.
    pub fn lt_waiters(image: *const lt_image, address: u32, waiters: *mut lt_waiter, room: usize) -> usize;

    /// Returns the cell at an address, with its block. After a lost step it shows none, as the calls that follow up to
    /// lt_stuck.
    pub fn lt_cell(image: *const lt_image, address: u32) -> lt_presence;

    /// Writes the cells from an address on at `cells`, as many as there is room for. Returns how many it wrote: fewer
    /// at the end of the memory.
    pub fn lt_cells(image: *const lt_image, from: u32, cells: *mut lt_presence, room: usize) -> usize;

    /// Returns the numbers of the image. It looks at each cell several times.
    pub fn lt_stat(image: *const lt_image) -> lt_figures;

    /// Writes the oldest entry of each element that is stuck: 64 entries are kept, and the oldest waits, so that
    /// nothing can be confirmed or asked before it is answered. Writes as many as there is room for, of 64 at most.
    /// Returns how many it wrote. lt_entry says for which cell each waits.
    pub fn lt_stuck(image: *const lt_image, stuck: *mut lt_waiter, room: usize) -> usize;

    /// Writes the window of an element at `window`, or its refusal: LT_NO_ELEMENT, or LT_DEVICE after a lost step.
    /// Returns the refusal.
    pub fn lt_window(image: *const lt_image, element: u16, window: *mut lt_bounds) -> u8;

    /// Returns how many more commands there is room for.
    pub fn lt_room(image: *const lt_image) -> u32;

    /// Returns how many commands have been accepted since lt_format.
    pub fn lt_count(image: *const lt_image) -> u64;

    /// Frees the image. It leaves no steps to carry out.
    pub fn lt_close(image: lt_image);

    /// Writes what the image in these bytes means, by its own layout, as `imem inspect` prints it. Returns 0. The
    /// text's length is at `written`. The text is at the start of the buffer if there is room for it, and the rest of
    /// the buffer is as it was. Else returns the refusal, and nothing is changed.
    pub fn lt_inspect(
        bytes: *const u8,
        length: usize,
        buffer: *mut core::ffi::c_char,
        room: usize,
        written: *mut usize,
    ) -> u8;

    /// Returns the length of the name of the refusal with this number: 1 to 24, LT_UNSERVED or LT_NO_CALL. The name is
    /// at the start of the buffer if there is room for it, with no zero after it, and the rest of the buffer is as it
    /// was. The name of LT_OK, and of any other number, is empty. No name has more than 11 letters.
    pub fn lt_refusal_name(refusal: u8, buffer: *mut core::ffi::c_char, room: usize) -> usize;

    /// Returns the length of the name of an answer, by its tag, in the same way. No name has more than 12 letters.
    pub fn lt_answer_name(tag: u8, buffer: *mut core::ffi::c_char, room: usize) -> usize;

    /// Writes what a command asked and how it was answered, such as "2.7 store 1 2: clash", as far as there is room,
    /// with a zero at its end. Returns the length of the whole text.
    pub fn lt_tell(
        command: *const lt_command,
        outcome: *const lt_outcome,
        buffer: *mut core::ffi::c_char,
        room: usize,
    ) -> usize;

    /// Makes an image of 1 to 1,048,576 cells, 1 to 64 elements and 16 to 4,096 slots at a path where nothing exists,
    /// and opens it. The image is formed as PATH.new, and gets its name once it is whole. A PATH.new that a stopped run
    /// left is removed if its lock is free. Returns -EEXIST if something has the name, and -EWOULDBLOCK if another run
    /// forms it.
    pub fn ltf_create(
        path: *const core::ffi::c_char,
        cells: u32,
        elements: u16,
        slots: u32,
        made: *mut *mut ltf,
    ) -> core::ffi::c_int;

    /// Opens the image of an existing file, under the file's lock. Returns -EWOULDBLOCK if another program has the
    /// lock, LTF_UNSYNCED, a refusal of lt_open, or an error of the system. A file that is no image is left as it is.
    pub fn ltf_open(path: *const core::ffi::c_char, made: *mut *mut ltf) -> core::ffi::c_int;

    /// Opens the image of an existing file, or makes it if nothing has the name.
    pub fn ltf_open_or_create(
        path: *const core::ffi::c_char,
        cells: u32,
        elements: u16,
        slots: u32,
        made: *mut *mut ltf,
    ) -> core::ffi::c_int;

    /// Serves one command. Returns its refusal, and writes its outcome at `outcome` once the outcome is on the disk.
    /// Before the command it keeps at least half of the journal empty, with a bounded amount of work in each call. So
    /// it returns LT_JOURNAL_FULL only if no checkpoint makes room.
    pub fn ltf_serve(file: *mut ltf, command: *const lt_command, outcome: *mut lt_outcome) -> core::ffi::c_int;

    /// Serves any commands, in their order, with the outcomes that ltf_serve would give for one after another. Up to 16
    /// neighbours are a group: requests, of one element or of several, and confirmations. The groups are a chain, in
    /// which each shares a sync with the next: n groups need n + 1 syncs. Returns 0, and writes the outcome of each
    /// command at its place in `outcomes`. Returns LT_DEVICE if a step failed: then each outcome may be untrue. Returns
    /// LT_NO_MEMORY for more than 16 commands if there is no memory for them: then none was served.
    pub fn ltf_serve_all(
        file: *mut ltf,
        commands: *const lt_command,
        count: usize,
        outcomes: *mut lt_outcome,
    ) -> core::ffi::c_int;

    /// Serves the first of these commands with two syncs, as ltf_serve_all does: at least one if there is any, and at
    /// most 16. Their number is at `served`; the others are untouched, and are put again. It is for programs to which
    /// commands keep coming. Returns 0, or LT_DEVICE if a step failed: then each of all outcomes is LT_DEVICE.
    pub fn ltf_serve_group(
        file: *mut ltf,
        commands: *const lt_command,
        count: usize,
        outcomes: *mut lt_outcome,
        served: *mut usize,
    ) -> core::ffi::c_int;

    /// ---- A front: what is asked, in its order, and goes out as a chain of groups
    ///
    /// As lt_front_submit, lt_front_next and lt_front_advance. What is asked acts in its turn; the other calls that
    /// serve act before it, but for ltf_serve_all, which returns LT_NO_CALL while anything is asked. ltf_close forgets
    /// it.
    pub fn ltf_front_submit(file: *mut ltf, ticket: u64, command: *const lt_command) -> core::ffi::c_int;

    pub fn ltf_front_next(file: *mut ltf, ticket: u64, command: *mut lt_command, most: u64) -> core::ffi::c_int;

    /// Writes those that acted at `told`, which has 16 places, and their number at `count`. If anything is asked, then
    /// some are told, or are ahead. It keeps at least half of the journal empty, and makes room if there is none.
    /// Returns 0, or LT_DEVICE if a step failed: then nobody is told.
    pub fn ltf_front_advance(file: *mut ltf, told: *mut lt_told, count: *mut usize) -> core::ffi::c_int;

    /// Returns the requests that the last ltf_serve, ltf_serve_group, ltf_serve_all or ltf_front_advance resumed: they
    /// waited before, and are answered now. Those of one cell are in the order in which they came. Their number is at
    /// `count`. They stay there until the next of these calls.
    pub fn ltf_woken(file: *const ltf, count: *mut usize) -> *const lt_waiter;

    /// Makes a sweep, or a turn of a checkpoint, if less than half of the journal is free. Returns 1, or 0 if there is
    /// nothing to do. It is for a program that is idle; each call that serves does the same work.
    pub fn ltf_tidy(file: *mut ltf) -> core::ffi::c_int;

    /// Writes the entry that is kept under an element's number at `outcome`, and returns its refusal, as lt_collect
    /// does.
    pub fn ltf_collect(file: *const ltf, element: u16, number: u64, outcome: *mut lt_outcome) -> core::ffi::c_int;

    /// Returns the request that is kept under an element's number. Its tag is 0 if there is none.
    pub fn ltf_entry(file: *const ltf, element: u16, number: u64) -> lt_command;

    /// Writes the requests that wait at a cell at `waiters`, as lt_waiters does.
    pub fn ltf_waiters(file: *const ltf, address: u32, waiters: *mut lt_waiter, room: usize) -> usize;

    pub fn ltf_window(file: *const ltf, element: u16) -> lt_bounds;

    /// Show cells with their blocks, the numbers of the image, and who is stuck, as the calls of luntrebis.h. They make
    /// no request, and show what is on the disk: what is ahead hasn't acted.
    pub fn ltf_cell(file: *const ltf, address: u32) -> lt_presence;

    pub fn ltf_cells(file: *const ltf, from: u32, cells: *mut lt_presence, room: usize) -> usize;

    pub fn ltf_stat(file: *const ltf) -> lt_figures;

    pub fn ltf_stuck(file: *const ltf, stuck: *mut lt_waiter, room: usize) -> usize;

    /// Return how many more commands there is room for, how many were accepted since the image was made, and its sizes.
    pub fn ltf_room(file: *const ltf) -> u32;

    pub fn ltf_count(file: *const ltf) -> u64;

    pub fn ltf_limits(file: *const ltf) -> lt_sizes;

    /// Copies the image to a path where nothing exists, with all that was served, and returns once the copy is on the
    /// disk. The copy is formed as PATH.new, is seen to open as an image, and gets its name once it is whole. What is
    /// ahead isn't in it. Returns -EEXIST if something has the name, LT_DEVICE after a lost step, or why there is no
    /// copy.
    pub fn ltf_backup(file: *const ltf, path: *const core::ffi::c_char) -> core::ffi::c_int;

    pub fn ltf_work(file: *const ltf) -> ltf_counts;

    pub fn ltf_failure(file: *const ltf) -> ltf_fault;

    /// Writes a sentence that says what a returned number means, as far as there is room, with a zero at its end.
    /// Returns the length of the whole sentence.
    pub fn ltf_say(answer: core::ffi::c_int, buffer: *mut core::ffi::c_char, room: usize) -> usize;

    pub fn ltf_close(file: *mut ltf);
}
