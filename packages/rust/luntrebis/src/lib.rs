#![doc = include_str!("../README.md")]
#![warn(missing_docs, unsafe_op_in_unsafe_fn)]

#[macro_use]
mod shared;
mod helpers;
mod lanes;
mod memories;
mod owner;
mod pending;
mod words;

pub use helpers::{fetch_bytes, fetch_range, layout, store_bytes, Asks, Block, Cells, Counter, Queue};
pub use lanes::Lanes;
pub use memories::{inspect, Image, Limits, Memory, Work};
pub use pending::{Pending, Value};
pub use shared::{Element, ElementAnew, Shared};
pub use words::{Cell, Error, Kind, Of, Op, Refusal, Reply, Request, Result, Stat, State};

/// Returns what the library says of its own making, such as `0.1.0, commit 3f2a91c07d1b, all proved`.
pub fn version() -> &'static str {
    // SAFETY: it is a text of the library, which ends with a zero and stays.
    unsafe { std::ffi::CStr::from_ptr(luntrebis_sys::lt_version_text()) }.to_str().unwrap_or("")
}
