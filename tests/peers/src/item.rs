//! What the workloads have in common: elements of arenas, spans, checksums and samples.
use crate::arena::{Arena, Handle, Range};
use crate::non_max_u32::NonMaxU32;
use crate::{Sample, Span};
use std::time::{Duration, Instant};

/// An element of 8 bytes.
#[derive(Clone, Copy, Debug, Eq, Hash, PartialEq)]
pub struct Item {
    pub key: u64,
}

pub fn item_of(number: u32) -> Item {
    Item { key: u64::from(number).wrapping_mul(0x9E37_79B9_7F4A_7C15) }
}

pub fn span(number: u32) -> Span {
    Span::new(number, number.saturating_add(4))
}

pub fn mixed(sum: u64, number: u64) -> u64 {
    sum.wrapping_mul(31).wrapping_add(number)
}

pub fn handle<T>(number: u32) -> Handle<T> {
    Handle::new(NonMaxU32::new(number).unwrap())
}

/// Returns the range of the handles below `size`.
pub fn up_to<T>(size: u32) -> Range<T> {
    Range::new_from_bounds(handle(0), handle(size - 1))
}

/// Times a call. The readings of the clock are those that callgrind looks for.
pub fn timed<T>(call: impl FnOnce() -> T) -> (T, Duration) {
    let start = Instant::now();
    let given = call();
    (given, start.elapsed())
}

pub fn sample(operations: u32, given: u64, left: u64, time: Duration) -> Sample {
    Sample { operations: operations.into(), checksum: mixed(given, left), time }
}
