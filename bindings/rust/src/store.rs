//! The store of placed intervals and marks, by itself.

use crate::ffi;
use std::fmt;

/// Intervals of bits, ascending, no two sharing a bit: the first `count` of two arrays; and marks, ascending, equal ones each, none strictly inside an
/// interval: the first `mark_count` of a third. What the arrays hold past them matters to nothing and is left as it is.
#[derive(Clone, Debug)]
pub struct Store {
    /// First bits.
    pub positions: [u64; 512],
    /// Sizes in bits.
    pub sizes: [u64; 512],
    /// How many there are.
    pub count: u64,
    /// Marks: the accepted offers of size 0.
    pub marks: [u64; 512],
    /// How many there are.
    pub mark_count: u64,
}

/// Why an offer was refused. The store is left as it was.
#[derive(Clone, Copy, Debug, PartialEq, Eq)]
#[non_exhaustive]
#[allow(missing_docs)]
pub enum NotStored {
    /// 15: the store is not one; 512 for either count, else the first interval at fault, else the first mark at fault.
    BadStore { entry: u64 },
    /// 4: the position is above 8,589,934,590, or the size above 4,294,967,295; of a list of offers, also where one lacks its position or its size.
    Malformed,
    /// 12: the offer shares a bit with the interval, or is empty and strictly inside one; that interval's start and size. Or a mark is strictly inside
    /// the offer: the lowest such mark, and size 0.
    Overlap { start: u64, size: u64 },
    /// 13: 512 intervals are stored, or for an offer of size 0, 512 marks.
    Full,
    /// A number that this crate does not know: the archive is newer than the crate.
    Unknown { number: u64, place: u64 },
}

/// Which offer of a list was refused, counted from 0, and why. Of a list none is kept then: the store is left as it was.
#[derive(Clone, Copy, Debug, PartialEq, Eq)]
pub struct NoneStored {
    /// Its number; 0 where the store itself is at fault.
    pub offer: u64,
    /// Why.
    pub why: NotStored,
}

fn answer(refusal: u64, place: u64, second: u64) -> Result<(), NotStored> {
    match refusal {
        0 => Ok(()),
        4 => Err(NotStored::Malformed),
        12 => Err(NotStored::Overlap { start: place, size: second }),
        13 => Err(NotStored::Full),
        15 => Err(NotStored::BadStore { entry: place }),
        number => Err(NotStored::Unknown { number, place }),
    }
}

impl Store {
    /// A store that holds nothing.
    pub const fn new() -> Store {
        Store { positions: [0; 512], sizes: [0; 512], count: 0, marks: [0; 512], mark_count: 0 }
    }

    /// Offers `size` bits from bit `position` on. Accepted, they are put in at their place; of size 0, among the marks.
    pub fn offer(&mut self, position: u64, size: u64) -> Result<(), NotStored> {
        let r = ffi::offer(&mut self.positions, &mut self.sizes, self.count, &mut self.marks, self.mark_count, position, size);
        self.count = r.count;
        self.mark_count = r.marks;
        answer(r.refusal, r.place, r.second)
    }

    /// Many offers, all or none: offer i has `sizes[i]` bits from bit `positions[i]` on. The store is looked at once, so that many offers cost little more than
    /// their search; accepted, it is what so many calls of [`Store::offer`] leave. It takes 14 KiB of stack.
    pub fn offer_all(&mut self, positions: &[u64], sizes: &[u64]) -> Result<(), NoneStored> {
        let r = ffi::offers(&mut self.positions, &mut self.sizes, self.count, &mut self.marks, self.mark_count, positions, sizes);
        self.count = r.count;
        self.mark_count = r.marks;
        answer(r.refusal, r.place, r.second).map_err(|why| NoneStored { offer: r.offer, why })
    }

    /// The stored intervals, start and size, in order.
    pub fn intervals(&self) -> impl Iterator<Item = (u64, u64)> + '_ {
        let count = usize::try_from(self.count).unwrap_or(usize::MAX);
        self.positions.iter().copied().zip(self.sizes.iter().copied()).take(count)
    }

    /// The marks, in order.
    pub fn marks(&self) -> impl Iterator<Item = u64> + '_ {
        self.marks.iter().copied().take(usize::try_from(self.mark_count).unwrap_or(usize::MAX))
    }
}

impl Default for Store {
    fn default() -> Store {
        Store::new()
    }
}

impl NotStored {
    /// The number of the refusal in the rules' table.
    pub fn number(&self) -> u64 {
        match *self {
            NotStored::BadStore { .. } => 15,
            NotStored::Malformed => 4,
            NotStored::Overlap { .. } => 12,
            NotStored::Full => 13,
            NotStored::Unknown { number, .. } => number,
        }
    }
}

impl fmt::Display for NotStored {
    fn fmt(&self, f: &mut fmt::Formatter<'_>) -> fmt::Result {
        write!(f, "refused {}: ", self.number())?;
        match *self {
            NotStored::BadStore { entry: 512 } => write!(f, "the store has over 512 intervals or marks"),
            NotStored::BadStore { entry } => write!(f, "interval {entry} of the store is at fault, or mark {entry}"),
            NotStored::Malformed => write!(f, "the offer is past its limits"),
            NotStored::Overlap { start, size: 0 } => write!(f, "a mark at bit {start} is strictly inside"),
            NotStored::Overlap { start, size } => write!(f, "a bit is shared with what stands from bit {start} on, {size} bits"),
            NotStored::Full => write!(f, "512 intervals, or marks, are stored already"),
            NotStored::Unknown { place, .. } => write!(f, "this crate has no words for it, at {place}"),
        }
    }
}

impl std::error::Error for NotStored {}

impl fmt::Display for NoneStored {
    fn fmt(&self, f: &mut fmt::Formatter<'_>) -> fmt::Result {
        write!(f, "offer {}: {}", self.offer, self.why)
    }
}

impl std::error::Error for NoneStored {}
