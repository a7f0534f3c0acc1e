//! From a table of banks and a list of nodes to an image, its spans and its blocks.
//!
//! Every answer comes from a library that is proved against the rules of the repository's `docs/`; this crate only passes slices to it and
//! takes its numbers apart. It has no dependencies, never panics and asks for no `unsafe`. The library is x86-64 Linux code.
//! Stack: include/denkumari.h says what each call needs, 136 KiB at the most.
//!
//! There are three ways in:
//!
//! - [`Recorder`], for an assembler: banks and nodes once, then pass by pass what is known of each node; it counts bits and cells for itself, names nodes in
//!   what it says of a refusal, and writes the same layout as a file for `tools/layout`, for a bug report or for a replay.
//! - [`Program`], tables that it owns.
//! - [`build`], [`layout_form`] and the rest, over slices that the caller lends; these allocate nothing.
//!
//! From an assembler's two passes to the flash station's file:
//!
//! ```
#![doc = include_str!("../examples/recorder.rs")]
//! ```
//!
//! From lent tables to image and blocks:
//!
//! ```
#![doc = include_str!("../examples/worked.rs")]
//! ```
//!
//! # What moved in 0.2.0
//!
//! - [`Program::node`] takes a [`Kind`] in the place of a number, and the cells of [`Program::row`] have a [`State`]. The constants of [`kind`] are there
//!   still, for the slices of [`Nodes`]; `Kind::try_from` and `State::try_from` take numbers.
//! - A row of a wrong length, whose cells went to other nodes, is refused by [`Program::build`] as [`Refusal::RowLength`].
//! - [`Refusal`] has that case more; it is `#[non_exhaustive]`, as it was.
//! - Everything else is as in 0.1.0.

#![deny(missing_docs)]

mod fault;
mod ffi;
mod form;
mod kinds;
mod maps;
mod misuse;
mod names;
pub mod overlays;
mod owned;
pub mod readback;
mod reasons;
mod recorder;
pub mod records;
mod store;
mod values;
mod words;

pub use fault::{Fault, NodeAt};
pub use form::Form;
pub use kinds::{Kind, NoSuch, State};
pub use maps::{map, Map, Standing, Stopped};
pub use misuse::Misuse;
pub use names::{BadNames, Name, Names};
pub use owned::{Bank, Block, Built, Program, Span};
pub use recorder::{Node, NotBuilt, Place, Recorder};
pub use store::{NoneStored, NotStored, Store};
pub use values::Values;

/// The bank has a size.
pub const HAS_SIZE: u8 = 1;
/// The bank has an output offset.
pub const HAS_OFFSET: u8 = 2;
/// The bank has a label alignment.
pub const HAS_ALIGN: u8 = 4;
/// The bank's range is filled.
pub const FILL: u8 = 8;

/// The offset of a span that has none.
pub const NO_OFFSET: u64 = u64::MAX;

/// How far the image is filled.
#[derive(Clone, Copy, Debug, Default, PartialEq, Eq)]
pub enum Fill {
    /// As far as the fill of customasm: a filled bank whose last bit is the image's length is left out.
    #[default]
    Inherited = 0,
    /// To the end of every filled bank that has a size and an offset.
    Full = 1,
}

/// What the caller of a build chooses.
#[derive(Clone, Copy, Debug, Default, PartialEq, Eq)]
pub struct Choices {
    /// How far the image is filled.
    pub fill: Fill,
    /// Whether bank 0 is closed to labels, written items and reserves even where it is the only bank, as in form 2. Files say so themselves.
    pub closed: bool,
    /// The page size in bits of a device with pages, whose profile is then checked before the first pass.
    pub page: Option<u32>,
}

/// Kinds of nodes as the numbers that [`Nodes`] lends; [`Kind`] has them by name.
#[allow(missing_docs)]
pub mod kind {
    pub const NOTHING: u8 = 0;
    pub const SWITCH: u8 = 1;
    pub const LABEL: u8 = 2;
    pub const CONSTANT: u8 = 3;
    pub const INSTRUCTION: u8 = 4;
    /// Data of declared size, which is the first row's.
    pub const DATA: u8 = 5;
    pub const OPEN_DATA: u8 = 6;
    pub const RESERVE: u8 = 7;
    pub const ALIGN: u8 = 8;
    pub const ADDR: u8 = 9;
    pub const ASSERT: u8 = 10;
}

/// The banks, one element of each list for a bank. A number whose flag is clear is not read.
#[derive(Clone, Copy, Debug)]
pub struct Banks<'a> {
    /// Bits to an address.
    pub units: &'a [u16],
    /// The first address.
    pub starts: &'a [i64],
    /// Sizes in bits.
    pub sizes: &'a [u32],
    /// Where the bank's first bit is in the image.
    pub offsets: &'a [u32],
    /// Label alignments in bits.
    pub aligns: &'a [u32],
    /// Sums of [`HAS_SIZE`], [`HAS_OFFSET`], [`HAS_ALIGN`] and [`FILL`].
    pub flags: &'a [u8],
    /// What a filled bank with size and offset has where no item is written, up to the image's length: 0 or 1, for bank 0 it is 0.
    pub fill_bits: &'a [u8],
}

/// The nodes: a kind and an operand for each, and in each of `rows` rows, one after the other, a number and a state for each.
#[derive(Clone, Copy, Debug)]
pub struct Nodes<'a> {
    /// See [`kind`].
    pub kinds: &'a [u8],
    /// A bank for 1, a depth for 2 and 3, a first bit in the values for 4 to 6.
    pub operands: &'a [u32],
    /// Row by row.
    pub numbers: &'a [u32],
    /// Row by row: 0 resolved, 1 stable, 2 unresolved ([`State`]).
    pub states: &'a [u8],
    /// How many rows there are, 1 to 16.
    pub rows: u64,
    /// The bytes that items are taken from.
    pub values: &'a [u8],
    /// The pass limit.
    pub limit: u8,
}

/// Where spans are written: labels and written items, in the order of the nodes. The shortest list counts.
#[derive(Debug)]
pub struct Spans<'a> {
    /// Addresses in whole units.
    pub addresses: &'a mut [i64],
    /// Offsets in the image in bits, or [`NO_OFFSET`].
    pub offsets: &'a mut [u64],
    /// Sizes in bits, 0 for a label.
    pub sizes: &'a mut [u64],
}

/// What a bank lost to `align` and to label alignment.
#[derive(Clone, Copy, Debug, Default, PartialEq, Eq)]
#[repr(C)]
pub struct Padding {
    /// The bits.
    pub bits: u64,
    /// The whole address units of each skip, its bits over the bank's unit, rounded down, added up.
    pub units: u64,
}

/// An accepted layout.
#[derive(Clone, Copy, Debug, PartialEq, Eq)]
pub struct Layout {
    /// The first pass that was not unresolved; 0 for pass limit 0.
    pub k: u64,
    /// Passes run.
    pub passes: u64,
    /// The image's length in bits.
    pub length: u64,
    /// How many spans were written.
    pub spans: usize,
    /// What each bank lost to `align` and to label alignment in the last pass.
    pub padding: [Padding; 16],
}

/// A buffer that was too short.
#[derive(Clone, Copy, Debug, PartialEq, Eq)]
#[non_exhaustive]
pub enum Buffer {
    /// The image, or the bytes that records are read into.
    Image,
    /// The lists of spans.
    Spans,
    /// The lists of blocks.
    Blocks,
    /// The hex digits, or the text of records.
    Hex,
}

/// Why a call was refused. A refused call leaves everything lent as it was. `node` and `bank` count from 0, `passes` is how many passes ran.
/// Number 6 is no longer given. It is printed in words.
#[derive(Clone, Copy, Debug, PartialEq, Eq)]
#[allow(missing_docs)]
#[non_exhaustive]
pub enum Refusal {
    /// 1: not 1 to 16 banks, or lists of banks of different lengths.
    BankCount,
    /// 2: a number or the fill bit of the bank is beyond its limit, or it is filled and has size 0.
    BankNumber { bank: u64 },
    /// 3: two banks overlap; the first such pair.
    BanksOverlap { first: u64, second: u64 },
    /// 4: something given is malformed; the node, or 0, 1 for the count of nodes, of rows, 3 for an unknown fill, or the broken field of a file.
    Malformed { place: u64 },
    /// 4, by this crate: a row of a [`Program`] has not a cell for each node. Rows count from 0.
    RowLength { row: u64, cells: u64, nodes: u64 },
    /// 5: a position would pass 4,294,967,295.
    PositionPast { node: u64, passes: u64 },
    /// 7: a label in the last pass is between two addresses.
    LabelOffBoundary { node: u64, passes: u64 },
    /// 8: the last pass ended unresolved.
    Unresolved { passes: u64 },
    /// 9: bank 0 is used though there are others or it is closed.
    DefaultBank { node: u64, passes: u64 },
    /// 10: an item ends past its bank's size.
    PastBank { node: u64, passes: u64 },
    /// 11: an item is written in a bank without output offset.
    NoOutput { node: u64, passes: u64 },
    /// 12: an item would share a bit with another; that other's start and size in bits.
    Overlap { start: u64, size: u64, passes: u64 },
    /// 13: over 512 items.
    StoreFull { node: u64, passes: u64 },
    /// 14: a buffer is too short.
    TooShort { buffer: Buffer, passes: u64 },
    /// 16: a part of an image is empty, outside it, or not on byte edges.
    BadPart,
    /// 17: an overlay covers a range only in part.
    PartlyCovered,
    /// 18: the way back to form 1 would drop a fill bit of one.
    FillBitLost,
    /// 19: the layout breaks a rule of the profile, 1 to 6; the rule's bank or node, 0 for the page size.
    OffProfile { rule: u64, at: u64 },
    /// A number that this crate does not know: the archive is newer than the crate.
    Unknown { number: u64, place: u64 },
}

impl Refusal {
    /// The number of the refusal in the rules' table.
    pub fn number(&self) -> u64 {
        match *self {
            Refusal::BankCount => 1,
            Refusal::BankNumber { .. } => 2,
            Refusal::BanksOverlap { .. } => 3,
            Refusal::Malformed { .. } | Refusal::RowLength { .. } => 4,
            Refusal::PositionPast { .. } => 5,
            Refusal::LabelOffBoundary { .. } => 7,
            Refusal::Unresolved { .. } => 8,
            Refusal::DefaultBank { .. } => 9,
            Refusal::PastBank { .. } => 10,
            Refusal::NoOutput { .. } => 11,
            Refusal::Overlap { .. } => 12,
            Refusal::StoreFull { .. } => 13,
            Refusal::TooShort { .. } => 14,
            Refusal::BadPart => 16,
            Refusal::PartlyCovered => 17,
            Refusal::FillBitLost => 18,
            Refusal::OffProfile { .. } => 19,
            Refusal::Unknown { number, .. } => number,
        }
    }

    fn told(number: u64, place: u64, second: u64, passes: u64) -> Refusal {
        let node = place;
        match number {
            1 => Refusal::BankCount,
            2 => Refusal::BankNumber { bank: place },
            3 => Refusal::BanksOverlap { first: place, second },
            4 => Refusal::Malformed { place },
            5 => Refusal::PositionPast { node, passes },
            7 => Refusal::LabelOffBoundary { node, passes },
            8 => Refusal::Unresolved { passes },
            9 => Refusal::DefaultBank { node, passes },
            10 => Refusal::PastBank { node, passes },
            11 => Refusal::NoOutput { node, passes },
            12 => Refusal::Overlap { start: place, size: second, passes },
            13 => Refusal::StoreFull { node, passes },
            14 => Refusal::too_short(place, passes),
            16 => Refusal::BadPart,
            17 => Refusal::PartlyCovered,
            18 => Refusal::FillBitLost,
            19 => Refusal::OffProfile { rule: place, at: second },
            _ => Refusal::Unknown { number, place },
        }
    }

    fn too_short(place: u64, passes: u64) -> Refusal {
        let buffer = match place {
            0 => Buffer::Image,
            1 => Buffer::Spans,
            2 => Buffer::Blocks,
            3 => Buffer::Hex,
            _ => return Refusal::Unknown { number: 14, place },
        };
        Refusal::TooShort { buffer, passes }
    }
}

fn layout_of(r: ffi::DkLayout) -> Result<Layout, Refusal> {
    match r.refusal {
        // at most 4,096 spans are counted, and each was written into a slice
        0 => Ok(Layout { k: r.k, passes: r.passes, length: r.length, spans: r.spans as usize, padding: r.padding }),
        number => Err(Refusal::told(number, r.place, r.second, r.passes)),
    }
}

fn count_of(r: ffi::DkCount) -> Result<usize, Refusal> {
    match r.refusal {
        0 => Ok(r.count as usize),
        number => Err(Refusal::told(number, r.place, 0, 0)),
    }
}

/// Lays tables out: writes the image, bits from the top of each byte and zero past its length, and the spans.
pub fn build(banks: &Banks<'_>, nodes: &Nodes<'_>, choices: Choices, image: &mut [u8], spans: Spans<'_>) -> Result<Layout, Refusal> {
    layout_of(ffi::build(banks, nodes, choices, image, spans))
}

/// The pages of each bank in the profile of a device with pages of `page` bits, `None` for a bank without offset; or why the tables don't keep it.
pub fn profile(banks: &Banks<'_>, nodes: &Nodes<'_>, fill: Fill, page: u32) -> Result<[Option<u64>; 16], Refusal> {
    let r = ffi::profile(banks, nodes, fill as u8, page);
    match r.refusal {
        0 => Ok(r.pages.map(|pages| if pages == u64::MAX { None } else { Some(pages) })),
        number => Err(Refusal::told(number, r.place, r.second, 0)),
    }
}

/// Lays a file of form 1 out, at most 65,000 bytes, or of form 2, at most 65,536; in the profile of a device with pages where a page size is given.
pub fn layout_form(file: &[u8], fill: Fill, page: Option<u32>, image: &mut [u8], spans: Spans<'_>) -> Result<Layout, Refusal> {
    layout_of(ffi::form(file, fill as u8, page, image, spans))
}

/// A file of form 1 in form 2, with fill bits zero; one bank becomes two. Answers its length.
pub fn to_form2(file: &[u8], out: &mut [u8]) -> Result<usize, Refusal> {
    count_of(ffi::to_form2(file, out))
}

/// A file of form 2 in form 1. Answers its length.
pub fn to_form1(file: &[u8], out: &mut [u8]) -> Result<usize, Refusal> {
    count_of(ffi::to_form1(file, out))
}

/// Writes the blocks that spans make, taken by offset, and answers how many there are. At most 4,096 spans, as many offsets as sizes.
pub fn get_blocks(offsets: &[u64], sizes: &[u64], block_offsets: &mut [u64], block_sizes: &mut [u64]) -> Result<usize, Refusal> {
    count_of(ffi::blocks(offsets, sizes, block_offsets, block_sizes))
}

/// The first `bits` bits in hex, four bits a digit, written into `digits`.
pub fn hex<'a>(bytes: &[u8], bits: u64, digits: &'a mut [u8]) -> Result<&'a str, Refusal> {
    let count = count_of(ffi::hex(bytes, bits, digits))?;
    // the digits are 0 to 9 and a to f, so neither alternative is ever met
    let written = digits.get(..count).unwrap_or_default();
    Ok(std::str::from_utf8(written).unwrap_or_default())
}

/// The part of an image that a block on byte edges stands in; `offset` and `size` are in bits.
pub fn part(image: &[u8], offset: u64, size: u64) -> Result<&[u8], Refusal> {
    let r = ffi::part(image, offset, size);
    match r.refusal {
        0 => image.get(r.start as usize..).and_then(|rest| rest.get(..r.length as usize)).ok_or(Refusal::BadPart),
        number => Err(Refusal::told(number, 0, 0, 0)),
    }
}
