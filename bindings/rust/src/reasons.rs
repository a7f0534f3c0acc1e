//! Why a file of records is bad: the line at fault, one reason, and what goes with it, in words too.

use crate::ffi;
use crate::records::{scratch_for, Format};
use std::fmt;

/// What is wrong with the line at fault: the first of these that there is, in this order.
#[allow(missing_docs)] // of the fields: each case says what they are
#[derive(Clone, Copy, Debug, PartialEq, Eq)]
pub enum Reason {
    /// It does not begin with a colon or, in S-records, with S; a blank line too.
    NoStart,
    /// A character that should be a digit, at a place in the line, from 0.
    NoDigit { place: u64, character: u8 },
    /// How many characters the line has, and how many its count asks for.
    Length { found: u64, wanted: u64 },
    /// The count, and what records of its type have, exactly or at least.
    Count { found: u8, wanted: u8 },
    /// The checksum: what it is, and what it should be.
    Checksum { found: u8, wanted: u8 },
    /// A type that is not read: its byte, in S-records its character.
    Type { found: u8 },
    /// The bytes of its address, and those of the lines before it.
    Width { found: u8, in_force: u8 },
    /// The address field of a record of type 01 or 04, which has 0000.
    Field { found: u16 },
    /// The address of the line's last byte, and the last that there is.
    PastLast { address: u64, last: u64 },
    /// The address of the line's first byte, and the lowest that a line of the file gives a byte at: a load address that is not above it would do.
    BelowLoad { address: u64, lowest: u64 },
    /// The first line, from 0, that gives one of this line's bytes, and the lowest address that both give.
    GivenTwice { by: u64, address: u64 },
    /// The line stands behind the end record.
    BehindEnd,
    /// The text ends without an end record.
    NoEnd,
}

/// A file of records that is bad.
#[derive(Clone, Copy, Debug, PartialEq, Eq)]
pub struct BadFile {
    /// Which records it was read as.
    pub format: Format,
    /// The first line at which no good file can go on, from 0.
    pub line: u64,
    /// What is wrong with it.
    pub reason: Reason,
}

/// Why a file is bad; `None` of a good file.
///
/// ```
/// use denkumari::records::{reason, Format};
/// let bad = reason(Format::IntelHex, b":0100000041BF\n:00000001FF\n", 0).unwrap();
/// assert_eq!(bad.to_string(), "line 1: the checksum is BF, should be BE");
/// assert_eq!(bad.quoted(b":0100000041BF\n:00000001FF\n"), "line 1: the checksum is BF, should be BE: \":0100000041BF\"");
/// ```
pub fn reason(format: Format, text: &[u8], load: u32) -> Option<BadFile> {
    let r = ffi::record_reason(format as u8, text, load, &mut scratch_for(text.len()));
    let (a, b) = (r.first, r.second);
    let reason = match r.reason {
        0 => return None,
        1 => Reason::NoStart,
        2 => Reason::NoDigit { place: a, character: b as u8 },
        3 => Reason::Length { found: a, wanted: b },
        4 => Reason::Count { found: a as u8, wanted: b as u8 },
        5 => Reason::Checksum { found: a as u8, wanted: b as u8 },
        6 => Reason::Type { found: a as u8 },
        7 => Reason::Width { found: a as u8, in_force: b as u8 },
        8 => Reason::Field { found: a as u16 },
        9 => Reason::PastLast { address: a, last: b },
        10 => Reason::BelowLoad { address: a, lowest: b },
        11 => Reason::GivenTwice { by: a, address: b },
        12 => Reason::BehindEnd,
        _ => Reason::NoEnd,
    };
    Some(BadFile { format, line: r.line, reason })
}

impl BadFile {
    /// The words with the line behind them, as it stands in the text, without its end.
    pub fn quoted(&self, text: &[u8]) -> String {
        let line = usize::try_from(self.line).ok().and_then(|n| text.split(|&c| c == b'\n').nth(n));
        match line.map(|l| l.strip_suffix(b"\r").unwrap_or(l)) {
            Some(l) if !l.is_empty() => format!("{self}: \"{}\"", l.escape_ascii()),
            _ => self.to_string(),
        }
    }
}

impl fmt::Display for BadFile {
    /// Lines are counted from 1 here, as editors count them.
    fn fmt(&self, f: &mut fmt::Formatter<'_>) -> fmt::Result {
        let start = if self.format == Format::IntelHex { "a colon" } else { "S" };
        write!(f, "line {}: ", self.line + 1)?;
        match self.reason {
            Reason::NoStart => write!(f, "it does not begin with {start}"),
            Reason::NoDigit { place, character } => write!(f, "character {} is no hex digit: '{}'", place + 1, character.escape_ascii()),
            Reason::Length { found, wanted } => write!(f, "it has {found} characters, should have {wanted}"),
            Reason::Count { found, wanted } => write!(f, "the count is {found:02X}, and its type requires {wanted:02X}"),
            Reason::Checksum { found, wanted } => write!(f, "the checksum is {found:02X}, should be {wanted:02X}"),
            Reason::Type { found } if self.format == Format::IntelHex => {
                write!(f, "type {found:02X} is not read (types 00, 01 and 04 are)")
            }
            Reason::Type { found } => write!(f, "type S{} is not read (S0, S1 with S9 and S3 with S7 are)", found.escape_ascii()),
            Reason::Width { found, in_force } => write!(f, "its address has {found} bytes, those before it {in_force}: mixed widths"),
            Reason::Field { found } => write!(f, "its address field is {found:04X}, should be 0000"),
            Reason::PastLast { address, last } => write!(f, "its last byte is at {address:#X}, past the last address {last:#X}"),
            Reason::BelowLoad { address, lowest } => {
                write!(f, "address {address:#X} is below the load address: the lowest address in the file is {lowest:#X}")
            }
            Reason::GivenTwice { by, address } => write!(f, "the byte at {address:#X} is given by line {} already", by + 1),
            Reason::BehindEnd => write!(f, "nothing may stand behind the end record"),
            Reason::NoEnd => write!(f, "the end record is missing"),
        }
    }
}

impl std::error::Error for BadFile {}
