//! Files of Intel HEX and of S-records: the blocks of an image written, and a file read into bytes and blocks. `load` is the address of the first byte.

use crate::{count_of, ffi, Refusal};

pub use crate::reasons::{reason, BadFile, Reason};

/// Which records a file is read as.
#[derive(Clone, Copy, Debug, PartialEq, Eq)]
pub enum Format {
    /// Intel HEX.
    IntelHex = 0,
    /// S-records, of either width.
    SRecords = 1,
}

/// How many bytes an address in S-records has.
#[derive(Clone, Copy, Debug, PartialEq, Eq)]
pub enum Width {
    /// S1 and S9.
    Two = 2,
    /// S3 and S7.
    Four = 4,
}

/// Characters in which every file of records fits that `blocks` blocks of an image of so many bytes make, of either format: with so much room the calls that
/// write never answer 14. It is what the theorem `records-length` of crates/thm_record_room/specs/Theorems/Room.antt says of every file that is not refused 16 or 4:
/// 16 times its length is at most 47 for each byte, 225 for each block, and 496 for each 64 KiB begun and one more.
///
/// ```
/// use denkumari::records::room;
/// // what the flash station's program lends is enough for all that it can write: theorem `station-files-fit`
/// assert!(room(16_384, 4_096) <= 131_072);
/// // and what the program lends that turns records around: theorem `turned-files-fit`
/// assert!(room(1_048_576, 4_096) <= 3_145_728);
/// ```
pub fn room(image: usize, blocks: usize) -> usize {
    let bytes = image.saturating_mul(47);
    let lines = (image / 65_536).saturating_add(2).saturating_mul(496);
    bytes.saturating_add(blocks.saturating_mul(225)).saturating_add(lines) / 16
}

/// Writes blocks on byte edges, lent as offsets and sizes in bits, as Intel HEX, and answers the length of the text. Refused 16 for a block that is empty,
/// outside the image or off a byte edge, 4 for blocks that don't ascend or share a bit and for an address past 32 bits, then 14 for the text.
pub fn write_hex(image: &[u8], offsets: &[u64], sizes: &[u64], load: u32, text: &mut [u8]) -> Result<usize, Refusal> {
    count_of(ffi::write_hex(image, offsets, sizes, load, text))
}

/// The same as S-records; 4 also for an address that does not fit the width.
pub fn write_srec(image: &[u8], offsets: &[u64], sizes: &[u64], load: u32, width: Width, text: &mut [u8]) -> Result<usize, Refusal> {
    count_of(ffi::write_srec(image, offsets, sizes, load, width as u8, text))
}

/// Reads a file: its bytes go to `bytes`, counted from the load address, and every other byte stays; its blocks, in bits, ascending, touching ones
/// joined, to the two lists. Answers how many blocks there are. Refused 4 for a bad file, then 14 for the bytes or the lists. It takes zeros for an eighth of
/// `bytes` meanwhile, so that records in any order cost no more than those that ascend.
pub fn read(format: Format, text: &[u8], load: u32, bytes: &mut [u8], offsets: &mut [u64], sizes: &mut [u64]) -> Result<usize, Refusal> {
    let mut scratch = scratch_for(bytes.len());
    count_of(ffi::read_records(format as u8, text, load, bytes, offsets, sizes, &mut scratch))
}

/// A mark for each of so many addresses, a bit each, by which records that jump are held against those before them.
pub(crate) fn scratch_for(addresses: usize) -> Vec<u8> {
    vec![0; addresses / 8 + 1]
}

/// Where the bytes of a file stand: the addresses from the lowest that it gives a byte to up to the highest, an empty range where it gives none. Refused 4 for
/// a file that is bad whatever the load address. [`read`] from its start needs as many bytes as it is long.
///
/// ```
/// use denkumari::records::{extent, Format};
/// assert_eq!(extent(Format::IntelHex, b":02123400ABCD40\n:00000001FF\n"), Ok(0x1234..0x1236));
/// ```
pub fn extent(format: Format, text: &[u8]) -> Result<std::ops::Range<u64>, Refusal> {
    let r = ffi::record_extent(format as u8, text, &mut scratch_for(text.len()));
    match r.refusal {
        0 => Ok(r.lowest..r.end),
        number => Err(Refusal::told(number, 0, 0, 0)),
    }
}

/// The first line, from 0, at which no good file can go on; `None` of a good file.
pub fn line_at_fault(format: Format, text: &[u8], load: u32) -> Option<u64> {
    let r = ffi::record_fault(format as u8, text, load, &mut scratch_for(text.len()));
    (r.fault != 0).then_some(r.line)
}
