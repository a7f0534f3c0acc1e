//! Read-back: what was flashed, read back and held against the image.

use crate::{count_of, ffi, Refusal};

/// Bytes from some address on, and the blocks of them that are meant: block i is `sizes[i]` bits from bit `offsets[i]` on. As many offsets as sizes, no block
/// empty, ascending, no bit in two of them, each on byte edges and inside the bytes. [`crate::records`] leaves what it read so.
#[derive(Clone, Copy, Debug)]
pub struct Given<'a> {
    /// The bytes.
    pub bytes: &'a [u8],
    /// Where each block begins, in bits.
    pub offsets: &'a [u64],
    /// How long each block is, in bits.
    pub sizes: &'a [u64],
}

/// The kind of a run whose bytes are asked for and not given.
pub const MISSING: u8 = 1;
/// The kind of a run whose bytes are given with another value.
pub const DIFFERENT: u8 = 2;

/// Holds `found`, what was read back, against `image`, both counted from the same address: writes each longest run of bytes of one kind that blocks of the
/// image ask for and that are not given ([`MISSING`]) or given with another value ([`DIFFERENT`]), ascending, as its first byte, its count of bytes and its
/// kind. Answers how many there are: 0 where, and only where, every byte that is asked for is given with its value. Refused 4 and 16 for the blocks, then 14
/// where a list is too short.
///
/// ```
/// use denkumari::readback::{verify, Given, DIFFERENT};
/// use denkumari::{records, Bank, Kind, Program, State::Resolved};
/// let mut program = Program::new(1);
/// program.bank(Bank { offset: Some(0), ..Bank::new(8) }).node(Kind::Data, 0).row(&[(24, Resolved)]).values(&[1, 2, 3]);
/// let built = program.build(64)?;
/// let written = built.intel_hex(0x8000)?; // to the flash station, and what comes back, with a bit turned
/// let dump = written.replace(":03800000010203", ":03800000010603").replace("77\n", "73\n");
/// let (mut bytes, mut starts, mut sizes) = (vec![0; 3], [0; 4], [0; 4]);
/// let count = records::read(records::Format::IntelHex, dump.as_bytes(), 0x8000, &mut bytes, &mut starts, &mut sizes)?;
/// let (offsets, lengths): (Vec<u64>, Vec<u64>) = built.blocks.iter().map(|block| (block.offset, block.size)).unzip();
/// let image = Given { bytes: &built.image, offsets: &offsets, sizes: &lengths };
/// let found = Given { bytes: &bytes, offsets: &starts[..count], sizes: &sizes[..count] };
/// let (mut firsts, mut counts, mut kinds) = ([0; 4], [0; 4], [0; 4]);
/// assert_eq!(verify(image, found, &mut firsts, &mut counts, &mut kinds)?, 1);
/// assert_eq!((firsts[0], counts[0], kinds[0]), (1, 1, DIFFERENT));
/// # Ok::<(), denkumari::Refusal>(())
/// ```
pub fn verify(image: Given<'_>, found: Given<'_>, firsts: &mut [u64], counts: &mut [u64], kinds: &mut [u8]) -> Result<usize, Refusal> {
    count_of(ffi::verify(image, found, firsts, counts, kinds))
}
