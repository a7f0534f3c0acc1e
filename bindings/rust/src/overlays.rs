//! On the bench: a released image and a small overlay of curves under trial, both at the same offsets. The overlay's blocks are lent as
//! offsets and sizes in bits: as many of one as of the other, no block empty, ascending, no bit in two of them.

use crate::{count_of, ffi, Refusal};

/// A range's bytes, borrowed from the image that they come from.
#[derive(Clone, Copy, Debug, PartialEq, Eq)]
pub enum Range<'o, 'r> {
    /// Every bit of the range is covered by the overlay's blocks.
    Overlay(&'o [u8]),
    /// No bit of it is.
    Released(&'r [u8]),
}

/// The `count` bytes from byte `first` on. Refused 4 for the blocks, 16 for a range that is empty or outside either image, and 17 for
/// one that is covered in part.
pub fn range<'o, 'r>(
    overlay: &'o [u8],
    released: &'r [u8],
    offsets: &[u64],
    sizes: &[u64],
    first: u64,
    count: u64,
) -> Result<Range<'o, 'r>, Refusal> {
    let r = ffi::overlay_range(overlay, released, offsets, sizes, first, count);
    // an accepted range is inside both images, so that the part is always there
    match (r.refusal, r.image) {
        (0, 1) => part(overlay, r.start, r.length).map(Range::Overlay).ok_or(Refusal::BadPart),
        (0, 2) => part(released, r.start, r.length).map(Range::Released).ok_or(Refusal::BadPart),
        (number, _) => Err(Refusal::told(number, 0, 0, 0)),
    }
}

fn part(image: &[u8], start: u64, length: u64) -> Option<&[u8]> {
    image.get(start as usize..)?.get(..length as usize)
}

/// Writes each longest run of covered bytes, inside both images, that differ between the two, ascending: its first byte and its count of
/// bytes. Answers how many there are. Refused 4 for the blocks, then 14 where a list is too short.
pub fn runs(
    overlay: &[u8],
    released: &[u8],
    offsets: &[u64],
    sizes: &[u64],
    firsts: &mut [u64],
    counts: &mut [u64],
) -> Result<usize, Refusal> {
    count_of(ffi::overlay_runs(overlay, released, offsets, sizes, firsts, counts))
}
