//! The bench: which image a range borrows from, refusals, and lists that have to be left alone.
use denkumari::overlays::{range, runs, Range};
use denkumari::{Buffer, Refusal};

const RELEASED: &[u8] = &[1, 2, 3, 4, 5, 6];
const OVERLAY: &[u8] = &[9, 8, 7, 6, 5, 4, 3];
/// Bytes 1 and 2 by two blocks that touch inside byte 1, and half of byte 4.
const OFFSETS: &[u64] = &[8, 12, 32];
const SIZES: &[u64] = &[4, 12, 4];

fn at(first: u64, count: u64) -> Result<Range<'static, 'static>, Refusal> {
    range(OVERLAY, RELEASED, OFFSETS, SIZES, first, count)
}

#[test]
fn borrows_from_the_right_image() {
    assert_eq!(at(1, 2), Ok(Range::Overlay(&OVERLAY[1..3])));
    assert_eq!(at(0, 1), Ok(Range::Released(&RELEASED[..1])));
    // the released image may go away while a part of the overlay is held, and the other way round
    let kept = {
        let gone = RELEASED.to_vec();
        match range(OVERLAY, &gone, OFFSETS, SIZES, 1, 1) {
            Ok(Range::Overlay(part)) => part,
            _ => &[],
        }
    };
    assert_eq!(kept, &[8]);
}

#[test]
fn refusals_in_order() {
    assert_eq!(at(4, 1), Err(Refusal::PartlyCovered));
    assert_eq!(at(0, 2), Err(Refusal::PartlyCovered));
    assert_eq!(at(6, 1), Err(Refusal::BadPart));
    assert_eq!(at(3, 0), Err(Refusal::BadPart));
    assert_eq!(at(u64::MAX, 2), Err(Refusal::BadPart));
    assert_eq!(range(OVERLAY, RELEASED, OFFSETS, &[4, 12], 9, 9), Err(Refusal::Malformed { place: 0 }));
    assert_eq!(Refusal::PartlyCovered.number(), 17);
}

#[test]
fn lists_runs_and_leaves_the_rest() {
    let (mut firsts, mut counts) = ([70, 71], [80, 81]);
    assert_eq!(runs(OVERLAY, RELEASED, OFFSETS, SIZES, &mut firsts, &mut counts), Ok(1));
    assert_eq!((firsts, counts), ([1, 71], [2, 81]));
    let short = runs(OVERLAY, RELEASED, OFFSETS, SIZES, &mut firsts[1..], &mut []);
    assert_eq!(short, Err(Refusal::TooShort { buffer: Buffer::Blocks, passes: 0 }));
    assert_eq!((firsts, counts), ([1, 71], [2, 81]));
}
