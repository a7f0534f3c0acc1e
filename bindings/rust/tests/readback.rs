//! A read-back: the same, runs of both kinds, refusals in order, and lists that have to be left alone.
use denkumari::readback::{verify, Given, DIFFERENT, MISSING};
use denkumari::{Buffer, Refusal};

const IMAGE: Given<'static> = Given { bytes: &[1, 2, 3, 4, 5, 6], offsets: &[8, 32], sizes: &[16, 16] };

fn told(found: Given<'_>) -> Result<Vec<(u64, u64, u8)>, Refusal> {
    let (mut firsts, mut counts, mut kinds) = ([70; 6], [80; 6], [90; 6]);
    let count = verify(IMAGE, found, &mut firsts, &mut counts, &mut kinds)?;
    assert!(
        firsts[count..].iter().all(|&x| x == 70) && counts[count..].iter().all(|&x| x == 80) && kinds[count..].iter().all(|&x| x == 90)
    );
    Ok((0..count).map(|i| (firsts[i], counts[i], kinds[i])).collect())
}

#[test]
fn the_same_where_all_that_is_asked_for_is_given() {
    // bytes 0 and 3 are not asked for
    assert_eq!(told(Given { bytes: &[9, 2, 3, 9, 5, 6, 7], offsets: &[0], sizes: &[56] }), Ok(vec![]));
}

#[test]
fn runs_of_both_kinds() {
    let found = Given { bytes: &[1, 2, 9, 4, 5, 6], offsets: &[0, 40], sizes: &[24, 8] };
    assert_eq!(told(found), Ok(vec![(2, 1, DIFFERENT), (4, 1, MISSING)]));
    assert_eq!(told(Given { bytes: &[], offsets: &[], sizes: &[] }), Ok(vec![(1, 2, MISSING), (4, 2, MISSING)]));
    // a run of one kind may touch one of the other
    assert_eq!(told(Given { bytes: &[0, 9], offsets: &[8], sizes: &[8] }), Ok(vec![(1, 1, DIFFERENT), (2, 1, MISSING), (4, 2, MISSING)]));
}

#[test]
fn refusals_in_order() {
    assert_eq!(told(Given { bytes: &[], offsets: &[0], sizes: &[] }), Err(Refusal::Malformed { place: 0 }));
    assert_eq!(told(Given { bytes: &[], offsets: &[1], sizes: &[0] }), Err(Refusal::Malformed { place: 0 }));
    assert_eq!(told(Given { bytes: &[1], offsets: &[0], sizes: &[16] }), Err(Refusal::BadPart));
    assert_eq!(told(Given { bytes: &[1], offsets: &[0], sizes: &[7] }), Err(Refusal::BadPart));
    assert_eq!(told(Given { bytes: &[1], offsets: &[8], sizes: &[u64::MAX - 7] }), Err(Refusal::BadPart));
    let nothing = Given { bytes: &[], offsets: &[], sizes: &[] };
    let (mut firsts, mut counts, mut kinds) = ([7; 2], [7; 2], [7; 1]);
    let short = verify(IMAGE, nothing, &mut firsts, &mut counts, &mut kinds);
    assert_eq!(short, Err(Refusal::TooShort { buffer: Buffer::Blocks, passes: 0 }));
    assert_eq!((firsts, counts, kinds), ([7; 2], [7; 2], [7; 1]));
}
