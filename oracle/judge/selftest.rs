//! The stand-in integer against the machine's own, on drawn numbers of every length.

use customasm::{diagn, util::BigInt};

pub fn run() {
    let mut report = diagn::Report::new();
    let span = diagn::Span::new(0);
    let mut state = 1u64;

    for round in 0..200_000u32 {
        let (a, b) = (draw(&mut state, round % 120), draw(&mut state, round / 120 % 120));
        let (x, y) = (BigInt::from(a), BigInt::from(b));

        let sum = x.checked_add(&mut report, span, &y).unwrap();
        assert_eq!(sum.to_i128(), Some(a + b));
        let difference = x.checked_sub(&mut report, span, &y).unwrap();
        assert_eq!(difference.to_i128(), Some(a - b));
        if let Some(product) = a.checked_mul(b) {
            assert_eq!(x.checked_mul(&mut report, span, &y).unwrap().to_i128(), Some(product));
        }
        if b > 0 {
            assert_eq!(x.checked_mod(&mut report, span, &y).unwrap().to_i128(), Some(a % b));
        }
        assert_eq!(x == y, a == b);
        assert_eq!(x.checked_into::<usize>(&mut report, span).ok(), usize::try_from(a).ok());
        report.messages.clear();
    }

    let mut bits = BigInt::from(0);
    for i in [0, 1, 63, 64, 8_589_934_590] {
        bits.set_bit(i, true);
        assert!(bits.get_bit(i) && !bits.get_bit(i + 2));
        bits.set_bit(i, false);
        assert!(bits == BigInt::from(0));
    }
    println!("the stand-in integer agrees with the machine's");
}

/// A number of at most so many bits, of either sign.
fn draw(state: &mut u64, bits: u32) -> i128 {
    let mut next = || {
        *state = state.wrapping_mul(6_364_136_223_846_793_005).wrapping_add(1_442_695_040_888_963_407);
        (*state >> 32) as u128
    };
    let magnitude = (next() << 96 | next() << 64 | next() << 32 | next()) & ((1 << bits) - 1);
    if next() & 1 == 0 {
        magnitude as i128
    } else {
        -(magnitude as i128)
    }
}
