//! What the Rust's own files have beside calls of the library, made again and again: `calls_time CALL TIMES`, as bindings/c/calls_time.c has it, on the same
//! lists, with the same number printed. Built against the judge's library (oracle/build.sh). Every address is 0, which costs the stand-in for `BigInt`
//! nothing to copy.
use customasm::{diagn, util};
use std::hint::black_box;

const SPANS: usize = 4096;
const OFFERS: usize = 512;
const IMAGE: usize = 16384;

fn shuffle(list: &mut [usize]) {
    let mut seed = 88172645463325252u64;
    for i in (1..list.len()).rev() {
        seed ^= seed << 13;
        seed ^= seed >> 7;
        seed ^= seed << 17;
        list.swap(i, (seed % (i as u64 + 1)) as usize);
    }
}

/// Places 16 bits apart: rising, falling, shuffled, or all one.
fn places(order: &str, count: usize) -> Vec<usize> {
    let mut list: Vec<usize> = (0..count).map(|i| if order == "one" { 64 } else { 16 * i }).collect();
    match order {
        "falling" => list.reverse(),
        "shuffled" => shuffle(&mut list),
        _ => {}
    }
    list
}

fn blocks(order: &str, times: usize) -> usize {
    let mut output = util::BitVec::new();
    for (node, offset) in places(order, SPANS).into_iter().enumerate() {
        output.mark_span(Some(offset), 8, util::BigInt::from(0), diagn::Span::new(node));
    }
    let blocks = (0..times).fold(Vec::new(), |_, _| black_box(&output).get_blocks());
    blocks.iter().enumerate().fold(blocks.len(), |sum, (i, block)| sum + block.offset * (i + 1))
}

fn hex(times: usize) -> usize {
    let mut output = util::BitVec::new();
    for bit in 0..8 * IMAGE {
        output.write_bit(bit, (bit / 8 % 251) >> (7 - bit % 8) & 1 == 1);
    }
    (0..times).fold(0, |_, _| {
        let digits = format!("{:x}", black_box(&output));
        digits.len() + digits.as_bytes()[digits.len() / 3] as usize
    })
}

fn offers(order: &str, times: usize) -> usize {
    let list = places(order, OFFERS);
    (0..times).fold(0, |_, _| {
        let (mut store, mut report) = (util::OverlapChecker::new(), diagn::Report::new());
        let accepted = |place: &&usize| store.check_and_insert(&mut report, diagn::Span::new(0), **place, 8).is_ok();
        black_box(&list).iter().filter(accepted).count()
    })
}

fn main() {
    let asked: Vec<String> = std::env::args().collect();
    let (call, order) = asked[1].split_once(':').unwrap_or((&asked[1], ""));
    let times = asked[2].parse().unwrap();
    let told = match call {
        "dk_blocks" => blocks(order, times),
        "dk_hex" => hex(times),
        "dk_offer" => offers(order, times),
        _ => panic!("no call {}", call),
    };
    println!("{}", told);
}
