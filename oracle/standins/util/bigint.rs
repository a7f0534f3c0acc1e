//! An exact integer of any length, with no crate. `BitVec` keeps the image in one, at positions up to 2^33, so only words
//! that are not zero are held.

use crate::*;
use std::cmp::Ordering;
use std::collections::BTreeMap;

const WORD: usize = 64;

#[derive(Clone, Debug)]
pub struct BigInt {
    negative: bool,
    words: BTreeMap<usize, u64>,
    pub size: Option<usize>,
}

impl BigInt {
    pub fn new<T>(value: T, size: Option<usize>) -> BigInt
    where
        BigInt: From<T>,
    {
        let mut bigint = BigInt::from(value);
        bigint.size = size;
        bigint
    }

    /// `size` bits of the bytes from bit `start` on, bits counted from the top of each byte; the first is the highest.
    pub fn from_bits(bytes: &[u8], start: usize, size: usize) -> BigInt {
        let mut dense = vec![0; size.div_ceil(WORD)];

        for i in 0..size {
            let from = start + i;
            let bit = (bytes[from / 8] >> (7 - from % 8)) & 1;
            let to = size - 1 - i;
            dense[to / WORD] |= (bit as u64) << (to % WORD);
        }

        let mut bigint = BigInt::from_dense(false, &dense);
        bigint.size = Some(size);
        bigint
    }

    fn from_dense(negative: bool, dense: &[u64]) -> BigInt {
        let words: BTreeMap<usize, u64> = dense.iter().copied().enumerate().filter(|(_, word)| *word != 0).collect();

        BigInt { negative: negative && !words.is_empty(), words, size: None }
    }

    /// The magnitude, its highest word not zero.
    fn dense(&self) -> Vec<u64> {
        let length = self.words.keys().next_back().map_or(0, |top| top + 1);
        let mut dense = vec![0; length];
        for (index, word) in &self.words {
            dense[*index] = *word;
        }
        dense
    }

    pub fn get_bit(&self, index: usize) -> bool {
        assert!(!self.negative);
        let word = self.words.get(&(index / WORD)).copied().unwrap_or(0);
        (word >> (index % WORD)) & 1 != 0
    }

    pub fn set_bit(&mut self, index: usize, value: bool) {
        assert!(!self.negative);
        let mask = 1 << (index % WORD);
        if value {
            *self.words.entry(index / WORD).or_insert(0) |= mask;
        } else if let Some(word) = self.words.get_mut(&(index / WORD)) {
            *word &= !mask;
            if *word == 0 {
                self.words.remove(&(index / WORD));
            }
        }
    }

    pub fn checked_add(&self, _report: &mut diagn::Report, _span: diagn::Span, rhs: &BigInt) -> Result<BigInt, ()> {
        let (a, b) = (self.dense(), rhs.dense());

        Ok(if self.negative == rhs.negative {
            BigInt::from_dense(self.negative, &plus(&a, &b))
        } else if compare(&a, &b) == Ordering::Less {
            BigInt::from_dense(rhs.negative, &minus(&b, &a))
        } else {
            BigInt::from_dense(self.negative, &minus(&a, &b))
        })
    }

    pub fn checked_sub(&self, report: &mut diagn::Report, span: diagn::Span, rhs: &BigInt) -> Result<BigInt, ()> {
        let opposite = BigInt::from_dense(!rhs.negative, &rhs.dense());
        self.checked_add(report, span, &opposite)
    }

    pub fn checked_mul(&self, _report: &mut diagn::Report, _span: diagn::Span, rhs: &BigInt) -> Result<BigInt, ()> {
        let product = times(&self.dense(), &rhs.dense());
        Ok(BigInt::from_dense(self.negative != rhs.negative, &product))
    }

    /// The remainder has the sign of the dividend. The real `BigInt` is not supplied: a negative dividend is where the
    /// Rust stops having a say.
    pub fn checked_mod(&self, report: &mut diagn::Report, span: diagn::Span, rhs: &BigInt) -> Result<BigInt, ()> {
        if rhs.words.is_empty() {
            report.error_span("modulo by zero", span);
            return Err(());
        }

        if self.negative {
            report.leaves_domain("below", span)?;
        }

        Ok(BigInt::from_dense(self.negative, &remainder(&self.dense(), &rhs.dense())))
    }

    pub fn checked_into<T: TryFrom<i128>>(&self, report: &mut diagn::Report, span: diagn::Span) -> Result<T, ()> {
        let value = self.to_i128().and_then(|value| T::try_from(value).ok());
        if value.is_none() {
            report.error_span("value is outside the supported range", span);
        }
        value.ok_or(())
    }

    pub fn to_i128(&self) -> Option<i128> {
        let dense = self.dense();
        if dense.len() > 2 {
            return None;
        }

        let magnitude = dense.iter().rev().fold(0u128, |sum, word| (sum << WORD) | *word as u128);
        let value = i128::try_from(magnitude).ok()?;
        Some(if self.negative { -value } else { value })
    }
}

impl PartialEq for BigInt {
    fn eq(&self, other: &BigInt) -> bool {
        self.negative == other.negative && self.words == other.words
    }
}

impl From<i128> for BigInt {
    fn from(value: i128) -> BigInt {
        let magnitude = value.unsigned_abs();
        BigInt::from_dense(value < 0, &[magnitude as u64, (magnitude >> WORD) as u64])
    }
}

impl From<i32> for BigInt {
    fn from(value: i32) -> BigInt {
        BigInt::from(value as i128)
    }
}

impl From<usize> for BigInt {
    fn from(value: usize) -> BigInt {
        BigInt::from(value as i128)
    }
}

fn trimmed(mut a: Vec<u64>) -> Vec<u64> {
    while a.last() == Some(&0) {
        a.pop();
    }
    a
}

fn compare(a: &[u64], b: &[u64]) -> Ordering {
    a.len().cmp(&b.len()).then_with(|| a.iter().rev().cmp(b.iter().rev()))
}

fn plus(a: &[u64], b: &[u64]) -> Vec<u64> {
    let mut sum = Vec::new();
    let mut carry = 0u128;

    for i in 0..=a.len().max(b.len()) {
        let digit = carry + *a.get(i).unwrap_or(&0) as u128 + *b.get(i).unwrap_or(&0) as u128;
        sum.push(digit as u64);
        carry = digit >> WORD;
    }

    trimmed(sum)
}

/// a - b, for b not above a.
fn minus(a: &[u64], b: &[u64]) -> Vec<u64> {
    let mut difference = Vec::new();
    let mut borrow = false;

    for i in 0..a.len() {
        let (digit, under) = a[i].overflowing_sub(*b.get(i).unwrap_or(&0));
        let (digit, under_again) = digit.overflowing_sub(borrow as u64);
        difference.push(digit);
        borrow = under || under_again;
    }

    trimmed(difference)
}

fn times(a: &[u64], b: &[u64]) -> Vec<u64> {
    let mut product = vec![0u64; a.len() + b.len()];

    for i in 0..a.len() {
        let mut carry = 0u128;
        for j in 0..b.len() {
            let digit = product[i + j] as u128 + a[i] as u128 * b[j] as u128 + carry;
            product[i + j] = digit as u64;
            carry = digit >> WORD;
        }
        product[i + b.len()] = carry as u64;
    }

    trimmed(product)
}

/// a modulo b: by words for a divisor of one word, else bit by bit from the top.
fn remainder(a: &[u64], b: &[u64]) -> Vec<u64> {
    if let [divisor] = b {
        let rest = a.iter().rev().fold(0u128, |rest, word| ((rest << WORD) | *word as u128) % *divisor as u128);
        return trimmed(vec![rest as u64]);
    }

    let mut rest: Vec<u64> = Vec::new();

    for i in (0..a.len() * WORD).rev() {
        rest = plus(&rest, &rest);
        if (a[i / WORD] >> (i % WORD)) & 1 != 0 {
            rest = plus(&rest, &[1]);
        }
        if compare(&rest, b) != Ordering::Less {
            rest = minus(&rest, b);
        }
    }

    rest
}
