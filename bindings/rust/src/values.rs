//! The bytes that items are taken from, written bit by bit.

/// Bits, one behind the other, from the top of each byte. What an item's operand has to be is the answer of [`Values::append`], so that nobody counts bits.
///
/// ```
/// use denkumari::Values;
/// let mut values = Values::new();
/// assert_eq!(values.append(&[0xff, 0xc0], 10), Some(0));
/// assert_eq!(values.append_number(0xaa, 10), Some(10));
/// assert_eq!(values.bytes(), [0xff, 0xca, 0xa0]);
/// assert_eq!(values.append(&[0xff], 9), None);
/// ```
#[derive(Clone, Debug, Default, PartialEq, Eq)]
pub struct Values {
    bytes: Vec<u8>,
    bits: u64,
}

impl Values {
    /// No bits.
    pub fn new() -> Values {
        Values::default()
    }

    /// How many bits there are.
    pub fn len(&self) -> u64 {
        self.bits
    }

    /// Whether there are none.
    pub fn is_empty(&self) -> bool {
        self.bits == 0
    }

    /// Whole bytes, the last one padded with zero bits.
    pub fn bytes(&self) -> &[u8] {
        &self.bytes
    }

    /// The first `bits` bits of `from`, and where they stand, for an item's operand. `None`, and nothing is appended, where `from` has fewer, or where they
    /// would stand past bit 4,294,967,295.
    pub fn append(&mut self, from: &[u8], bits: u32) -> Option<u32> {
        let operand = u32::try_from(self.bits).ok()?;
        if from.len() as u64 * 8 < u64::from(bits) {
            return None;
        }
        for (byte, left) in from.iter().zip((1..=u64::from(bits)).rev().step_by(8)) {
            self.push(*byte, left.min(8) as u32);
        }
        Some(operand)
    }

    /// The lowest `bits` bits of a number, the highest of them first, at most 64, and where they stand.
    pub fn append_number(&mut self, number: u64, bits: u32) -> Option<u32> {
        let top = number.checked_shl(64u32.checked_sub(bits)?).unwrap_or(0);
        self.append(&top.to_be_bytes(), bits)
    }

    /// Zero bits, and where they stand.
    pub fn append_zeros(&mut self, bits: u32) -> Option<u32> {
        let operand = u32::try_from(self.bits).ok()?;
        self.bits += u64::from(bits);
        self.bytes.resize(self.bits.div_ceil(8) as usize, 0);
        Some(operand)
    }

    /// The top `bits` bits of a byte, at most 8.
    fn push(&mut self, byte: u8, bits: u32) {
        let byte = byte & 0xffu8.checked_shl(8 - bits).unwrap_or(0);
        let used = (self.bits % 8) as u32;
        self.bits += u64::from(bits);
        if used == 0 {
            self.bytes.push(byte);
            return;
        }
        if let Some(last) = self.bytes.last_mut() {
            *last |= byte >> used;
        }
        if self.bits.div_ceil(8) > self.bytes.len() as u64 {
            self.bytes.push(byte << (8 - used));
        }
    }
}

impl From<&[u8]> for Values {
    fn from(bytes: &[u8]) -> Values {
        Values { bytes: bytes.to_vec(), bits: bytes.len() as u64 * 8 }
    }
}
