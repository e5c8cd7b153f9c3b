//! Bits one by one: how a stream is put together, and how it is looked at. Bits fill 32-bit little-endian
//! words from the low end, so bit i of a stream is bit i mod 8 of its byte i / 8.

use super::books::codeword;
use super::books::length;

/// The bits that a writer puts, in their order.
#[derive(Clone, Default)]
pub struct Bits(Vec<bool>);

impl Bits {
    pub fn count(&self) -> u64 {
        self.0.len() as u64
    }

    /// The low bits of a value, so many of them.
    pub fn put(&mut self, value: u64, count: u64) {
        for place in 0..count {
            self.0.push(value >> place & 1 == 1);
        }
    }

    pub fn put_code(&mut self, entry: u16) {
        self.put(codeword(entry).into(), length(entry).into());
    }

    pub fn put_zeros(&mut self, count: u64) {
        self.0.resize(self.0.len() + count as usize, false);
    }

    /// A pair, as its steps from the one before: book code of the column step, then (row step >> b)
    /// zeros and a one, then b low bits.
    pub fn put_steps(&mut self, book: &[u16], b: u64, column_step: u64, row_step: u64) {
        self.put_code(book[column_step as usize]);
        self.put_zeros(row_step >> b);
        self.put(1, 1);
        self.put(row_step, b);
    }

    /// The bytes of the words that the bits fill.
    pub fn words(&self) -> Vec<u8> {
        let mut bytes = vec![0; 4 * self.0.len().div_ceil(32)];
        for (place, _) in self.0.iter().enumerate().filter(|(_, bit)| **bit) {
            bytes[place / 8] |= 1 << (place % 8);
        }
        bytes
    }
}

/// Why a reader stops, and at which bit.
pub struct Fault {
    pub number: u32,
    pub bit: u64,
}

/// A stream, and the bit that is read next. No look may pass the last whole word.
pub struct Cursor<'a> {
    stream: &'a [u8],
    pub at: u64,
}

impl<'a> Cursor<'a> {
    pub fn new(stream: &'a [u8]) -> Self {
        Self { stream, at: 0 }
    }

    fn look(&self, count: u64) -> Result<u64, Fault> {
        if self.at + count > self.stream.len() as u64 / 4 * 32 {
            return Err(Fault {
                number: 6,
                bit: self.at,
            });
        }
        let bit = |place: u64| u64::from(self.stream[(place / 8) as usize] >> (place % 8) & 1);
        let value = |place| bit(self.at + place) << place;
        Ok((0..count).map(value).sum())
    }

    /// A look at 12 bits for a code: the symbol.
    pub fn code(&mut self, table: &[u16]) -> Result<u64, Fault> {
        let entry = u64::from(table[self.look(12)? as usize]);
        self.at += entry / 256;
        Ok(entry % 256)
    }

    /// Looks at 8 bits at a time for the zeros before a one.
    pub fn zeros(&mut self) -> Result<u64, Fault> {
        let mut zeros = 0;
        loop {
            let look = self.look(8)?;
            if look != 0 {
                let last = u64::from(look.trailing_zeros());
                self.at += last + 1;
                return Ok(zeros + last);
            }
            self.at += 8;
            zeros += 8;
        }
    }

    pub fn low_bits(&mut self, b: u64) -> Result<u64, Fault> {
        let value = self.look(b)?;
        self.at += b;
        Ok(value)
    }
}
