//! Sketches in files. The format is the host programs' own, and no crate's; all numbers are little-endian:
//!
//! | bytes | what |
//! |---|---|
//! | 0 to 6 | `nook v1` |
//! | 7 | lg_k |
//! | 8 to 15 | seed |
//! | 16 to 19 | coupons |
//! | 20 to 23 | number of listed pairs |
//! | 24 to 27 | bytes of the stream of pairs |
//! | 28 to 31 | bytes of the stream of the window, 0 if the coupons make the sketch Empty or Sparse |
//! | from 32 on | the stream of pairs, then that of the window, in practice books; nothing after them |

use std::fs;
use std::path::Path;

use bridgenook::Bits;
use bridgenook::Refused;
use bridgenook::numbers;
use bridgenook::streams;
use bridgenook::unions::Source;
use bridgenook::units;

use crate::practice_books::PracticeBooks;
use crate::trouble::Trouble;

pub const HEAD_BYTES: usize = 32;
const MARK: &[u8; 7] = b"nook v1";

/// 2^30 bytes for each stream at the most.
const MOST_FILE_BYTES: u64 = (1 << 31) - 1;

/// A sketch in memory; its window has no bytes if it is Empty or Sparse.
pub struct Sketch {
    pub source: Source,
    pub window: Vec<u8>,
    pub pairs: Vec<u32>,
}

pub fn save(path: &Path, bytes: &[u8]) -> Result<(), Trouble> {
    fs::write(path, bytes).map_err(|error| Trouble::of_file(path, &error))
}

/// The memory that this reserves goes by the bytes that the file has.
pub fn load(path: &Path) -> Result<Vec<u8>, Trouble> {
    let trouble = |error| Trouble::of_file(path, &error);
    if fs::metadata(path).map_err(trouble)?.len() > MOST_FILE_BYTES {
        return Err(Trouble::Unbelievable(
            "the file has more than 2^31 - 1 bytes",
        ));
    }
    fs::read(path).map_err(trouble)
}

/// What a file claims.
struct Head {
    source: Source,
    pairs: u32,
    pair_bytes: u32,
    window_bytes: u32,
}

impl Head {
    fn to_bytes(&self) -> Vec<u8> {
        let mut bytes = MARK.to_vec();
        bytes.push(self.source.lg_k);
        bytes.extend(self.source.seed.to_le_bytes());
        for number in [
            self.source.coupons,
            self.pairs,
            self.pair_bytes,
            self.window_bytes,
        ] {
            bytes.extend(number.to_le_bytes());
        }
        bytes
    }

    fn of_bytes(bytes: &[u8; HEAD_BYTES]) -> Option<Self> {
        let (mark, rest) = bytes.split_first_chunk()?;
        let (&[lg_k], rest) = rest.split_first_chunk()?;
        let (&seed, mut rest) = rest.split_first_chunk()?;
        let mut next_number = || {
            let (&number, after) = rest.split_first_chunk()?;
            rest = after;
            Some(u32::from_le_bytes(number))
        };
        let source = Source {
            lg_k,
            seed: u64::from_le_bytes(seed),
            coupons: next_number()?,
        };
        (mark == MARK).then_some(())?;
        Some(Self {
            source,
            pairs: next_number()?,
            pair_bytes: next_number()?,
            window_bytes: next_number()?,
        })
    }

    /// Holds every claim to the bytes that are there: a pair takes two bits at least, a byte of a window one. Answers the window's length.
    fn judge(&self, stream_bytes: usize) -> Result<usize, Trouble> {
        let Source { lg_k, coupons, .. } = self.source;
        let (pair_bytes, window_bytes) = (u64::from(self.pair_bytes), u64::from(self.window_bytes));
        let rows = numbers::rows(lg_k)?;
        let window_length = match numbers::determine_flavor(lg_k, coupons)?.has_window() {
            true => rows,
            false => 0,
        };
        if pair_bytes + window_bytes != stream_bytes as u64 {
            return Err(Trouble::Unbelievable(
                "the streams are not as long as the file says",
            ));
        }
        if u64::from(self.pairs) > 4 * pair_bytes {
            return Err(Trouble::Unbelievable("more pairs than its bytes can hold"));
        }
        if window_length > 8 * window_bytes {
            return Err(Trouble::Unbelievable(
                "a longer window than its bytes can hold",
            ));
        }
        if window_length == 0 && window_bytes != 0 {
            return Err(Trouble::Unbelievable("a window where there should be none"));
        }
        Ok(window_length as usize)
    }
}

impl Sketch {
    /// Each stream is made in room by the bound that none passes: `most_bits` for pairs, 12k + 11 bits for a window.
    pub fn to_bytes(&self, books: &PracticeBooks) -> Result<Vec<u8>, Refused> {
        let lg_k = self.source.lg_k;
        let pairs = self.pairs.len() as u32;
        let (_, most_words) = numbers::most_bits(lg_k, pairs)?;
        let mut pair_stream = vec![0; most_words.bytes() as usize];
        let written = streams::write_pairs(&books.pair_book, lg_k, &self.pairs, &mut pair_stream)?;
        pair_stream.truncate(written.words.bytes() as usize);

        let window_stream = self.window_to_bytes(books)?;
        let head = Head {
            source: self.source,
            pairs,
            pair_bytes: pair_stream.len() as u32,
            window_bytes: window_stream.len() as u32,
        };
        Ok([head.to_bytes(), pair_stream, window_stream].concat())
    }

    fn window_to_bytes(&self, books: &PracticeBooks) -> Result<Vec<u8>, Refused> {
        if self.window.is_empty() {
            return Ok(Vec::new());
        }
        let most_words = units::words_for(Bits(12 * self.window.len() as u64 + 11));
        let mut stream = vec![0; most_words.bytes() as usize];
        let lg_k = self.source.lg_k;
        let written = streams::write_window(&books.window_book, lg_k, &self.window, &mut stream)?;
        stream.truncate(written.words.bytes() as usize);
        Ok(stream)
    }

    /// Nothing that the file claims is believed before it has been judged; only then is memory reserved.
    pub fn of_bytes(books: &PracticeBooks, bytes: &[u8]) -> Result<Self, Trouble> {
        let (head, streams) = bytes
            .split_first_chunk()
            .and_then(|(head, streams)| Some((Head::of_bytes(head)?, streams)))
            .ok_or(Trouble::Unbelievable("not a file of a sketch"))?;
        let window_length = head.judge(streams.len())?;
        let (pair_stream, window_stream) = streams.split_at(head.pair_bytes as usize);
        let mut sketch = Self {
            source: head.source,
            window: vec![0; window_length],
            pairs: vec![0; head.pairs as usize],
        };
        sketch.read_pairs(books, pair_stream)?;
        sketch.read_window(books, window_stream)?;
        Ok(sketch)
    }

    fn read_pairs(&mut self, books: &PracticeBooks, stream: &[u8]) -> Result<(), Refused> {
        streams::read_pairs(
            &books.pair_book,
            &books.pair_table,
            self.source.lg_k,
            self.pairs.len() as u32,
            stream,
            &mut self.pairs,
        )
    }

    fn read_window(&mut self, books: &PracticeBooks, stream: &[u8]) -> Result<(), Refused> {
        if self.window.is_empty() {
            return Ok(());
        }
        streams::read_window(
            &books.window_book,
            &books.window_table,
            self.source.lg_k,
            stream,
            &mut self.window,
        )
    }
}
