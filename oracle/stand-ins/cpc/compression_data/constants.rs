//! The tables as constants, as the crate's own are taken to be: for the benchmark, since tables that are lent
//! at run time slow the Rust. They are those of document 01's practice books, the same for every phase.

pub static LENGTH_LIMITED_UNARY_ENCODING_TABLE65: [u16; 65] = PAIR_BOOK;
pub static LENGTH_LIMITED_UNARY_DECODING_TABLE65: [u16; 4096] = decoding_table(&PAIR_BOOK);
pub static ENCODING_TABLES_FOR_HIGH_ENTROPY_BYTE: [[u16; 256]; 22] = [WINDOW_BOOK; 22];
pub static DECODING_TABLES_FOR_HIGH_ENTROPY_BYTE: [[u16; 4096]; 22] =
    [decoding_table(&WINDOW_BOOK); 22];

/// Symbols 0 to 3 are that many zeros and a one. The others begin with four zeros and five bits v.
const PAIR_BOOK: [u16; 65] = {
    let mut book = [0; 65];
    let mut symbol = 0;
    while symbol < 65 {
        let (length, codeword) = match symbol {
            0..4 => (symbol + 1, 1 << symbol),
            4..7 => (9, (symbol - 4) << 4),
            _ => (
                10,
                (((symbol - 7) / 2 + 3) << 4) | (((symbol - 7) % 2) << 9),
            ),
        };
        book[symbol] = (length * 4096 + codeword) as u16;
        symbol += 1;
    }
    book
};

/// Byte 0 is a one. The others begin with a zero and seven bits v, half the byte.
const WINDOW_BOOK: [u16; 256] = {
    let mut book = [0; 256];
    let mut byte = 0;
    while byte < 256 {
        let (length, codeword) = match byte {
            0 => (1, 1),
            1 => (8, 0),
            _ => (9, (byte / 2) << 1 | (byte % 2) << 8),
        };
        book[byte] = (length * 4096 + codeword) as u16;
        byte += 1;
    }
    book
};

/// Length · 256 + symbol at each number whose low bits are the symbol's codeword.
const fn decoding_table<const SYMBOLS: usize>(book: &[u16; SYMBOLS]) -> [u16; 4096] {
    let mut table = [0; 4096];
    let mut symbol = 0;
    while symbol < SYMBOLS {
        let length = book[symbol] / 4096;
        let mut number = book[symbol] as usize % 4096;
        while number < 4096 {
            table[number] = length * 256 + symbol as u16;
            number += 1 << length;
        }
        symbol += 1;
    }
    table
}
