//! The text of a window: `lg_k=`, then `w0=`, `w1=` and so on, one line for each of its k bytes.

use std::io;
use std::io::Write;

use bridgenook::numbers;

use crate::failure::Failure;
use crate::text;
use crate::text::Text;

pub struct WindowText {
    pub lg_k: u8,
    pub window: Vec<u8>,
}

impl WindowText {
    pub fn read(text: &mut Text<'_>) -> Result<Self, Failure> {
        let lg_k = text.lg_k()?;
        let rows = numbers::rows(lg_k).map_err(|refused| text.refuse(refused))?;
        let window = read_bytes(text, rows)?;
        text.end()?;
        Ok(Self { lg_k, window })
    }

    pub fn write(&self, out: &mut dyn Write) -> io::Result<()> {
        writeln!(out, "lg_k={}", self.lg_k)?;
        write_bytes(out, &self.window)
    }
}

/// The window grows with the lines that are there.
pub fn read_bytes(text: &mut Text<'_>, rows: u64) -> Result<Vec<u8>, Failure> {
    let bytes = text.listed('w', rows, u8::MAX.into());
    bytes.map(|byte| Ok(byte? as u8)).collect()
}

pub fn write_bytes(out: &mut dyn Write, window: &[u8]) -> io::Result<()> {
    text::write_listed(out, 'w', window)
}
