//! Texts of lines `name=NUMBER`, judged line by line as they come: decimals without leading zeros, one newline each, nothing after the last. Another form
//! is refused by 15.

use std::fmt;
use std::io;
use std::io::BufRead;
use std::io::Read;
use std::io::Write;

use crate::claims::judged_lg_k;
use crate::failure::Failure;
use crate::failure::Told;
use crate::input::Opened;
use crate::progress::Progress;

/// No lawful line is as long, so that a line without end takes no memory.
const MOST_LINE_BYTES: u64 = 32;

/// The wrong form of a text is document 01's 15.
const WRONG_FORM: u32 = 15;

/// What stands before the number of a line.
#[derive(Clone, Copy)]
pub enum Name {
    Alone(&'static str),
    /// A letter and an index.
    Listed(char, u64),
    /// Nothing: the line is a number.
    Nothing,
}

impl fmt::Display for Name {
    fn fmt(&self, f: &mut fmt::Formatter<'_>) -> fmt::Result {
        match self {
            Name::Alone(name) => write!(f, "{name}="),
            Name::Listed(letter, index) => write!(f, "{letter}{index}="),
            Name::Nothing => Ok(()),
        }
    }
}

impl Name {
    /// What follows the name in a line, if the line has it.
    fn strip(self, line: &[u8]) -> Option<&[u8]> {
        match self {
            Name::Alone(name) => line.strip_prefix(name.as_bytes())?.strip_prefix(b"="),
            Name::Listed(letter, index) => {
                let equals = line.iter().position(|&byte| byte == b'=')?;
                let (name, value) = line.split_at(equals);
                let given = decimal(name.strip_prefix(&[letter as u8])?)?;
                (given == index).then_some(&value[1..])
            }
            Name::Nothing => Some(line),
        }
    }
}

/// A decimal without leading zeros that a u64 holds.
fn decimal(digits: &[u8]) -> Option<u64> {
    if digits.is_empty() || (digits.len() > 1 && digits[0] == b'0') {
        return None;
    }
    digits.iter().try_fold(0_u64, |number, byte| {
        let digit = byte.is_ascii_digit().then(|| u64::from(byte - b'0'))?;
        number.checked_mul(10)?.checked_add(digit)
    })
}

/// Lines for [`Text::listed`].
pub fn write_listed(
    out: &mut dyn Write,
    letter: char,
    list: &[impl fmt::Display],
) -> io::Result<()> {
    for (index, number) in (0..).zip(list) {
        writeln!(out, "{}{number}", Name::Listed(letter, index))?;
    }
    Ok(())
}

pub struct Text<'a> {
    pub name: String,
    bytes: Box<dyn BufRead>,
    line: Vec<u8>,
    line_number: u64,
    /// Why the lines that come are asked for, if it needs saying.
    reason: String,
    progress: &'a Progress,
}

impl<'a> Text<'a> {
    pub fn new(opened: Opened, progress: &'a Progress) -> Self {
        progress.begin(format_args!("reading {}", opened.name), opened.length);
        Self {
            name: opened.name,
            bytes: opened.bytes,
            line: Vec::new(),
            line_number: 0,
            reason: String::new(),
            progress,
        }
    }

    /// A refusal by what the line that was read last says.
    pub fn refuse(&self, told: impl Into<Told>) -> Failure {
        told.into().about_line(&self.name, self.line_number)
    }

    /// Refusals of the lines that come will say this too.
    pub fn explain(&mut self, reason: impl fmt::Display) {
        self.reason = format!(" ({reason})");
    }

    /// The number of the next line, which has this name; at most `most`.
    pub fn number(&mut self, name: Name, most: u64) -> Result<u64, Failure> {
        self.next_line()?;
        let number = self
            .line
            .strip_suffix(b"\n")
            .and_then(|line| decimal(name.strip(line)?))
            .filter(|&number| number <= most);
        number.ok_or_else(|| {
            self.wrong_form(format_args!(
                "the line should be {name}NUMBER, NUMBER a decimal up to {most} without leading zeros"
            ))
        })
    }

    /// The numbers of the next lines, which have this letter and an index from 0 on; each at most `most`.
    pub fn listed(
        &mut self,
        letter: char,
        count: u64,
        most: u64,
    ) -> impl Iterator<Item = Result<u64, Failure>> {
        (0..count).map(move |index| self.number(Name::Listed(letter, index), most))
    }

    /// The lg_k that every text but a book begins with, refused by 1 if it is outside 4..26.
    pub fn lg_k(&mut self) -> Result<u8, Failure> {
        let lg_k = self.number(Name::Alone("lg_k"), u32::MAX.into())?;
        judged_lg_k(lg_k).map_err(|told| self.refuse(told))
    }

    /// Whether the text ends here. If it does not, the next line is that which [`Text::number`] reads next.
    pub fn is_at_end(&mut self) -> Result<bool, Failure> {
        let rest = self
            .bytes
            .fill_buf()
            .map_err(Failure::of_file(&self.name))?;
        Ok(rest.is_empty())
    }

    pub fn end(&mut self) -> Result<(), Failure> {
        if self.is_at_end()? {
            return Ok(());
        }
        self.next_line()?;
        Err(self.wrong_form("the text should end before this line"))
    }

    /// With its newline, which only the text's last line, or one that is too long, can lack.
    fn next_line(&mut self) -> Result<(), Failure> {
        self.line.clear();
        self.line_number += 1;
        let read: io::Result<usize> = (&mut self.bytes)
            .take(MOST_LINE_BYTES)
            .read_until(b'\n', &mut self.line);
        let bytes = read.map_err(Failure::of_file(&self.name))?;
        self.progress.add_bytes(bytes as u64);
        Ok(())
    }

    /// A refusal of the line that was read last.
    fn wrong_form(&self, should: impl fmt::Display) -> Failure {
        let reason = &self.reason;
        let found = match self.line.strip_suffix(b"\n") {
            Some(line) => format!("it is \"{}\"", line.escape_ascii()),
            None if self.line.is_empty() => "the text ends".to_string(),
            None if self.line.len() as u64 == MOST_LINE_BYTES => {
                format!("it begins with \"{}\"", self.line.escape_ascii())
            }
            None => format!(
                "it is \"{}\" with no newline at its end",
                self.line.escape_ascii()
            ),
        };
        self.refuse(Told::new(
            WRONG_FORM,
            format_args!("{should}{reason}, but {found}"),
        ))
    }
}
