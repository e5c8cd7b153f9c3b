//! Why the command stops before it is done, in words and as an exit status.

use std::fmt;
use std::io;
use std::process::ExitCode;

use bridgenook::Refused;

/// A refusal in words: the library's own, or the command's where it judges text or a claim before the library is asked.
pub struct Told {
    /// None where no number of document 01 fits.
    pub number: Option<u32>,
    pub words: String,
}

impl Told {
    pub fn new(number: u32, words: impl fmt::Display) -> Self {
        Self {
            number: Some(number),
            words: format!("refused ({number}): {words}"),
        }
    }

    pub fn without_number(words: impl fmt::Display) -> Self {
        Self {
            number: None,
            words: format!("refused: {words}"),
        }
    }

    /// `subject` is the file or the option that it is about.
    pub fn about(self, subject: impl fmt::Display) -> Failure {
        Failure::Refused {
            subject: subject.to_string(),
            told: self,
        }
    }

    pub fn about_line(self, subject: impl fmt::Display, line: u64) -> Failure {
        self.about(format_args!("{subject}, line {line}"))
    }
}

impl From<Refused> for Told {
    fn from(refused: Refused) -> Self {
        Self {
            number: Some(refused.number()),
            words: refused.to_string(),
        }
    }
}

pub enum Failure {
    Refused { subject: String, told: Told },
    Usage(String),
    File { name: String, error: io::Error },
}

impl Failure {
    pub fn of_file(name: impl fmt::Display) -> impl FnOnce(io::Error) -> Self {
        let name = name.to_string();
        move |error| Failure::File { name, error }
    }

    pub fn status(&self) -> ExitCode {
        ExitCode::from(match self {
            Failure::Refused { .. } => 1,
            Failure::Usage(_) => 2,
            Failure::File { .. } => 3,
        })
    }

    /// Whoever reads the output has seen enough, as in `.. | head`: no message is wanted.
    pub fn is_closed_pipe(&self) -> bool {
        matches!(self, Failure::File { error, .. } if error.kind() == io::ErrorKind::BrokenPipe)
    }
}

impl fmt::Display for Failure {
    fn fmt(&self, f: &mut fmt::Formatter<'_>) -> fmt::Result {
        match self {
            Failure::Refused { subject, told } => write!(f, "{subject}: {}", told.words),
            Failure::Usage(words) => f.write_str(words),
            Failure::File { name, error } => write!(f, "{name}: {error}"),
        }
    }
}
