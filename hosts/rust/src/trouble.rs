//! What can go wrong: a refusal of the library, what the host itself finds wrong in a file, or a file that cannot be used.

use std::fmt;
use std::io;
use std::path::Path;

use bridgenook::Refused;

pub enum Trouble {
    Refused(Refused),
    Unbelievable(&'static str),
    File(String),
}

impl Trouble {
    pub fn of_file(path: &Path, error: &io::Error) -> Self {
        Trouble::File(format!("{}: {error}", path.display()))
    }
}

impl From<Refused> for Trouble {
    fn from(refused: Refused) -> Self {
        Trouble::Refused(refused)
    }
}

impl fmt::Display for Trouble {
    fn fmt(&self, f: &mut fmt::Formatter<'_>) -> fmt::Result {
        match self {
            Trouble::Refused(refused) => refused.fmt(f),
            Trouble::Unbelievable(what) => f.write_str(what),
            Trouble::File(what) => f.write_str(what),
        }
    }
}
