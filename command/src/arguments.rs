//! The words after a subcommand, told apart into options and names.

use std::ffi::OsString;
use std::path::PathBuf;

use crate::book_text::Kind;
use crate::claims::judged_lg_k;
use crate::failure::Failure;

/// What a subcommand takes besides names. `--progress` is taken by all.
pub struct Options {
    /// As it is called in messages.
    pub subcommand: &'static str,
    pub with_value: &'static [&'static str],
    pub alone: &'static [&'static str],
}

pub struct Arguments {
    subcommand: &'static str,
    names: Vec<OsString>,
    values: Vec<(&'static str, OsString)>,
    alone: Vec<&'static str>,
}

const PROGRESS: &str = "--progress";

impl Arguments {
    pub fn take(options: &Options, words: Vec<OsString>) -> Result<Self, Failure> {
        let mut taken = Self {
            subcommand: options.subcommand,
            names: Vec::new(),
            values: Vec::new(),
            alone: Vec::new(),
        };
        let mut words = words.into_iter();
        while let Some(word) = words.next() {
            // "-" alone is the name of standard input
            match word.to_str() {
                Some("--") => taken.names.extend(words.by_ref()),
                Some(option) if option.starts_with('-') && option != "-" => {
                    taken.take_option(options, option, &mut words)?;
                }
                _ => taken.names.push(word),
            }
        }
        Ok(taken)
    }

    /// `--name value`, `--name=value`, or `--name` alone.
    fn take_option(
        &mut self,
        options: &Options,
        word: &str,
        rest: &mut impl Iterator<Item = OsString>,
    ) -> Result<(), Failure> {
        let (name, value) = match word.split_once('=') {
            Some((name, value)) => (name, Some(OsString::from(value))),
            None => (word, None),
        };
        let known = |list: &[&'static str]| list.iter().copied().find(|&known| known == name);
        if let Some(name) = known(options.with_value) {
            let value = value
                .or_else(|| rest.next())
                .ok_or_else(|| self.usage(format!("{name} wants a value")))?;
            if self.value(name).is_some() {
                return Err(self.usage(format!("{name} is given twice")));
            }
            self.values.push((name, value));
            return Ok(());
        }
        match known(options.alone).or_else(|| known(&[PROGRESS])) {
            Some(name) if value.is_none() => self.alone.push(name),
            Some(name) => return Err(self.usage(format!("{name} takes no value"))),
            None => return Err(self.usage(format!("{name} is not an option of it"))),
        }
        Ok(())
    }

    /// Names the subcommand, and where to read about it.
    pub fn usage(&self, words: String) -> Failure {
        let subcommand = self.subcommand;
        Failure::Usage(format!(
            "{subcommand}: {words}; see `bridgenook-command help {subcommand}`"
        ))
    }

    fn value(&self, name: &str) -> Option<&OsString> {
        let (_, value) = self.values.iter().find(|(given, _)| *given == name)?;
        Some(value)
    }

    pub fn path(&self, name: &str) -> Option<PathBuf> {
        self.value(name).map(PathBuf::from)
    }

    pub fn number(&self, name: &str) -> Result<Option<u64>, Failure> {
        let Some(value) = self.value(name) else {
            return Ok(None);
        };
        let digits = value
            .to_str()
            .filter(|text| text.bytes().all(|byte| byte.is_ascii_digit()));
        match digits.and_then(|digits| digits.parse().ok()) {
            Some(number) => Ok(Some(number)),
            None => Err(self.usage(format!(
                "{name} wants a number below 2^64, and not {}",
                value.display()
            ))),
        }
    }

    pub fn needed_number(&self, name: &str) -> Result<u64, Failure> {
        self.number(name)?
            .ok_or_else(|| self.usage(format!("{name} NUMBER is missing")))
    }

    /// Refused by 1 if it is outside 4..26.
    pub fn lg_k(&self) -> Result<u8, Failure> {
        let asked = self.needed_number("--lg-k")?;
        judged_lg_k(asked).map_err(|told| told.about(format_args!("--lg-k {asked}")))
    }

    pub fn has(&self, name: &str) -> bool {
        self.alone.contains(&name)
    }

    pub fn wants_progress(&self) -> bool {
        self.has(PROGRESS)
    }

    /// All the names, which must be just so many; `what` says what they are.
    pub fn names<const COUNT: usize>(&self, what: &str) -> Result<[PathBuf; COUNT], Failure> {
        let paths: Vec<_> = self.names.iter().map(PathBuf::from).collect();
        paths.try_into().map_err(|paths: Vec<PathBuf>| {
            let given: Vec<_> = paths.iter().map(|path| path.to_string_lossy()).collect();
            let given = match given.as_slice() {
                [] => "nothing".to_string(),
                given => given.join(" "),
            };
            self.usage(format!("it takes {what}, and was given {given}"))
        })
    }

    /// The names of `encode` and `decode`: what the stream holds, and a file, which `what` describes.
    pub fn kind_and_name(&self, what: &str) -> Result<(Kind, PathBuf), Failure> {
        let [kind, path] = self.names(&format!("pairs or window, and the name of {what}"))?;
        let kind = Kind::named(&kind)
            .ok_or_else(|| self.usage(format!("{} is neither pairs nor window", kind.display())))?;
        Ok((kind, path))
    }

    pub fn some_names(&self, what: &str) -> Result<Vec<PathBuf>, Failure> {
        if self.names.is_empty() {
            return Err(self.usage(format!("it takes {what}, and was given nothing")));
        }
        Ok(self.names.iter().map(PathBuf::from).collect())
    }
}
