//! The small framework of every comparison: it counts cases, sorts them into equal ones and intended
//! differences of a named class, and stops the program at anything else.
//!
//! In every case ours must answer what document 01 says (the plain reading). Outside of the intended
//! classes the Rust must say the same.

use std::cell::RefCell;
use std::collections::BTreeMap;
use std::fmt::Display;
use std::fs::File;
use std::io::BufWriter;
use std::io::Result;
use std::io::Write;
use std::path::Path;
use std::process::exit;

use crate::answer::Outcome;
use crate::rust::Said;

/// An intended difference from the Rust.
pub struct Class<I> {
    pub name: &'static str,
    /// What ours and the Rust do there.
    pub sides: &'static str,
    /// The inputs that belong to it.
    pub holds: fn(&I) -> bool,
}

/// Chosen inputs are the same in both profiles, so what the Rust says to them is kept in a file, for
/// the listing of where debug and release differ. Random ones would swell it.
#[derive(Clone, Copy, PartialEq, Eq)]
pub enum Kind {
    Chosen,
    Random,
}

/// What all sides say to one input.
pub struct Sides<O, S = O> {
    pub ours: O,
    pub reading: O,
    /// As much of ours as the Rust speaks of.
    pub spoken: S,
    pub rust: Said<S>,
}

/// What the Rust said wherever an intended class holds. A panic anywhere else ends the run.
pub struct RustAnswers(RefCell<BufWriter<File>>);

impl RustAnswers {
    pub fn create(path: &Path) -> Result<Self> {
        Ok(Self(RefCell::new(BufWriter::new(File::create(path)?))))
    }

    /// Several calls that are compared side by side keep what they hear in one file.
    fn keep(&self, call: &str, class: &str, input: impl Display, said: &str) {
        let mut file = self.0.borrow_mut();
        writeln!(file, "{call}\t{class}\t{input}\t{said}").expect("the answers can be written");
    }

    pub fn finish(self) -> Result<()> {
        self.0.into_inner().flush()
    }
}

/// The cases of one call that the Rust as given has too.
pub struct AgainstRust<'a, I: 'static> {
    call: &'static str,
    classes: &'static [Class<I>],
    seen: Vec<Option<Seen<I>>>,
    cases: u64,
    /// Where the Rust says the same, by the number of the refusal.
    equal: BTreeMap<u32, u64>,
    rust_answers: &'a RustAnswers,
}

/// What fell into a class: how often, and the smallest input with both answers.
struct Seen<I> {
    cases: u64,
    smallest: I,
    ours: String,
    rust: String,
}

impl<'a, I: Ord + Display> AgainstRust<'a, I> {
    pub fn new(
        call: &'static str,
        classes: &'static [Class<I>],
        rust_answers: &'a RustAnswers,
    ) -> Self {
        Self {
            call,
            classes,
            seen: classes.iter().map(|_| None).collect(),
            cases: 0,
            equal: BTreeMap::new(),
            rust_answers,
        }
    }

    pub fn judge<O: Outcome, S: Outcome>(&mut self, input: I, kind: Kind, sides: Sides<O, S>) {
        let Sides {
            ours,
            reading,
            spoken,
            rust,
        } = sides;
        self.cases += 1;
        let holds = |class: &Class<I>| (class.holds)(&input);
        match self.classes.iter().position(holds) {
            Some(class) if ours == reading => self.count(class, input, kind, &ours, &rust),
            None if ours == reading && rust.is(&spoken) => {
                *self.equal.entry(ours.number()).or_default() += 1
            }
            _ => {
                let reading = beside(&ours, READING, &reading);
                stop(
                    self.call,
                    input,
                    &ours,
                    [reading, rust_beside(&spoken, &rust)],
                )
            }
        }
    }

    fn count(
        &mut self,
        class: usize,
        input: I,
        kind: Kind,
        ours: &impl Outcome,
        rust: &Said<impl Outcome>,
    ) {
        let rust = say(rust);
        if kind == Kind::Chosen {
            let name = self.classes[class].name;
            self.rust_answers.keep(self.call, name, &input, &rust);
        }
        let seen = &mut self.seen[class];
        let cases = 1 + seen.as_ref().map_or(0, |seen| seen.cases);
        match seen {
            Some(seen) if seen.smallest <= input => seen.cases = cases,
            _ => {
                *seen = Some(Seen {
                    cases,
                    smallest: input,
                    ours: ours.say(),
                    rust,
                })
            }
        }
    }

    pub fn finish(self) {
        let (call, cases) = (self.call, self.cases);
        let equal: u64 = self.equal.values().sum();
        println!("{call}: {cases} cases against the Rust, {equal} equal");
        for (number, cases) in self.equal.range(1..) {
            println!("    equal, and both refuse {number}: {cases} cases");
        }
        for (class, seen) in self.classes.iter().zip(self.seen) {
            if let Some(seen) = seen {
                let Class { name, sides, .. } = class;
                println!("    intended: {name}: {sides}: {} cases", seen.cases);
                let (ours, rust) = (seen.ours, seen.rust);
                println!(
                    "        smallest input {}: ours {ours}, the Rust {rust}",
                    seen.smallest
                );
            }
        }
    }
}

/// The cases of one call that the Rust as given does not have.
pub struct AgainstReading {
    call: &'static str,
    reading: &'static str,
    cases: u64,
}

impl AgainstReading {
    pub fn new(call: &'static str) -> Self {
        Self {
            call,
            reading: READING,
            cases: 0,
        }
    }

    /// A call whose rule is our own: document 01 does not have it, so equal answers show only
    /// that the rule was written down the same way twice.
    pub fn of_our_own(call: &'static str) -> Self {
        Self {
            reading: "a second writing of our own rule, which document 01 does not have",
            ..Self::new(call)
        }
    }

    pub fn judge<O: Outcome>(&mut self, input: impl Display, ours: O, reading: O) {
        self.cases += 1;
        if ours != reading {
            stop(
                self.call,
                input,
                &ours,
                [beside(&ours, self.reading, &reading)],
            )
        }
    }

    pub fn finish(self) {
        let (call, cases, reading) = (self.call, self.cases, self.reading);
        println!("{call}: {cases} cases against {reading} (not in the Rust)");
    }
}

fn say(rust: &Said<impl Outcome>) -> String {
    match rust {
        Said::Value(value) => value.say(),
        Said::Panic => "panics".to_string(),
        Said::Unasked => "is not asked".to_string(),
    }
}

const READING: &str = "a plain reading of document 01";

/// What another side said, and where it parts from ours.
fn beside<O: Outcome>(ours: &O, side: &str, theirs: &O) -> String {
    let parting = ours.parting(theirs).map(|parting| format!("; {parting}"));
    format!("{side} {}{}", theirs.say(), parting.unwrap_or_default())
}

fn rust_beside<O: Outcome>(ours: &O, rust: &Said<O>) -> String {
    match rust {
        Said::Value(value) => beside(ours, "the Rust", value),
        silent => format!("the Rust {}", say(silent)),
    }
}

/// A difference that no class intends ends the run.
fn stop<const SIDES: usize>(
    call: &str,
    input: impl Display,
    ours: &impl Outcome,
    theirs: [String; SIDES],
) -> ! {
    println!("DIFFERENCE in {call}, input {input}");
    println!("    ours {}", ours.say());
    for said in theirs {
        println!("    {said}");
    }
    exit(1)
}
