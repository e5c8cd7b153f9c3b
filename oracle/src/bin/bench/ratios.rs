//! The table of ratios: a row for everything that is timed, and how many of the rows with a bar meet it.

/// Something that was timed, in microseconds for a call.
pub struct Row {
    what: String,
    size: String,
    ours: f64,
    /// None where the Rust has no such call.
    rust: Option<f64>,
    /// What our call takes with nothing to do, and the Rust's does not: a bar is for the rest.
    fixed: f64,
    /// The least ratio that is asked for.
    bar: Option<f64>,
    note: String,
}

impl Row {
    pub fn alone(what: impl Into<String>, size: impl Into<String>, ours: f64) -> Self {
        Self {
            what: what.into(),
            size: size.into(),
            ours,
            rust: None,
            fixed: 0.0,
            bar: None,
            note: String::new(),
        }
    }

    pub fn beside(
        what: impl Into<String>,
        size: impl Into<String>,
        (ours, rust): (f64, f64),
    ) -> Self {
        Self {
            rust: Some(rust),
            ..Self::alone(what, size, ours)
        }
    }

    /// With the fixed cost as a share of our time, and the ratio without it, in the note.
    pub fn fixed(self, fixed: f64) -> Self {
        let row = Self { fixed, ..self };
        let without = number(row.ratio_without_fixed());
        let part = share(fixed, row.ours);
        row.note(format!("fixed cost: {part}, without it {without}"))
    }

    pub fn bar(self, bar: impl Into<Option<f64>>) -> Self {
        Self {
            bar: bar.into(),
            ..self
        }
    }

    pub fn note(self, note: impl Into<String>) -> Self {
        Self {
            note: note.into(),
            ..self
        }
    }

    /// More is faster.
    fn ratio(&self) -> Option<f64> {
        self.rust.map(|rust| rust / self.ours)
    }

    fn ratio_without_fixed(&self) -> Option<f64> {
        self.rust.map(|rust| rust / (self.ours - self.fixed))
    }

    fn is_below(&self) -> bool {
        matches!((self.ratio_without_fixed(), self.bar), (Some(ratio), Some(bar)) if ratio < bar)
    }
}

/// Prints each row as it comes.
pub struct Ratios {
    with_bar: u32,
    met: u32,
}

const HEADING: &str = "\
Medians for a call, in one process. The ratio is the Rust's time over ours: 1.00 is even, and more
is faster. The bar is the least ratio that is asked for, of streams without the fixed cost.
oracle/README.md says what each row times.
";

impl Ratios {
    pub fn begin() -> Self {
        println!("{HEADING}");
        let names = ["what", "size", "ours, µs", "the Rust, µs", "ratio", "bar"];
        print_cells(names, "notes");
        println!("|---|--:|--:|--:|--:|--:|---|");
        Self {
            with_bar: 0,
            met: 0,
        }
    }

    pub fn add(&mut self, row: Row) {
        let (is_below, bar) = (row.is_below(), row.bar);
        let bar = bar.map(|bar| format!("{}{bar:.1}", if is_below { "below " } else { "" }));
        let cells = [
            row.what.clone(),
            row.size.clone(),
            number(Some(row.ours)),
            number(row.rust),
            number(row.ratio()),
            bar.unwrap_or_default(),
        ];
        print_cells(cells.each_ref().map(String::as_str), &row.note);
        if row.bar.is_some() {
            self.with_bar += 1;
            self.met += u32::from(!is_below);
        }
    }

    pub fn finish(self) {
        println!();
        println!("{} of {} rows with a bar meet it", self.met, self.with_bar);
    }
}

fn print_cells([what, size, ours, rust, ratio, bar]: [&str; 6], note: &str) {
    println!(
        "| {what:<33} | {size:>16} | {ours:>11} | {rust:>12} | {ratio:>8} | {bar:>9} | {note} |"
    );
}

/// With as many decimals as tell something.
fn number(number: Option<f64>) -> String {
    match number {
        None => String::new(),
        Some(number) if number >= 1000.0 => format!("{number:.0}"),
        Some(number) if number < 0.1 => format!("{number:.4}"),
        Some(number) => format!("{number:.2}"),
    }
}

/// The digits in groups of three.
pub fn grouped(number: u64) -> String {
    let digits = number.to_string();
    let mut grouped = String::new();
    for (place, digit) in digits.chars().enumerate() {
        if place > 0 && (digits.len() - place).is_multiple_of(3) {
            grouped.push(',');
        }
        grouped.push(digit);
    }
    grouped
}

/// A size, for a row.
pub fn sized(count: u64, unit: &str) -> String {
    format!("{} {unit}", grouped(count))
}

/// How much of a time another one is, for a note.
pub fn share(part: f64, whole: f64) -> String {
    format!("{:.0} %", 100.0 * part / whole)
}
