//! `merge`: sketches as text become one.

use std::ffi::OsString;
use std::path::Path;

use bridgenook::Reason;
use bridgenook::Refused;
use bridgenook::numbers;
use bridgenook::unions;
use bridgenook::unions::Source;
use bridgenook::unions::Union;

use crate::arguments::Arguments;
use crate::arguments::Options;
use crate::failure::Failure;
use crate::failure::Told;
use crate::input;
use crate::output::Output;
use crate::progress::Progress;
use crate::sketch_text::SketchText;
use crate::text::Text;

const OPTIONS: Options = Options {
    subcommand: "merge",
    with_value: &["--lg-k", "--seed", "--output"],
    alone: &["--summary"],
};

/// The room for a list that is tried first.
const FIRST_ROOM: usize = 1024;

pub fn run(words: Vec<OsString>) -> Result<(), Failure> {
    let arguments = Arguments::take(&OPTIONS, words)?;
    let paths = arguments.some_names("the names of sketches")?;
    let (lg_k, seed) = (arguments.lg_k()?, arguments.needed_number("--seed")?);
    let progress = Progress::start(arguments.wants_progress());
    let mut merging =
        Merging::new(lg_k, seed).map_err(|refused| Told::from(refused).about("--lg-k"))?;
    for path in &paths {
        merging.add(path, &progress)?;
    }
    progress.begin("splitting the union", None);
    let output = Output::new(arguments.path("--output"));
    let of_union = |refused| Told::from(refused).about("the union");
    if arguments.has("--summary") {
        let summary = merging.summary().map_err(of_union)?;
        return output.write(progress, |out| out.write_all(summary.as_bytes()));
    }
    let sketch = merging.sketch().map_err(of_union)?;
    output.write(progress, |out| sketch.write(out))
}

/// A union and its matrix.
struct Merging {
    union: Union,
    matrix: Vec<u64>,
}

impl Merging {
    fn new(lg_k: u8, seed: u64) -> Result<Self, Refused> {
        let mut matrix = vec![0; numbers::rows(lg_k)? as usize];
        let union = unions::new_union(lg_k, seed, &mut matrix)?;
        Ok(Self { union, matrix })
    }

    fn add(&mut self, path: &Path, progress: &Progress) -> Result<(), Failure> {
        let mut text = Text::new(input::open(path)?, progress);
        let sketch = SketchText::read(&mut text)?;
        progress.begin(format_args!("merging {}", text.name), None);
        let SketchText {
            source,
            window,
            pairs,
        } = &sketch;
        unions::merge(&mut self.union, &mut self.matrix, *source, window, pairs)
            .map_err(|refused| sketch.failure(&text.name, refused))
    }

    /// The rows of the present lg_k; those beyond are zero.
    fn rows(&self) -> Result<&[u64], Refused> {
        let rows = numbers::rows(self.union.present_lg_k)?;
        Ok(&self.matrix[..rows as usize])
    }

    fn summary(&self) -> Result<String, Refused> {
        let lg_k = self.union.present_lg_k;
        let coupons = unions::count(lg_k, self.rows()?)?;
        let flavor = numbers::determine_flavor(lg_k, coupons)?;
        Ok(format!("lg_k={lg_k}\ncoupons={coupons}\nflavor={flavor}\n"))
    }

    /// How long the list is only the split knows, and one that finds no room has written nothing: so the room grows until it is enough.
    fn sketch(&self) -> Result<SketchText, Refused> {
        let lg_k = self.union.present_lg_k;
        let matrix = self.rows()?;
        let mut window = vec![0; matrix.len()];
        let mut pairs = vec![0; FIRST_ROOM];
        let summary = loop {
            match unions::split(lg_k, matrix, &mut window, &mut pairs) {
                Err(refused) if refused.reason == Reason::NoRoom => {
                    pairs = vec![0; 4 * pairs.len()];
                }
                answer => break answer?,
            }
        };
        pairs.truncate(summary.pairs as usize);
        if !summary.flavor.has_window() {
            window.clear();
        }
        let source = Source {
            lg_k,
            seed: self.union.seed,
            coupons: summary.coupons,
        };
        Ok(SketchText {
            source,
            window,
            pairs,
        })
    }
}
