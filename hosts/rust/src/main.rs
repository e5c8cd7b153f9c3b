//! A host of Bridgenook in Rust. Four viewers count ticket numbers, each in a sketch of its own size, and put their sketches into
//! files. The wall's controller trusts no file: it reads them back, merges them, and tries damaged copies.
//!
//!     bridgenook-host FOLDER      the files are made in FOLDER
//!
//! The host in C makes the same files and prints the same text.

mod damages;
mod practice_books;
mod sketch_file;
mod trouble;
mod viewers;
mod wall;

use std::env;
use std::path::Path;
use std::path::PathBuf;
use std::process::ExitCode;

use bridgenook::Refused;

use crate::damages::DAMAGES;
use crate::practice_books::PracticeBooks;
use crate::trouble::Trouble;
use crate::viewers::VIEWERS;
use crate::wall::Wall;

const SEED: u64 = 9001;
const WALL_LG_K: u8 = 12;
/// The one whose file is damaged: its sketch has a window and a list.
const DAMAGED_VIEWER: usize = 3;

fn save_viewers(books: &PracticeBooks, folder: &Path) -> Result<(), Trouble> {
    for (number, viewer) in (1..).zip(VIEWERS) {
        let (sketch, flavor) = viewer.sketch(SEED)?;
        let bytes = sketch.to_bytes(books)?;
        sketch_file::save(&viewer_path(folder, number), &bytes)?;
        println!(
            "viewer {number}: lg_k {}, {flavor:?}, coupons {}, pairs {}, bytes {}",
            sketch.source.lg_k,
            sketch.source.coupons,
            sketch.pairs.len(),
            bytes.len()
        );
    }
    Ok(())
}

fn viewer_path(folder: &Path, number: usize) -> PathBuf {
    folder.join(format!("viewer-{number}.sketch"))
}

fn merge_viewers(books: &PracticeBooks, folder: &Path, wall: &mut Wall) -> Result<(), Trouble> {
    for number in 1..=VIEWERS.len() {
        wall.merge_file(books, &viewer_path(folder, number))?;
        print_wall(&format!("union after viewer {number}"), wall)?;
    }
    Ok(())
}

fn print_wall(when: &str, wall: &Wall) -> Result<(), Refused> {
    let (coupons, flavor) = wall.count()?;
    println!(
        "{when}: lg_k {}, {flavor:?}, coupons {coupons}",
        wall.present_lg_k()
    );
    Ok(())
}

fn try_damages(books: &PracticeBooks, folder: &Path, wall: &mut Wall) -> Result<(), Trouble> {
    let lawful = sketch_file::load(&viewer_path(folder, DAMAGED_VIEWER))?;
    for (number, (name, damage)) in (1..).zip(DAMAGES) {
        let mut bytes = lawful.clone();
        damage(&mut bytes);
        let path = folder.join(format!("damaged-{number}.sketch"));
        sketch_file::save(&path, &bytes)?;
        match wall.merge_file(books, &path) {
            Ok(()) => println!("{name}: accepted"),
            Err(Trouble::Refused(refused)) => println!(
                "{name}: refused by {}, place {}, bit {}",
                refused.number(),
                refused.place,
                refused.bit
            ),
            Err(trouble) => println!("{name}: the host refuses, {trouble}"),
        }
    }
    Ok(())
}

fn run(folder: &Path) -> Result<(), Trouble> {
    let books = PracticeBooks::new()?;
    save_viewers(&books, folder)?;
    let mut wall = Wall::new(WALL_LG_K, SEED)?;
    merge_viewers(&books, folder, &mut wall)?;
    try_damages(&books, folder, &mut wall)?;
    print_wall(&format!("union of viewers 1 to {}", VIEWERS.len()), &wall)?;
    Ok(())
}

fn main() -> ExitCode {
    let arguments: Vec<_> = env::args_os().skip(1).collect();
    let [folder] = arguments.as_slice() else {
        eprintln!("usage: bridgenook-host FOLDER");
        return ExitCode::from(2);
    };
    match run(Path::new(folder)) {
        Ok(()) => ExitCode::SUCCESS,
        Err(trouble) => {
            eprintln!("{trouble}");
            ExitCode::FAILURE
        }
    }
}
