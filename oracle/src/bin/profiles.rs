//! Lists where debug and release part in what the Rust says: `profiles DEBUG RELEASE LIST`, two files
//! of answers that the oracle kept, and one that gets every case where they differ. It is a listing, not
//! a test: an overflow panics in one profile and goes on in the other.

use std::collections::BTreeMap;
use std::env;
use std::fs::read_to_string;
use std::fs::write;
use std::io::Result;

/// Ordered by call and class, then by the numbers of the input, so that the smallest comes first.
#[derive(PartialEq, Eq, PartialOrd, Ord)]
struct Case {
    call: String,
    class: String,
    numbers: Vec<u64>,
    input: String,
}

fn read(path: &str) -> Result<BTreeMap<Case, String>> {
    let read_line = |line: &str| {
        let parts: Vec<&str> = line.split('\t').collect();
        let [call, class, input, said] = parts[..] else {
            panic!("{path} has a line of another form: {line}");
        };
        let runs = input.split(|character: char| !character.is_ascii_digit());
        let numbers = runs.filter_map(|run| run.parse().ok());
        let case = Case {
            call: call.to_string(),
            class: class.to_string(),
            numbers: numbers.collect(),
            input: input.to_string(),
        };
        (case, said.to_string())
    };
    Ok(read_to_string(path)?.lines().map(read_line).collect())
}

/// What is told of a call and a class: all cases, those that part, and the first of these.
#[derive(Default)]
struct Group {
    cases: u64,
    apart: u64,
    first: Option<String>,
}

fn main() -> Result<()> {
    let paths: Vec<String> = env::args().skip(1).collect();
    let [debug, release, list] = &paths[..] else {
        panic!("three files are wanted: profiles DEBUG RELEASE LIST");
    };
    let (debug, release) = (read(debug)?, read(release)?);
    assert!(
        debug.keys().eq(release.keys()),
        "the two profiles were not asked the same"
    );

    let mut listed = String::new();
    let mut groups: BTreeMap<(&str, &str), Group> = BTreeMap::new();
    for ((case, in_debug), in_release) in debug.iter().zip(release.values()) {
        let group = groups.entry((&case.call, &case.class)).or_default();
        group.cases += 1;
        if in_debug != in_release {
            group.apart += 1;
            let said = format!("{}: debug {in_debug}, release {in_release}", case.input);
            listed += &format!("{} {said}\n", case.call);
            group.first.get_or_insert(said);
        }
    }
    write(list, listed)?;
    println!("what the Rust says in debug and in release, on the chosen inputs of each class;");
    println!("every case where they differ stands in oracle/{list}:");
    for (
        (call, class),
        Group {
            cases,
            apart,
            first,
        },
    ) in groups
    {
        println!("    {call}, {class}: {apart} of {cases} answers differ");
        if let Some(first) = first {
            println!("        smallest input {first}");
        }
    }
    Ok(())
}
