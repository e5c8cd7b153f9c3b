//! One table call of the library, for a tool that counts instructions: `costs CALL ITEMS` makes the call,
//! `costs CALL ITEMS prepare` only what goes before it. Without arguments it lists the calls.

// The modules are those of the comparison, and this needs a part of each.
#![allow(dead_code)]

#[path = "../answer.rs"]
mod answer;
#[path = "../lent_matrices.rs"]
mod lent_matrices;
#[path = "../lent_tables.rs"]
mod lent_tables;
#[path = "../listed.rs"]
mod listed;
#[path = "../ours/mod.rs"]
mod ours;
#[path = "../plain_reading/mod.rs"]
mod plain_reading;
#[path = "../random.rs"]
mod random;

use std::env;

use crate::answer::Answer;
use crate::lent_tables::Memory;
use crate::lent_tables::Table;
use crate::ours::tables;
use crate::plain_reading::tables::least_lg;
use crate::random::Random;

const VALID: u8 = 32;

/// A call on a list, or on a table of so many items, whose name in the library follows its own.
struct Cost {
    name: &'static str,
    call: &'static str,
    what: What,
}

enum What {
    /// A list of so many items is built.
    Build(fn(u32) -> Vec<u32>),
    /// A table of so many items is handed to a call.
    Table(fn(u32) -> Table, fn(Table, Memory) -> Answer),
}

const COSTS: [Cost; 9] = [
    Cost {
        name: "build-rising",
        call: "bridgenook_table_build",
        what: What::Build(|count| (0..count).map(|place| place * (u32::MAX / count)).collect()),
    },
    Cost {
        name: "build-rising-side-by-side",
        call: "bridgenook_table_build",
        what: What::Build(|count| (0..count).collect()),
    },
    Cost {
        name: "build-shuffled",
        call: "bridgenook_table_build",
        what: What::Build(|count| {
            shuffled((0..count).map(|place| place * (u32::MAX / count)).collect())
        }),
    },
    Cost {
        name: "build-shuffled-side-by-side",
        call: "bridgenook_table_build",
        what: What::Build(|count| shuffled((0..count).collect())),
    },
    Cost {
        name: "insert",
        call: "bridgenook_table_insert",
        what: What::Table(at_home, |table, mut memory| {
            tables::insert(table.record, &mut memory.region, &mut memory.spare, 1)
        }),
    },
    Cost {
        name: "delete-in-a-long-cluster",
        call: "bridgenook_table_delete",
        what: What::Table(side_by_side, |table, mut memory| {
            tables::delete(table.record, &mut memory.region, &mut memory.spare, 0)
        }),
    },
    Cost {
        name: "extract",
        call: "bridgenook_table_extract",
        what: What::Table(at_home, |table, mut memory| {
            tables::extract(table.record, &memory.region, &memory.spare, &mut memory.out)
        }),
    },
    Cost {
        name: "walk",
        call: "bridgenook_table_walk",
        what: What::Table(at_home, |table, mut memory| {
            tables::walk(table.record, &memory.region, &memory.spare, &mut memory.out)
        }),
    },
    Cost {
        name: "extract-a-long-cluster",
        call: "bridgenook_table_extract",
        what: What::Table(side_by_side, |table, mut memory| {
            tables::extract(table.record, &memory.region, &memory.spare, &mut memory.out)
        }),
    },
];

fn shuffled(mut list: Vec<u32>) -> Vec<u32> {
    Random::new(1).shuffle(&mut list);
    list
}

/// Half full, each item at its home.
fn at_home(items: u32) -> Table {
    let lg = (2 * items).ilog2() as u8;
    Table::at_home(lg, VALID, items, 1 << lg)
}

/// Half full, all items of one home.
fn side_by_side(items: u32) -> Table {
    let mut table = at_home(items);
    for slot in 0..items {
        table.region[slot as usize] = slot;
    }
    table
}

/// The call of so many items, or what goes before it.
fn run(cost: &Cost, items: u32, does_call: bool) {
    let answer = match cost.what {
        What::Build(list) => {
            let list = list(items);
            let length = 1 << least_lg(list.len());
            let (mut region, mut spare) = (vec![0; length], vec![0; length]);
            does_call.then(|| tables::build(VALID, &list, &mut region, &mut spare))
        }
        What::Table(table, call) => {
            let table = table(items);
            let memory = Memory::around(&table.region, items as usize);
            does_call.then(|| call(table, memory))
        }
    };
    if let Some(answer) = answer {
        assert!(answer.number == 0, "refuses {}", answer.number);
    }
}

fn main() {
    let arguments: Vec<String> = env::args().skip(1).collect();
    let Some(name) = arguments.first() else {
        for Cost { name, call, .. } in COSTS {
            println!("{name} {call}");
        }
        return;
    };
    let cost = COSTS.iter().find(|cost| cost.name == name);
    let items = arguments[1].parse().expect("a number of items");
    run(cost.expect("one of the calls"), items, arguments.len() == 2);
}
