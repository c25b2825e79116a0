//! Benchmark `machine`: the run of the opcodes to STOP.

use std::hint::black_box;

use crate::measure::{side, Case};
use crate::pickle::from_bytes_prefix;
use crate::{hostile, inputs, ours};

pub const ABOUT: &str = "the opcodes of a pickle up to STOP.
Ours (probe_machine) runs the machine alone, in rooms that it makes zero on each call: it leaves a node table, of
which no value is built. The Rust (from_bytes_prefix) does its whole reading: it runs the opcodes, builds the value and frees it.";

pub fn cases() -> Vec<Case> {
    let sheet = inputs::sheet();
    println!("The sheet has {} opcodes in {} bytes.\n", sheet.opcodes, sheet.pickle.len());
    let mut cases = vec![
        case("a sheet of 2,000 values", sheet.pickle),
        case("a sheet of recent GETs", inputs::recent_sheet().pickle),
        case("the same, optimized", inputs::optimized_sheet().pickle),
        case("None", b"N.".to_vec()),
    ];
    // Where the memo's search goes through every number.
    let searched = hostile::pickles().into_iter().filter(|input| input.name.contains("full memo, "));
    cases.extend(searched.map(|input| case(input.name, input.pickle)));
    cases
}

fn case(name: &'static str, pickle: Vec<u8>) -> Case {
    let agree = same(&pickle);
    let for_rust = pickle.clone();
    Case {
        name,
        bytes: Some(pickle.len()),
        agree,
        ours: side(move || {
            black_box(ours::machine(black_box(&pickle)));
        }),
        rust: Some(side(move || {
            let _ = black_box(from_bytes_prefix(black_box(&for_rust)));
        })),
        cpython: None,
    }
}

/// Both read to the same place. What stands in the node table is the tests' affair.
fn same(pickle: &[u8]) -> Result<(), String> {
    let ours = ours::machine(pickle);
    match from_bytes_prefix(pickle) {
        Ok((_, length)) if ours.number == 0 && ours.length == length as u64 => Ok(()),
        Ok((_, length)) => Err(format!("ours gives {}, detail {}, length {}; the Rust reads {length}", ours.number, ours.detail, ours.length)),
        Err(why) => Err(format!("the Rust refuses: {why}")),
    }
}
