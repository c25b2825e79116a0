//! Benchmark `writing`: a value as a pickle.

use std::hint::black_box;

use crate::measure::{side, Case};
use crate::pickle::{from_bytes, to_bytes};
use crate::table::{self, Table};
use crate::{inputs, ours};

pub const ABOUT: &str = "the values of reading's sheets as pickles.
Ours (qelemvir_to_bytes) has a value table, checks on each call that it is well formed and measures the pickle before it writes
it into a lent output. The Rust (to_bytes) writes into memory that it allocates and frees. The making of tables and Values is
not timed.";

/// No pickle of a well-formed table is longer.
const OUTPUT: usize = 122_883;

pub fn cases() -> Vec<Case> {
    vec![
        case("a small sheet", inputs::small_sheet().pickle),
        case("a sheet of 800 values", inputs::middle_sheet().pickle),
        case("a sheet of 2,000 values", inputs::sheet().pickle),
    ]
}

fn case(name: &'static str, sheet: Vec<u8>) -> Case {
    let value = from_bytes(sheet).unwrap();
    let table = table::of_value(&value).unwrap();
    let mut output = vec![0; OUTPUT];
    let due = to_bytes(&value);
    let agree = same(&table, &mut output, &due);
    Case {
        name,
        bytes: Some(due.len()),
        agree,
        ours: side(move || {
            let _ = black_box(ours::to_bytes(black_box(&table), black_box(&mut output)));
        }),
        rust: Some(side(move || {
            black_box(to_bytes(black_box(&value)));
        })),
        cpython: None,
    }
}

fn same(table: &Table, output: &mut [u8], due: &[u8]) -> Result<(), String> {
    let length = ours::to_bytes(table, output).map_err(|why| format!("ours refuses: {why}"))?;
    if &output[..length] != due {
        return Err(format!("ours writes {length} bytes that are not the Rust's {}", due.len()));
    }
    Ok(())
}
