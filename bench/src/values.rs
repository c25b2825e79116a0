//! Benchmark `values`: the order of two values, the listing of one, and the score of a sheet.

use std::cmp::Ordering;
use std::fmt::Write;
use std::hint::black_box;

use crate::measure::{side, Case};
use crate::pickle::Value;
use crate::table::{self, Table};
use crate::{inputs, ours};

pub const ABOUT: &str = "the order of two values of 2,048 records, each in its own memory, the listing of one, and the score of a sheet.
Ours (qelemvir_compare) has value tables, and on each call it first checks that both are well formed, which the Rust's types
make needless: Ord::cmp of two Values only compares. The making of tables and Values is not timed.
List (qelemvir_list) and score (qelemvir_score) are ours alone, for the Rust has no such calls; they too check their table on
each call.";

/// What the listing program lends.
const OUTPUT: usize = 65_536;

pub fn cases() -> Vec<Case> {
    vec![
        compare("compare, dicts, equal", inputs::dicts(), inputs::dicts()),
        compare("compare, dicts, the last differs", inputs::dicts(), inputs::dicts_and_more()),
        compare("compare, tuple of ints, equal", inputs::flat(), inputs::flat()),
        compare("compare, 1,000 strings, equal", inputs::strings(), inputs::strings()),
        list("list, 40,000 bytes of text", inputs::strings()),
        score("score, 200 answers", inputs::answered()),
    ]
}

fn compare(name: &'static str, first: Value, second: Value) -> Case {
    let tables = [&first, &second].map(table_of);
    let agree = same(&tables, first.cmp(&second));
    Case {
        name,
        bytes: None,
        agree,
        ours: side(move || {
            let [first, second] = &tables;
            let _ = black_box(ours::compare(black_box(first), black_box(second)));
        }),
        rust: Some(side(move || {
            black_box(black_box(&first).cmp(black_box(&second)));
        })),
        cpython: None,
    }
}

fn same([first, second]: &[Table; 2], rust: Ordering) -> Result<(), String> {
    let sign = ours::compare(first, second).map_err(|why| format!("ours refuses: {why}"))?;
    if sign != rust as i64 {
        return Err(format!("ours gives {sign}; the Rust {}", rust as i64));
    }
    Ok(())
}

fn list(name: &'static str, value: Value) -> Case {
    let table = table_of(&value);
    let mut output = vec![0; OUTPUT];
    let agree = listed(&table, &mut output, &listing(&value));
    Case {
        name,
        bytes: Some(table.text.len()),
        agree,
        ours: side(move || {
            let _ = black_box(ours::list(black_box(&table), black_box(&mut output)));
        }),
        rust: None,
        cpython: None,
    }
}

fn listed(table: &Table, output: &mut [u8], wanted: &str) -> Result<(), String> {
    let length = ours::list(table, output).map_err(|why| format!("ours refuses: {why}"))?;
    if &output[..length] != wanted.as_bytes() {
        return Err(format!("ours lists {length} bytes, not the {} that it should", wanted.len()));
    }
    Ok(())
}

fn score(name: &'static str, (value, due): (Value, u64)) -> Case {
    let table = table_of(&value);
    let agree = scored(&table, due);
    Case {
        name,
        bytes: None,
        agree,
        ours: side(move || {
            let _ = black_box(ours::score(black_box(&table)));
        }),
        rust: None,
        cpython: None,
    }
}

fn scored(table: &Table, due: u64) -> Result<(), String> {
    let (score, items) = ours::score(table).map_err(|why| format!("ours refuses: {why}"))?;
    if (score, items) != (due, 200) {
        return Err(format!("ours gives {score} of {items} items; due is {due} of 200"));
    }
    Ok(())
}

/// The listing that is due to a list of plain strings and ints.
fn listing(value: &Value) -> String {
    let Value::List(items) = value else { unreachable!() };
    let mut lines = format!("0\tlist\t{}\n", items.len());
    for item in items {
        match item {
            Value::String(text) => writeln!(lines, "1\tstring\t{text}"),
            Value::I64(number) => writeln!(lines, "1\tint\t{number}"),
            _ => unreachable!(),
        }
        .unwrap();
    }
    lines
}

fn table_of(value: &Value) -> Table {
    table::of_value(value).unwrap()
}
