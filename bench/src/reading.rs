//! Benchmark `reading`: the prefix reading, on sheets and on hostile pickles.

use std::cell::RefCell;
use std::hint::black_box;
use std::rc::Rc;

use crate::calls::Answer;
use crate::cpython::{self, Python};
use crate::measure::{side, Case};
use crate::pickle::from_bytes_prefix;
use crate::rooms::Rooms;
use crate::{hostile, inputs, ours, table};

pub const ABOUT: &str = "the value at the start of a pickle, of sheets and of hostile pickles.
Ours (qelemvir_from_bytes_prefix) fills a table and text, in rooms that are made once; it looks at them on each call,
and makes zero what is not, which is nearly all of the None row. The Rust (from_bytes_prefix) and CPython (pickle.loads, str as bytes) make a value and
free it.";

/// A pickle with what the prefix reading must answer, and whether the other sides are asked too.
pub struct Input {
    pub name: &'static str,
    pub pickle: Vec<u8>,
    /// The number that is due here: 0, and then the Rust's value, or an added refusal (RULES A4.1).
    pub number: u64,
    pub rust: bool,
    pub cpython: bool,
}

/// The prefix reading that is timed: the full one, or that of plain data only.
pub type Reading = fn(&[u8], &mut Rooms) -> Answer;

pub fn cases() -> Vec<Case> {
    let python = Python::start();
    let rooms = Rc::new(RefCell::new(Rooms::new()));
    for Input { name, pickle, .. } in sheets() {
        println!("{name}: {} bytes.", pickle.len());
    }
    println!();
    pickles().into_iter().map(|input| case(input, ours::from_bytes_prefix, &rooms, &python)).collect()
}

/// All that are read.
pub fn pickles() -> Vec<Input> {
    sheets().into_iter().chain(hostile::pickles()).collect()
}

/// A pickle that all sides accept.
pub fn sheet(name: &'static str, pickle: Vec<u8>) -> Input {
    Input { name, pickle, number: 0, rust: true, cpython: true }
}

fn sheets() -> Vec<Input> {
    vec![
        sheet("None", b"N.".to_vec()),
        sheet("a small sheet", inputs::small_sheet().pickle),
        sheet("a sheet of 800 values", inputs::middle_sheet().pickle),
        sheet("a sheet of 2,000 values", inputs::sheet().pickle),
        sheet("a sheet of recent GETs", inputs::recent_sheet().pickle),
        sheet("the same, optimized", inputs::optimized_sheet().pickle),
    ]
}

pub fn case(input: Input, read: Reading, rooms: &Rc<RefCell<Rooms>>, python: &Rc<RefCell<Python>>) -> Case {
    let mut agree = same(&input, read, &mut rooms.borrow_mut());
    let asked = input.cpython.then(|| cpython::side(python, &input.pickle));
    let cpython = asked.and_then(|side| side.map_err(|why| agree = Err(why)).ok());
    let Input { name, pickle, rust, .. } = input;
    let (rooms, for_rust) = (Rc::clone(rooms), pickle.clone());
    Case {
        name,
        bytes: Some(pickle.len()),
        agree,
        ours: side(move || {
            black_box(read(black_box(&pickle), black_box(&mut rooms.borrow_mut())));
        }),
        rust: rust.then(|| side(move || {
            let _ = black_box(from_bytes_prefix(black_box(&for_rust)));
        })),
        cpython,
    }
}

/// Ours gives the number that is due, and where that is 0 the Rust's length, records and text.
fn same(input: &Input, read: Reading, rooms: &mut Rooms) -> Result<(), String> {
    let ours = read(&input.pickle, rooms);
    if ours.number != input.number {
        return Err(format!("ours gives {}, detail {}, and not {}", ours.number, ours.detail, input.number));
    }
    if ours.number != 0 {
        return Ok(());
    }
    let (value, length) = from_bytes_prefix(&input.pickle).map_err(|error| format!("the Rust refuses: {error}"))?;
    let due = table::of_value(&value).ok_or("the Rust's value is too large for a table")?;
    if (ours.length, ours.count) != (length as u64, due.records() as u64) {
        let (bytes, records) = (ours.length, ours.count);
        return Err(format!("ours reads {bytes} bytes, {records} records; the Rust {length} and {}", due.records()));
    }
    if rooms.table[..due.words.len()] != due.words[..] || rooms.text[..due.text.len()] != due.text[..] {
        return Err("the tables differ".to_string());
    }
    Ok(())
}
