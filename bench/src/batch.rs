//! Benchmark `batch`: a night's sheets in one call, and by a call each.

use std::cell::RefCell;
use std::hint::black_box;
use std::rc::Rc;
use std::time::Instant;

use crate::cpython::{self, Python};
use crate::measure::{Case, Side};
use crate::pickle::from_bytes;
use crate::rooms::Rooms;
use crate::{inputs, ours, table};

pub const ABOUT: &str = "a night of 300 sheets, the same one 300 times; the times are those of one sheet.
In one call ours (qelemvir_from_bytes_batch) looks at its rooms once a night; by a call each (qelemvir_from_bytes) once a sheet.
The Rust (from_bytes) and CPython (pickle.loads, str as bytes) read sheet by sheet in both rows, making a value and freeing it.";

const SHEETS: usize = 300;

pub fn cases() -> Vec<Case> {
    let python = Python::start();
    let rooms = Rc::new(RefCell::new(Rooms::new()));
    let [small, middle, large] = [inputs::small_sheet(), inputs::middle_sheet(), inputs::sheet()].map(|sheet| sheet.pickle);
    println!("A small sheet has {} bytes, one of 800 values {}, of 2,000 {}.\n", small.len(), middle.len(), large.len());
    let case = |name, pickle: &[u8], at_once| case(name, pickle, at_once, &rooms, &python);
    vec![
        case("small sheets, in one call", &small, true),
        case("small sheets, by a call each", &small, false),
        case("800 values each, in one call", &middle, true),
        case("800 values each, by a call each", &middle, false),
        case("2,000 values each, in one call", &large, true),
        case("2,000 values each, by a call each", &large, false),
    ]
}

/// The sheets end to end, their lengths, and room for the answers.
struct Night {
    sheets: Vec<u8>,
    lengths: Vec<u64>,
    answers: Vec<u64>,
}

impl Night {
    fn of(pickle: &[u8]) -> Night {
        Night { sheets: pickle.repeat(SHEETS), lengths: vec![pickle.len() as u64; SHEETS], answers: vec![0; 4 * SHEETS] }
    }

    fn read(&mut self, rooms: &mut Rooms) -> u64 {
        ours::from_bytes_batch(&self.sheets, &self.lengths, &mut self.answers, rooms).number
    }
}

fn case(name: &'static str, pickle: &[u8], at_once: bool, rooms: &Rc<RefCell<Rooms>>, python: &Rc<RefCell<Python>>) -> Case {
    let mut night = Night::of(pickle);
    let mut agree = same(pickle, &mut night, &mut rooms.borrow_mut());
    let cpython = cpython::side(python, pickle).map_err(|why| agree = Err(why)).ok();
    let (rooms, separate, for_rust) = (Rc::clone(rooms), pickle.to_vec(), pickle.to_vec());
    Case {
        name,
        bytes: Some(pickle.len()),
        agree,
        ours: if at_once {
            nightly(move || {
                black_box(black_box(&mut night).read(black_box(&mut rooms.borrow_mut())));
            })
        } else {
            nightly(move || {
                for _ in 0..SHEETS {
                    black_box(ours::from_bytes(black_box(&separate), black_box(&mut rooms.borrow_mut())));
                }
            })
        },
        rust: Some(nightly(move || {
            for _ in 0..SHEETS {
                let _ = black_box(from_bytes(black_box(&for_rust)));
            }
        })),
        cpython,
    }
}

/// A side that reads whole nights, and is asked for sheets: it says which part of the nights' time is theirs.
fn nightly(mut night: impl FnMut() + 'static) -> Side {
    Box::new(move |sheets| {
        let nights = (sheets + SHEETS as u64 - 1) / SHEETS as u64;
        let start = Instant::now();
        for _ in 0..nights {
            night();
        }
        start.elapsed().mul_f64(sheets as f64 / (nights * SHEETS as u64) as f64)
    })
}

/// Ours gives each sheet the Rust's length and records, by both calls, and leaves its table and text.
fn same(pickle: &[u8], night: &mut Night, rooms: &mut Rooms) -> Result<(), String> {
    let value = from_bytes(pickle).map_err(|error| format!("the Rust refuses: {error}"))?;
    let due = table::of_value(&value).ok_or("the Rust's value is too large for a table")?;
    let four = [0, 0, pickle.len() as u64, due.records() as u64];
    let alone = ours::from_bytes(pickle, rooms);
    if [alone.number, alone.detail, alone.length, alone.count] != four {
        return Err(format!("a separate call gives {}, detail {}", alone.number, alone.detail));
    }
    rooms.table.fill(0);
    rooms.text.fill(0);
    let number = night.read(rooms);
    if number != 0 || night.answers.chunks_exact(4).any(|answer| answer != four) {
        return Err(format!("the batch gives {number}, or a sheet is not answered as it is by itself"));
    }
    if rooms.table[..due.words.len()] != due.words[..] || rooms.text[..due.text.len()] != due.text[..] {
        return Err("the tables differ".to_string());
    }
    Ok(())
}
