//! Benchmark `plain`: the reading of plain data only beside the full one, on sheets that hold no class.

use std::cell::RefCell;
use std::rc::Rc;

use crate::cpython::Python;
use crate::measure::Case;
use crate::reading::{case, sheet};
use crate::rooms::Rooms;
use crate::{inputs, ours};

pub const ABOUT: &str = "the value at the start of a sheet that holds no class, by the full reading (qelemvir_from_bytes_prefix) and by that of
plain data only (qelemvir_plain_from_bytes_prefix). The Rust and CPython have one reading (from_bytes_prefix, pickle.loads), which is in both rows.";

pub fn cases() -> Vec<Case> {
    let python = Python::start();
    let rooms = Rc::new(RefCell::new(Rooms::new()));
    let sheets = [
        ("2,000 values, full", "2,000 values, plain", inputs::sheet()),
        ("recent GETs, full", "recent GETs, plain", inputs::recent_sheet()),
        ("the same, optimized, full", "the same, optimized, plain", inputs::optimized_sheet()),
    ];
    let rows = |(full, plain, counted): (_, _, inputs::Counted)| {
        [
            case(sheet(full, counted.pickle.clone()), ours::from_bytes_prefix, &rooms, &python),
            case(sheet(plain, counted.pickle), ours::plain_from_bytes_prefix, &rooms, &python),
        ]
    };
    sheets.into_iter().flat_map(rows).collect()
}
