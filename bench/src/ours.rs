//! The proved code as functions of Rust. The public calls are the Rust binding's own (its calls.rs and rooms.rs); the probes are declared
//! here. Nothing checks those declarations against the Rattle source: a change there must be made here too.

use crate::calls::{self, Answer};
use crate::error::Error;
use crate::rooms::{qelemvir_from_bytes, qelemvir_from_bytes_prefix, qelemvir_plain_from_bytes_prefix, Rooms};
use crate::table::Table;

/// As crate `probe` has it.
#[repr(C)]
pub struct Literal {
    pub number: u64,
    pub detail: u64,
    pub length: u64,
    pub kind: u64,
    pub word: u64,
    pub text: u64,
    pub place: u64,
}

extern "C" {
    fn probe_literal(pickle: *const u8, pickle_len: usize, room: *mut u8, room_len: usize) -> Literal;

    fn probe_machine(pickle: *const u8, pickle_len: usize) -> Answer;
}

/// The literal at the start of a pickle, and STOP; its text is put at the start of the room.
pub fn literal(pickle: &[u8], room: &mut [u8]) -> Literal {
    // SAFETY: a slice passes as pointer and length; the contract asks nothing of them.
    unsafe { probe_literal(pickle.as_ptr(), pickle.len(), room.as_mut_ptr(), room.len()) }
}

/// The machine's run of a pickle: how much it read, and how many nodes it made.
pub fn machine(pickle: &[u8]) -> Answer {
    // SAFETY: as for literal.
    unsafe { probe_machine(pickle.as_ptr(), pickle.len()) }
}

/// The order of the values of two tables, if both are well formed: -1, 0 or 1.
pub fn compare(first: &Table, second: &Table) -> Result<i64, Error> {
    calls::compare((&first.words, &first.text), (&second.words, &second.text))
}

/// The length of the listing of a table's value, put at the start of the output, if the table is well formed.
pub fn list(table: &Table, output: &mut [u8]) -> Result<usize, Error> {
    calls::list(&table.words, &table.text, output)
}

/// The length of the value of a table as a pickle, put at the start of the output, if the table is well formed.
pub fn to_bytes(table: &Table, output: &mut [u8]) -> Result<usize, Error> {
    calls::to_bytes(&table.words, &table.text, output)
}

/// The score of a table's value and how many items were answered, if the table is well formed and the value a sheet.
pub fn score(table: &Table) -> Result<(u64, u64), Error> {
    calls::score(&table.words, &table.text)
}

/// The value at the start of a pickle, put at the start of the rooms' table and text.
pub fn from_bytes_prefix(pickle: &[u8], rooms: &mut Rooms) -> Answer {
    rooms.lend(qelemvir_from_bytes_prefix, pickle)
}

/// The same of plain data only.
pub fn plain_from_bytes_prefix(pickle: &[u8], rooms: &mut Rooms) -> Answer {
    rooms.lend(qelemvir_plain_from_bytes_prefix, pickle)
}

/// The value that a pickle is, likewise.
pub fn from_bytes(pickle: &[u8], rooms: &mut Rooms) -> Answer {
    rooms.lend(qelemvir_from_bytes, pickle)
}

/// The sheets of these lengths that stand end to end, each read so; four answers a sheet.
pub fn from_bytes_batch(sheets: &[u8], lengths: &[u64], answers: &mut [u64], rooms: &mut Rooms) -> Answer {
    rooms.lend_batch(sheets, lengths, answers)
}
