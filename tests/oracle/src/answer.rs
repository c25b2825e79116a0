//! The answer lines that both programs give, and the Rust's own two readings in that form.

use crate::pickle::{from_bytes, from_bytes_prefix, DeError, Value};
use crate::{hex, table};

/// A number and detail of RULES A4.
pub type Refusal = (u64, u64);

/// What the unchanged Rust says of a pickle: the value with the bytes consumed, or its refusal.
pub fn read(data: &[u8], whole: bool) -> Result<(Value, usize), Refusal> {
    let result = if whole { from_bytes(data).map(|value| (value, data.len())) } else { from_bytes_prefix(data) };
    result.map_err(|error| crate::refusal!(&error))
}

pub fn refused((number, detail): Refusal) -> String {
    format!("refused {number} {detail}")
}

/// The value as a table, or `large` where that would be too long a line.
pub fn value(value: &Value, length: usize) -> String {
    match table::of_value(value) {
        Some(table) => {
            let (words, text) = (hex::of_words(&table.words), hex::of_bytes(&table.text));
            format!("value {length} {} {words} {text}", table.records())
        }
        None => format!("large {length}"),
    }
}
