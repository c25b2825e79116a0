//! show FILE: prints the sheet in a pickle, a line a record, what it holds indented below it.

use std::{env, fs, process::ExitCode};

use qelemvir::{Reader, Record};

/// The sheet in words, or why it is refused.
pub fn sheet(pickle: &[u8]) -> Result<String, qelemvir::Error> {
    let value = Reader::new().from_bytes(pickle)?;
    let mut shown = String::new();
    for (depth, record) in value.records() {
        shown += &format!("{:indent$}{}\n", "", words(record), indent = 4 * depth);
    }
    Ok(shown)
}

fn words(record: Record) -> String {
    match record {
        Record::None => "None".into(),
        Record::Bool(value) => value.to_string(),
        Record::Int(value) => value.to_string(),
        Record::Float(value) => format!("{value:?}"),
        Record::Bytes(value) => format!("bytes \"{}\"", value.escape_ascii()),
        Record::String(value) => format!("string {value:?}"),
        Record::List(items) => format!("list of {items}"),
        Record::Tuple(items) => format!("tuple of {items}"),
        Record::Set(items) => format!("set of {items}"),
        Record::FrozenSet(items) => format!("frozenset of {items}"),
        Record::Dict(entries) => format!("dict of {entries}, each a key and its value"),
        Record::Global { module, name } => format!("class {module}.{name}"),
        Record::Object { module, name, .. } => format!("object of class {module}.{name}"),
    }
}

#[allow(dead_code)] // the tests take `sheet` alone
fn main() -> ExitCode {
    let Some(file) = env::args_os().nth(1) else {
        eprintln!("show: name the file of a pickle");
        return ExitCode::from(2);
    };
    let shown = fs::read(&file).map_err(|why| why.to_string()).and_then(|data| sheet(&data).map_err(|why| why.to_string()));
    match shown {
        Ok(shown) => {
            print!("{shown}");
            ExitCode::SUCCESS
        }
        Err(why) => {
            eprintln!("show: {}: {why}", file.to_string_lossy());
            ExitCode::FAILURE
        }
    }
}
