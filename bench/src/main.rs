//! The driver: measures the benchmarks named as arguments, or all, and prints a table for each; or it searches for slow pickles.
//! Status 1: two answers differ; 2: no benchmark has that name.

use std::process::ExitCode;

mod cpython;
mod hostile;
mod inputs;
mod measure;
mod ours;
/// The unchanged Rust, of which a benchmark calls what it needs.
#[allow(dead_code, unused_imports, unused_macros)]
mod pickle;
/// The Rust binding's own: the calls, what they refuse with, what a reading is lent.
#[allow(dead_code)]
mod calls;
#[allow(dead_code)]
mod error;
#[allow(dead_code)]
mod rooms;
mod search;
/// The tests' own, of which the driver only makes tables.
#[allow(dead_code)]
mod table;

/// Each benchmark is the module of its name: `ABOUT`, a note on what is compared, and `cases`.
macro_rules! benchmarks {
    ($($name:ident)*) => {
        $(mod $name;)*
        const BENCHMARKS: &[(&str, &str, fn() -> Vec<measure::Case>)] =
            &[$((stringify!($name), $name::ABOUT, $name::cases)),*];
    };
}

benchmarks! {
    literals
    machine
    values
    reading
    plain
    batch
    writing
}

fn main() -> ExitCode {
    let wanted: Vec<String> = std::env::args().skip(1).collect();
    if wanted.first().is_some_and(|name| name == "search") {
        return ExitCode::from(search::run(&wanted[1..]));
    }
    if let Some(name) = wanted.iter().find(|name| !BENCHMARKS.iter().any(|(known, ..)| name == known)) {
        eprintln!("bench: no benchmark {name}");
        return ExitCode::from(2);
    }
    let mut agreed = true;
    for (name, about, cases) in BENCHMARKS {
        if wanted.is_empty() || wanted.iter().any(|wanted| wanted == name) {
            println!("\n{name}: {about}\n");
            agreed &= measure::table(cases());
        }
    }
    ExitCode::from(u8::from(!agreed))
}
