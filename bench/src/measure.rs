//! Times the sides of a case in turn and prints a row for each case: the best of several runs.

use std::time::{Duration, Instant};

/// Does its work so many times and says how long that took.
pub type Side = Box<dyn FnMut(u64) -> Duration>;

/// A side that is a call here. The loop is inside, so that nothing else is timed with a short call.
pub fn side(mut call: impl FnMut() + 'static) -> Side {
    Box::new(move |calls| {
        let start = Instant::now();
        for _ in 0..calls {
            call();
        }
        start.elapsed()
    })
}

/// One input with the sides of the comparison, or ours alone.
pub struct Case {
    pub name: &'static str,
    /// How many bytes a call works on, where that is worth a rate.
    pub bytes: Option<usize>,
    /// The answers are the same, or how they differ; alone, ours is as it should be.
    pub agree: Result<(), String>,
    pub ours: Side,
    /// Nothing where the Rust has no such call, or would not end in good time.
    pub rust: Option<Side>,
    /// Nothing where CPython has no such call or would refuse, and where it is not asked.
    pub cpython: Option<Side>,
}

/// Many and short, so that some of them are undisturbed where the machine has other work too.
const RUNS: usize = 60;
const SHORTEST_RUN: Duration = Duration::from_millis(5);
/// After this time a case has no further run.
const LONGEST_CASE: Duration = Duration::from_secs(10);

/// Prints the table of the cases and says whether the sides agreed on all of them. CPython's columns stand where it is asked.
pub fn table(cases: Vec<Case>) -> bool {
    let with_cpython = cases.iter().any(|case| case.cpython.is_some());
    row(["", "ours ns", "Rust ns", "ours MB/s", "Rust MB/s", "ours/Rust", "CPython ns", "ours/CPython"], with_cpython);
    let mut agreed = true;
    for mut case in cases {
        if let Err(why) = &case.agree {
            println!("{:<34} THE ANSWERS DIFFER: {why}", case.name);
            agreed = false;
            continue;
        }
        let [ours, rust, cpython] = best([Some(&mut case.ours), case.rust.as_mut(), case.cpython.as_mut()]);
        let rate = |time: Option<f64>| figure(case.bytes.zip(time).map(|(bytes, time)| bytes as f64 * 1000.0 / time), 1);
        let ratio = |time: Option<f64>| figure(ours.zip(time).map(|(ours, time)| ours / time), 2);
        let [ours_ns, rust_ns, cpython_ns] = [ours, rust, cpython].map(|time| figure(time, 1));
        let fields = [case.name, &ours_ns, &rust_ns, &rate(ours), &rate(rust), &ratio(rust), &cpython_ns, &ratio(cpython)];
        row(fields, with_cpython);
    }
    println!("\nThe time of a call, best of {RUNS} runs of each side in turn, fewer of a slow case.");
    println!("MB: 1,000,000 bytes of text or pickle. Ratios are of the times: below 1 ours is the faster.");
    println!("{}", if agreed { "The sides gave the same answers." } else { "THE ANSWERS DIFFER." });
    agreed
}

fn row([name, ours, rust, our_rate, rust_rate, to_rust, cpython, to_cpython]: [&str; 8], with_cpython: bool) {
    print!("{name:<34} {ours:>12} {rust:>12} {our_rate:>10} {rust_rate:>10} {to_rust:>10}");
    println!("{}", if with_cpython { format!(" {cpython:>11} {to_cpython:>12}") } else { String::new() });
}

fn figure(figure: Option<f64>, places: usize) -> String {
    figure.map_or("-".to_string(), |figure| format!("{figure:.places$}"))
}

struct Timed<'a> {
    calls: u64,
    side: &'a mut Side,
    best: f64,
}

/// The nanoseconds of a call of each side. The runs alternate, so that a disturbance does not fall on one side alone.
fn best(sides: [Option<&mut Side>; 3]) -> [Option<f64>; 3] {
    let mut sides = sides.map(|side| side.map(|side| Timed { calls: calls(side), side, best: f64::INFINITY }));
    let start = Instant::now();
    for _ in 0..RUNS {
        if start.elapsed() > LONGEST_CASE {
            break;
        }
        for Timed { calls, side, best } in sides.iter_mut().flatten() {
            *best = best.min(side(*calls).as_nanos() as f64 / *calls as f64);
        }
    }
    sides.map(|side| side.map(|side| side.best))
}

/// How many calls make a run long enough for the clock.
fn calls(side: &mut Side) -> u64 {
    let mut calls = 1;
    while side(calls) < SHORTEST_RUN {
        calls *= 2;
    }
    calls
}
