//! CPython's `pickle.loads` as a side: loads.py in a process of its own, started once and asked over pipes. It takes the time of a
//! run itself, without the question and the answer.

use std::cell::RefCell;
use std::io::{BufRead, BufReader, Write};
use std::process::{ChildStdin, ChildStdout, Command, Stdio};
use std::rc::Rc;
use std::time::Duration;

use crate::measure::Side;

pub struct Python {
    requests: ChildStdin,
    answers: BufReader<ChildStdout>,
    pickles: usize,
}

impl Python {
    /// The program that BENCH_PYTHON names.
    pub fn start() -> Rc<RefCell<Python>> {
        let program = std::env::var_os("BENCH_PYTHON").expect("BENCH_PYTHON names no Python");
        let child = Command::new(program)
            .args(["-c", include_str!("loads.py")])
            .stdin(Stdio::piped())
            .stdout(Stdio::piped())
            .spawn()
            .expect("BENCH_PYTHON does not start");
        let (requests, answers) = (child.stdin.unwrap(), BufReader::new(child.stdout.unwrap()));
        Rc::new(RefCell::new(Python { requests, answers, pickles: 0 }))
    }

    fn ask(&mut self, request: &[u8]) -> String {
        let mut answer = String::new();
        self.requests.write_all(request).expect("Python takes no request");
        self.answers.read_line(&mut answer).expect("Python gives no answer");
        assert!(answer.ends_with('\n'), "Python has ended");
        answer.trim_end().to_string()
    }
}

/// The side that loads this pickle, or why CPython does not load it.
pub fn side(python: &Rc<RefCell<Python>>, pickle: &[u8]) -> Result<Side, String> {
    let shared = Rc::clone(python);
    let mut python = python.borrow_mut();
    let index = python.pickles;
    python.pickles += 1;
    let refusal = python.ask(&[format!("pickle {}\n", pickle.len()).as_bytes(), pickle].concat());
    if !refusal.is_empty() {
        return Err(format!("CPython refuses: {refusal}"));
    }
    Ok(Box::new(move |calls| {
        let nanoseconds = shared.borrow_mut().ask(format!("run {index} {calls}\n").as_bytes());
        Duration::from_nanos(nanoseconds.parse().expect("Python gives no time"))
    }))
}
