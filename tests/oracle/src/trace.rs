//! Program `trace`: runs a copy of de.rs into which the build has put counts and measures, and says what RULES, part A,
//! demands of the reader here. The protocol is in README.md.

mod due;
mod measure;
mod tape;
#[allow(dead_code, unused_imports)]
mod traced;

use judge::answer::{self, Refusal};
use judge::{hex, serve};

use measure::Measure;
use tape::{Step, Tape};
use traced::DeError;

fn main() {
    serve::main(answer);
}

fn answer(line: &[u8]) -> String {
    request(line).unwrap_or_else(|message| format!("error {message}"))
}

fn request(line: &[u8]) -> Result<String, String> {
    let fields: Vec<&[u8]> = line.split(|&byte| byte == b' ').collect();
    match fields[..] {
        [b"trace", data] => Ok(trace(&hex::to_bytes(data)?)),
        [b"expect", data] => expect(&hex::to_bytes(data)?, false),
        [b"expectwhole", data] => expect(&hex::to_bytes(data)?, true),
        _ => Err("not a request".to_string()),
    }
}

/// The Rust's run over the tape's pickle: the measure at STOP, or the refusal.
fn run(tape: &mut Tape) -> Result<Measure, Refusal> {
    traced::from_reader(tape).map_err(|error| judge::refusal!(&error))
}

fn trace(data: &[u8]) -> String {
    let mut tape = Tape::new(data);
    tape.wants_nodes = true;
    let end = run(&mut tape);
    let steps = tape.steps.iter().map(show_step).collect::<Vec<_>>().join(" ");
    match (end, &tape.stop) {
        (Ok(Measure { depth, values, text, .. }), Some(stop)) => {
            let nodes = stop.nodes.join(" ");
            format!("stopped {} {} {depth} {values} {text} | nodes {nodes} | steps {steps}", tape.place(), stop.root)
        }
        (Ok(_), None) => "error stopped without a node table".to_string(),
        (Err(refusal), _) => format!("{} | steps {steps}", answer::refused(refusal)),
    }
}

fn show_step(step: &Step) -> String {
    let Step { place, stack, marks, memo, nodes, links, float } = step;
    let float = float.as_ref().map_or(String::new(), |line| format!(":{}", hex::of_bytes(line)));
    format!("{place}:{stack},{marks},{memo},{nodes},{links}{float}")
}

/// The answer due. A refusal of the Rust itself, and every value, come from the unchanged Rust as well, which here is
/// only asked when nothing else is due: then its value is within the numbers of RULES A3.1.
fn expect(data: &[u8], whole: bool) -> Result<String, String> {
    if due::too_long(data) {
        return Ok(answer::refused((2, 0)));
    }
    let mut tape = Tape::new(data);
    let end = run(&mut tape);
    let run = due::Run { steps: &tape.steps, end, left: tape.len() };
    match due::due(&run, whole)? {
        Some(refusal) if refusal.0 > 11 => Ok(answer::refused(refusal)),
        refusal => same(data, whole, refusal, tape.place()),
    }
}

/// The unchanged Rust's answer, if it is the one expected.
fn same(data: &[u8], whole: bool, refusal: Option<Refusal>, place: usize) -> Result<String, String> {
    match (answer::read(data, whole), refusal) {
        (Ok((value, length)), None) if length == place => Ok(answer::value(&value, length)),
        (Err(refusal), Some(expected)) if refusal == expected => Ok(answer::refused(refusal)),
        (Ok((_, length)), _) => Err(format!("disagree: a value of {length} bytes, here {refusal:?} at {place}")),
        (Err(other), _) => Err(format!("disagree: {other:?}, here {refusal:?} at {place}")),
    }
}
