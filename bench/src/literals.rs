//! Benchmark `literals`: the leaves that decode one literal, on 40 KB of text and on short numbers.

use std::hint::black_box;

use crate::measure::{side, Case};
use crate::pickle::{from_bytes_prefix, Value};
use crate::{inputs, ours};

pub const ABOUT: &str = "a pickle of one literal and STOP; 40,000 bytes of text, or one short number.
Ours decodes into a lent room, which is not cleared between calls. The Rust's leaves are private, so it reads the whole
pickle (from_bytes_prefix): it also allocates and copies its value, and frees it.";

pub fn cases() -> Vec<Case> {
    vec![
        text("BINUNICODE, ASCII", binunicode(inputs::ascii())),
        text("BINUNICODE, mixed scripts", binunicode(inputs::mixed())),
        text("BINUNICODE, a bad byte every 16", binunicode(inputs::damaged())),
        text("STRING, plain", string(inputs::ascii())),
        text("STRING, an escape every 8", string(inputs::escaped())),
        text("UNICODE, ASCII", unicode(inputs::ascii())),
        text("UNICODE, Latin-1 and \\u escapes", unicode(inputs::latin())),
        case("INT, 10 digits", None, b"I1234567890\n.".to_vec()),
        case("FLOAT, 3.25", None, b"F3.25\n.".to_vec()),
        case("LONG1, 8 bytes", None, b"\x8A\x08\x15\xCD\x5B\x07\x88\x77\x66\xF5.".to_vec()),
    ]
}

fn binunicode(text: Vec<u8>) -> Vec<u8> {
    [b"X", &(text.len() as u32).to_le_bytes()[..], &text, b"."].concat()
}

fn string(text: Vec<u8>) -> Vec<u8> {
    [b"S'", &text[..], b"'\n."].concat()
}

fn unicode(text: Vec<u8>) -> Vec<u8> {
    [b"V", &text[..], b"\n."].concat()
}

fn text(name: &'static str, pickle: Vec<u8>) -> Case {
    case(name, Some(inputs::LONG), pickle)
}

fn case(name: &'static str, bytes: Option<usize>, pickle: Vec<u8>) -> Case {
    // A byte of the pickle gives three at most, where it is damaged.
    let mut room = vec![0; 3 * pickle.len()];
    let agree = same(our_answer(&pickle, &mut room), rust_answer(&pickle));
    let for_rust = pickle.clone();
    Case {
        name,
        bytes,
        agree,
        ours: side(move || {
            black_box(ours::literal(black_box(&pickle), black_box(&mut room)));
        }),
        rust: Some(side(move || {
            let _ = black_box(from_bytes_prefix(black_box(&for_rust)));
        })),
        cpython: None,
    }
}

/// What a literal gives: the bytes read, the kind of value, and its bits or its text.
#[derive(PartialEq)]
struct Answer {
    length: usize,
    kind: u64,
    word: u64,
    text: Vec<u8>,
}

fn our_answer(pickle: &[u8], room: &mut [u8]) -> Result<Answer, String> {
    let found = ours::literal(pickle, room);
    if found.number != 0 {
        return Err(format!("ours refuses with {}", found.number));
    }
    let text = room[..found.text as usize].to_vec();
    Ok(Answer { length: found.length as usize, kind: found.kind, word: found.word, text })
}

fn rust_answer(pickle: &[u8]) -> Result<Answer, String> {
    let (value, length) = from_bytes_prefix(pickle).map_err(|error| format!("the Rust refuses: {error}"))?;
    let (kind, word, text) = match value {
        Value::Bool(value) => (1, value.into(), Vec::new()),
        Value::I64(value) => (2, value as u64, Vec::new()),
        Value::F64(value) => (3, value.to_bits(), Vec::new()),
        Value::Bytes(text) => (4, 0, text),
        Value::String(text) => (5, 0, text.into_bytes()),
        _ => return Err("the Rust gives no literal".to_string()),
    };
    Ok(Answer { length, kind, word, text })
}

fn same(ours: Result<Answer, String>, rust: Result<Answer, String>) -> Result<(), String> {
    let (ours, rust) = (ours?, rust?);
    if ours == rust {
        return Ok(());
    }
    Err(format!("ours {}; the Rust {}", tell(&ours), tell(&rust)))
}

fn tell(Answer { length, kind, word, text }: &Answer) -> String {
    format!("reads {length} bytes, kind {kind}, word {word:#x}, {} bytes of text", text.len())
}
