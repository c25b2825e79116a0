//! Pickles that no tablet writes: at the limits of RULES A3.1, and those of up to 65,536 bytes that cost most to read.

use crate::inputs;
use crate::reading::Input;

/// The most bytes that a pickle may have.
pub const MOST: usize = 65_536;

/// `set` under memo number 0, and its arguments, a tuple of an empty one, under 1.
const SET: &[u8] = b"c__builtin__\nset\nq\x00)\x85q\x01";

pub fn pickles() -> Vec<Input> {
    vec![
        accepted("64 deep", [b")", &[0x85; 63][..], b"."].concat()),
        refused(17, "65 deep", [b")", &[0x85; 64][..], b"."].concat()),
        accepted("2,047 items", [b"(", &numbered(0..2047, binint2)[..], b"l."].concat()),
        accepted("a list of 88 at 23 places", [b"(]q\x00(N", &b"2".repeat(87)[..], b"e", &b"h\x00".repeat(22), b"t."].concat()),
        accepted("2,046 GETs", [b"(Nq\x00", &b"h\x00".repeat(2046)[..], b"t."].concat()),
        accepted("1,023 int keys, descending", dict(binint2)),
        accepted("1,023 text keys, descending", dict(|i| [b"U\x3C", &[b'k'; 56][..], format!("{i:04}").as_bytes()].concat())),
        refused(18, "doubled 16 times", doubled(16)),
        // The Rust would take memory for 2^63 values.
        Input { rust: false, ..refused(18, "doubled 63 times", doubled(63)) },
        accepted("dicts 62 deep over 1,924 values", dicts(62)),
        long(0, "long: \\u escapes", [b"V", &b"\\u20ac".repeat(10_922)[..], b"\n."].concat()),
        long(0, "long: LONG1", [b"(", &[b"\x8A\x1E", &[0xFF; 30][..]].concat().repeat(2046)[..], b"t."].concat()),
        long(0, "long: LONG", [b"(", &b"L          -123456789012345678L\n".repeat(2046)[..], b"t."].concat()),
        // CPython refuses it.
        Input { cpython: false, ..long(19, "long: bad UTF-8", binunicode(&[0xFF; 65_530])) },
        long(0, "long: DUP, POP", filled(b"N".to_vec(), b"20")),
        long(0, "long: full memo, GET, POP", filled(full_memo(), b"h\x000")),
        long(0, "long: full memo, GET of the oldest", filled(full_memo_oldest(), b"h\x000")),
        long(0, "long: full memo, PUT", filled(full_memo(), b"q\x00")),
        long(0, "long: full log, REDUCE", filled([SET, &full_log()[..], &sets(), &sets()].concat(), b"20")),
        long(0, "long: both, REDUCE, PUT", filled([&full_memo()[..], SET, &full_log(), &sets(), &sets()].concat(), b"q\x01")),
        // CPython has no such class.
        Input { cpython: false, ..long(18, "long: Objects of one class", objects()) },
    ]
}

fn accepted(name: &'static str, pickle: Vec<u8>) -> Input {
    refused(0, name, pickle)
}

fn refused(number: u64, name: &'static str, pickle: Vec<u8>) -> Input {
    assert!(pickle.len() <= MOST, "{name}: {} bytes", pickle.len());
    Input { name, pickle, number, rust: true, cpython: true }
}

/// As long as may be, but for less than a hundred bytes.
fn long(number: u64, name: &'static str, pickle: Vec<u8>) -> Input {
    assert!(MOST - 100 < pickle.len(), "{name}: {} bytes", pickle.len());
    refused(number, name, pickle)
}

fn binint2(number: u16) -> Vec<u8> {
    [b"M", &number.to_le_bytes()[..]].concat()
}

fn binunicode(text: &[u8]) -> Vec<u8> {
    [b"X", &(text.len() as u32).to_le_bytes()[..], text, b"."].concat()
}

fn numbered(numbers: impl Iterator<Item = u16>, opcode: impl Fn(u16) -> Vec<u8>) -> Vec<u8> {
    numbers.flat_map(opcode).collect()
}

/// As many entries as 2,048 values let, their keys from the greatest to the least.
fn dict(key: impl Fn(u16) -> Vec<u8>) -> Vec<u8> {
    [b"}(", &numbered((0..1023).rev(), |i| [&key(i)[..], b"N"].concat())[..], b"u."].concat()
}

/// A dict in a dict in a dict, and in the innermost a tuple of as many as 2,048 values let.
fn dicts(deep: usize) -> Vec<u8> {
    let tuple = [b"(N", &b"2".repeat(2048 - 2 * deep - 2)[..], b"t"].concat();
    [&b"}N".repeat(deep)[..], &tuple, &b"s".repeat(deep), b"."].concat()
}

/// A tuple of the part before twice, again and again.
fn doubled(times: usize) -> Vec<u8> {
    [b")q\x00", &b"h\x00\x86q\x00".repeat(times)[..], b"."].concat()
}

/// A beginning and then some opcodes, over and over, as long as a pickle may be.
fn filled(beginning: Vec<u8>, opcodes: &[u8]) -> Vec<u8> {
    let times = (MOST - beginning.len() - 1) / opcodes.len();
    [&beginning[..], &opcodes.repeat(times), b"."].concat()
}

/// 1,024 memo numbers, of which a search from the oldest on finds 1 and 0 last, and no guess finds them; None is left.
fn full_memo() -> Vec<u8> {
    [b"N", &other_numbers()[..], b"q\x01q\x00"].concat()
}

/// The same for a search from the newest on.
fn full_memo_oldest() -> Vec<u8> {
    [b"Nq\x01q\x00", &other_numbers()[..]].concat()
}

fn other_numbers() -> Vec<u8> {
    (1000..2022u32).flat_map(|key| [b"r", &key.to_le_bytes()[..]].concat()).collect()
}

/// With one link before them, all the links that there may be; nothing is left.
fn full_log() -> Vec<u8> {
    let tuple = |items: usize| [b"(N", &b"2".repeat(items - 1)[..], b"t0"].concat();
    [tuple(2045).repeat(4), tuple(11)].concat()
}

/// Above a mark 2,040 sets, for each of which REDUCE goes through the log to its oldest link.
fn sets() -> Vec<u8> {
    [b"(", &b"h\x00h\x01R".repeat(2040)[..], b"1"].concat()
}

/// 4,080 Objects of one class, whose name is as long as the pickle lets and the hardest to repair: it is measured for each of them.
fn objects() -> Vec<u8> {
    let with_name = |name: &[u8]| {
        let half = [b"(", &b"h\x00h\x01\x81".repeat(2040)[..], b"t"].concat();
        [b"c", name, b"\nC\nq\x00)q\x01", &half[..], &half, b"\x86."].concat()
    };
    with_name(&inputs::broken(MOST - with_name(b"").len()))
}
