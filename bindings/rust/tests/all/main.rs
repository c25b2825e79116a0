//! All tests of the crate, as one program of plain assertions. Its last line counts them.

#[path = "../../examples/show.rs"]
mod show;
mod stored;

use std::cmp::Ordering;

use qelemvir::{rooms, Error, Night, Read, Reader, Record, Value, Wanted, Which};
use stored::{Case, Due};

fn main() {
    let cases = stored::cases();
    let values = readings(&cases);
    nights(&cases);
    lengths_of_nights();
    limits_of_length();
    whole_reading_wants_all();
    plain_data(&cases);
    reads_back(&values);
    listings(&values);
    orders(&values);
    known_pickle();
    scores();
    every_kind();
    tables_of_our_own();
    errors();
    names_of_errors();
    example();
    println!("rust: {} pickles, {} values, all as due", cases.len(), values.len());
}

/// Both readings of every stored pickle, all by one reader; the values read.
fn readings(cases: &[Case]) -> Vec<Value> {
    let mut reader = Reader::new();
    let mut values = Vec::new();
    for Case { pickle, due } in cases {
        let prefix = reader.from_bytes_prefix(pickle);
        let whole = reader.from_bytes(pickle);
        match due {
            Due::Refused { number, detail } => {
                let why = Error::of(*number, *detail);
                assert!(!matches!(why, Error::Other { .. }), "{pickle:02x?}");
                assert_eq!(prefix, Err(why), "{pickle:02x?}");
                assert_eq!(whole, Err(why), "{pickle:02x?}");
            }
            Due::Value { length, words, text } => {
                let (value, read) = prefix.unwrap_or_else(|why| panic!("{why}: {pickle:02x?}"));
                assert_eq!((value.words(), value.text(), read), (&words[..], &text[..], *length), "{pickle:02x?}");
                if *length == pickle.len() {
                    assert_eq!(whole.as_ref(), Ok(&value), "{pickle:02x?}");
                } else {
                    assert_eq!(whole, Err(Error::TrailingData), "{pickle:02x?}");
                }
                values.push(value);
            }
        }
    }
    assert!(values.len() > 100 && values.len() < cases.len());
    values
}

/// Stored pickles as nights: each as it is read by itself, and the value of the last that was read.
fn nights(cases: &[Case]) {
    let (mut reader, mut alone) = (Reader::new(), Reader::new());
    for night in [cases, &cases[..cases.len() / 2], &cases[..1], &[]] {
        let pickles: Vec<&[u8]> = night.iter().map(|case| &case.pickle[..]).collect();
        let lengths: Vec<u64> = pickles.iter().map(|pickle| pickle.len() as u64).collect();
        let Night { sheets, last } = reader.from_bytes_batch(&pickles.concat(), &lengths).unwrap();
        assert_eq!(sheets.len(), pickles.len());
        let mut due = None;
        for (pickle, sheet) in pickles.iter().zip(sheets) {
            let read = alone.from_bytes(pickle);
            let count = |value: &Value| Read { length: pickle.len(), count: value.words().len() / 4 };
            assert_eq!(sheet, read.as_ref().map(count).map_err(|why| *why), "{pickle:02x?}");
            due = read.ok().or(due);
        }
        assert_eq!(last, due);
    }
}

fn lengths_of_nights() {
    let mut reader = Reader::new();
    for lengths in [&[][..], &[1], &[3], &[1, 2], &[u64::MAX, 3], &[u64::MAX, 1, 2]] {
        assert_eq!(reader.from_bytes_batch(b"N.", lengths), Err(Error::BadLengths), "{lengths:?}");
    }
    let night = reader.from_bytes_batch(b"N.", &[0, 2, 0]).unwrap();
    assert_eq!(night.sheets, [Err(Error::EndOfInput), Ok(Read { length: 2, count: 1 }), Err(Error::EndOfInput)]);
    assert_eq!(night.last, reader.from_bytes(b"N.").ok());
    assert_eq!(reader.from_bytes_batch(b"N", &[1]).unwrap().last, None);
    assert_eq!((Error::BadLengths.number(), Error::of(23, 0)), (23, Error::BadLengths));
}

fn limits_of_length() {
    let mut reader = Reader::default();
    let mut long = b"N.".to_vec();
    long.resize(65_536, b'x');
    assert_eq!(reader.from_bytes_prefix(&long).map(|(value, read)| (value.words().to_vec(), read)), Ok((vec![0; 4], 2)));
    assert_eq!(reader.from_bytes(&long), Err(Error::TrailingData));
    long.push(b'x');
    assert_eq!(reader.from_bytes_prefix(&long), Err(Error::TooLong));
    assert_eq!(reader.from_bytes(&long), Err(Error::TooLong));
    assert_eq!((rooms::NODES, rooms::STARTS, rooms::TABLE, rooms::TEXT), (8_192, 4_098, 8_192, 65_536));
}

fn whole_reading_wants_all() {
    let mut reader = Reader::new();
    let (value, read) = reader.from_bytes_prefix(b"K\x05.K\x06.").unwrap();
    assert_eq!((value.records().next(), read), (Some((0, Record::Int(5))), 3));
    assert_eq!(reader.from_bytes(b"K\x05.K\x06."), Err(Error::TrailingData));
    assert_eq!(reader.from_bytes(b"K\x05."), Ok(value));
}

/// The reader of plain data gives what the full one gives, or the byte of one of the six opcodes.
fn plain_data(cases: &[Case]) {
    let mut reader = Reader::plain();
    let mut full = Reader::new();
    for Case { pickle, due } in cases {
        let prefix = reader.from_bytes_prefix(pickle);
        if let Err(Error::OutsideProfile(byte)) = prefix {
            assert!(b"cR\x81bpg".contains(&byte), "{pickle:02x?}");
        } else {
            assert_eq!(prefix, full.from_bytes_prefix(pickle), "{pickle:02x?}");
            assert_eq!(reader.from_bytes(pickle), full.from_bytes(pickle), "{pickle:02x?}");
            if let Due::Value { .. } = due {
                let classes = |r: &Record| matches!(r, Record::Set(_) | Record::FrozenSet(_) | Record::Global { .. } | Record::Object { .. });
                assert!(!prefix.unwrap().0.records().any(|(_, r)| classes(&r)), "{pickle:02x?}");
            }
        }
    }
    assert_eq!(reader.from_bytes(b"c"), Err(Error::OutsideProfile(0x63)));
    assert_eq!(reader.from_bytes_prefix(b"N.cm\nC\n.").map(|(_, n)| n), Ok(2));
    let Night { sheets, last } = reader.from_bytes_batch(b"N.c\n\n.K\x05.NN", &[2, 4, 3, 2]).unwrap();
    assert_eq!(sheets, [Ok(Read { length: 2, count: 1 }), Err(Error::OutsideProfile(0x63)), Ok(Read { length: 3, count: 1 }), Err(Error::EndOfInput)]);
    assert_eq!(last, full.from_bytes(b"K\x05.").ok());
    for lengths in [&[1][..], &[3], &[u64::MAX, 3], &[]] {
        assert_eq!(reader.from_bytes_batch(b"N.", lengths), Err(Error::BadLengths), "{lengths:?}");
    }
}

/// What is written is read as the same value; a value with a name that would not be, of which some are here, is not written.
fn reads_back(values: &[Value]) {
    let mut reader = Reader::new();
    let lost = |name: &str| name.contains('\n') || name.ends_with('\r');
    let mut refused = 0;
    for value in values {
        let unwritable = value.records().any(|(_, record)| match record {
            Record::Global { module, name } | Record::Object { module, name, .. } => lost(module) || lost(name),
            _ => false,
        });
        if unwritable {
            assert_eq!(value.to_bytes(), Err(Error::UnwritableName), "{value:?}");
            refused += 1;
            continue;
        }
        let again = reader.from_bytes(&value.to_bytes().unwrap()).unwrap();
        assert_eq!(again, *value);
        assert!(again.words() == value.words() && again.text() == value.text(), "{value:?}");
    }
    assert!(refused > 0);
}

/// The listing is what its rule makes of the records.
fn listings(values: &[Value]) {
    for value in values {
        assert_eq!(value.records().len(), value.words().len() / 4);
        let lines: String = value.records().map(|(depth, record)| format!("{depth}\t{}\n", listed(record))).collect();
        assert_eq!(value.list().unwrap(), lines);
    }
}

fn listed(record: Record) -> String {
    let plain = |bytes: &[u8]| -> String {
        bytes
            .iter()
            .map(|&b| match b {
                b'\\' => "\\\\".to_string(),
                0x20..=0x7E => char::from(b).to_string(),
                _ => format!("\\x{b:02x}"),
            })
            .collect()
    };
    match record {
        Record::None => "none\t-".into(),
        Record::Bool(value) => format!("bool\t{}", u8::from(value)),
        Record::Int(value) => format!("int\t{value}"),
        Record::Float(value) => format!("float\t{:016x}", value.to_bits()),
        Record::Bytes(value) => format!("bytes\t{}", plain(value)),
        Record::String(value) => format!("string\t{}", plain(value.as_bytes())),
        Record::List(items) => format!("list\t{items}"),
        Record::Tuple(items) => format!("tuple\t{items}"),
        Record::Set(items) => format!("set\t{items}"),
        Record::FrozenSet(items) => format!("frozenset\t{items}"),
        Record::Dict(entries) => format!("dict\t{entries}"),
        Record::Global { module, name } => format!("global\t{}\t{}", plain(module.as_bytes()), plain(name.as_bytes())),
        Record::Object { module, name, new, state } => format!(
            "object\t{}\t{}\t{}\t{}", plain(module.as_bytes()), plain(name.as_bytes()), u8::from(new), u8::from(state)
        ),
    }
}

/// Every two of the values: turned round the sign turns, and only the same table and text are equal.
fn orders(values: &[Value]) {
    for a in values {
        for b in values {
            assert_eq!(a.cmp(b), b.cmp(a).reverse());
            assert_eq!(a == b, a.words() == b.words() && a.text() == b.text());
        }
    }
    let mut reader = Reader::new();
    // None, false, true, -1, 1, -0.0, 0.0, 'a', 'ab', [], [None], ()
    let ascending: [&[u8]; 12] = [
        b"N.", b"\x89.", b"\x88.", b"J\xff\xff\xff\xff.", b"K\x01.", b"G\x80\0\0\0\0\0\0\0.", b"G\0\0\0\0\0\0\0\0.",
        b"U\x01a.", b"U\x02ab.", b"].", b"]Na.", b").",
    ];
    let ascending = ascending.map(|pickle| reader.from_bytes(pickle).unwrap());
    for pair in ascending.windows(2) {
        assert_eq!(pair[0].cmp(&pair[1]), Ordering::Less, "{pair:?}");
        assert!(pair[0] < pair[1]);
        assert!(pair[1] > pair[0]);
    }
    let mut turned = ascending.to_vec();
    turned.reverse();
    turned.sort();
    assert_eq!(turned, ascending);
}

/// The worked input of RULES A9.5: the tuple of one list twice.
fn known_pickle() {
    let (value, read) = Reader::new().from_bytes_prefix(b"\x80\x02]q\0h\0K\x05a\x86.").unwrap();
    assert_eq!(read, 12);
    let records: Vec<_> = value.records().collect();
    let due = [(0, Record::Tuple(2)), (1, Record::List(1)), (2, Record::Int(5)), (1, Record::List(1)), (2, Record::Int(5))];
    assert_eq!(records, due);
    assert_eq!(value.list().unwrap(), "0\ttuple\t2\n1\tlist\t1\n2\tint\t5\n1\tlist\t1\n2\tint\t5\n");
    assert_eq!(value.to_bytes().unwrap(), b"\x80\x02]K\x05a]K\x05a\x86.");
    assert_eq!(value.clone(), value);
    assert_eq!(format!("{value:?}"), "[(0, Tuple(2)), (1, List(1)), (2, Int(5)), (1, List(1)), (2, Int(5))]");
}

/// A sheet whose reversed item counts 4 less its answer, and what is none.
fn scores() {
    let sheet = b"}(U\x07answers}(K\x01K\x03K\x02K\x00uU\x07flipped\x89U\x03maxK\x04U\x07reversec__builtin__\nset\n(]K\x02atRu.";
    assert_eq!(Reader::new().from_bytes(sheet).unwrap().score(), Ok((7, 2)));
    assert_eq!(Reader::new().from_bytes(b"N.").unwrap().score(), Err(Error::SheetShape));
    assert_eq!((Error::SheetShape.number(), Error::of(24, 0)), (24, Error::SheetShape));
}

/// A list of one record of each kind, read from a table.
fn every_kind() {
    let nan = 0x7FF0_0000_0000_0001;
    #[rustfmt::skip]
    let words = vec![
        6, 13, 21, 0,
        0, 0, 0, 0,
        1, 1, 0, 0,
        2, u64::MAX, 0, 0,
        3, nan, 0, 0,
        4, 0, 2, 0,
        5, 2, 2, 0,
        7, 0, 1, 0,
        8, 1, 2, 0,
        0, 0, 0, 0,
        9, 1, 2, 0,
        0, 0, 0, 0,
        10, 1, 3, 0,
        1, 0, 0, 0,
        1, 1, 0, 0,
        11, 4, 1 << 32 | 2, 0,
        12 + 16 + 32, 7, 2 << 32 | 1, 4,
        7, 1, 2, 0,
        0, 0, 0, 0,
        0, 0, 0, 0,
        6, 0, 1, 0,
    ];
    let value = Value::from_table(words, b"\xff\0\xc3\xa9mnnabC".to_vec()).unwrap();
    let records: Vec<_> = value.records().collect();
    assert!(matches!(records[4], (1, Record::Float(float)) if float.to_bits() == nan));
    let due = [
        (0, Record::List(13)),
        (1, Record::None),
        (1, Record::Bool(true)),
        (1, Record::Int(-1)),
        (1, Record::Bytes(b"\xff\0")),
        (1, Record::String("é")),
        (1, Record::Tuple(0)),
        (1, Record::Set(1)),
        (2, Record::None),
        (1, Record::FrozenSet(1)),
        (2, Record::None),
        (1, Record::Dict(1)),
        (2, Record::Bool(false)),
        (2, Record::Bool(true)),
        (1, Record::Global { module: "m", name: "nn" }),
        (1, Record::Object { module: "ab", name: "C", new: true, state: true }),
        (2, Record::Tuple(1)),
        (3, Record::None),
        (2, Record::None),
        (1, Record::List(0)),
    ];
    assert_eq!([&records[..4], &records[5..]].concat(), due);
    assert_eq!(Reader::new().from_bytes(&value.to_bytes().unwrap()), Ok(value));
}

fn tables_of_our_own() {
    let bad = Err(Error::BadTable(Which::First));
    assert_eq!(Value::from_table(vec![], vec![]), bad);
    assert_eq!(Value::from_table(vec![0; 3], vec![]), bad, "a record cut off");
    assert_eq!(Value::from_table(vec![0; 5], vec![]), bad, "a second record cut off");
    assert_eq!(Value::from_table(vec![0; 8], vec![]), bad, "two values");
    assert_eq!(Value::from_table(vec![1, 2, 0, 0], vec![]), bad, "no bool");
    assert_eq!(Value::from_table(vec![0; 4], b"x".to_vec()), bad, "text of nothing");
    assert_eq!(Value::from_table(vec![5, 0, 1, 0], b"\xff".to_vec()), bad, "no UTF-8");
    assert_eq!(Value::from_table(vec![8, 2, 3, 0, 0, 0, 0, 0, 0, 0, 0, 0], vec![]), bad, "equal items");

    // The most records, all of the longest integer; and the most text, all of it listed with four bytes for one.
    let integers = [vec![6, 2_047, 2_048, 0], [2, 1 << 63, 0, 0].repeat(2_047)].concat();
    let value = Value::from_table(integers, vec![]).unwrap();
    assert_eq!(value.records().filter(|(_, record)| *record == Record::Int(i64::MIN)).count(), 2_047);
    assert!(value.to_bytes().unwrap().len() > 40_000 && value.list().unwrap().lines().count() == 2_048);
    let value = Value::from_table(vec![4, 0, 65_536, 0], vec![0xFF; 65_536]).unwrap();
    assert_eq!((value.to_bytes().unwrap().len(), value.list().unwrap().len()), (65_536 + 8, 4 * 65_536 + 9));
}

/// Number and detail give the refusal and come back from it, known or not; each has its own words.
fn errors() {
    let mut words = Vec::new();
    for number in 0..40 {
        for detail in [0, 1, 2, 3, 4, 5, 6, 7, 8, 255, 256, u64::from(u32::MAX), u64::from(u32::MAX) + 1, u64::MAX] {
            let why = Error::of(number, detail);
            assert_eq!((why.number(), why.detail()), (number, detail));
            words.push(why.to_string());
        }
    }
    let all = words.len();
    words.sort();
    words.dedup();
    assert_eq!(words.len(), all);
    assert_eq!(Error::of(4, 0x69), Error::UnsupportedOpcode(0x69));
    assert_eq!(Error::of(4, 0x69).to_string(), "the opcode with byte 69 is not read");
    assert_eq!(Error::of(10, 7), Error::Invalid(Wanted::Object));
    assert_eq!(Error::of(10, 8), Error::Other { number: 10, detail: 8 });
    assert_eq!(Error::of(21, 2), Error::BadTable(Which::Second));
    assert_eq!(Error::of(39, 0).to_string(), "refused with number 39 and detail 0");
    let _: Box<dyn std::error::Error> = Error::TooDeep.into();
}

/// The names are those of crate refusal, with its numbers; the details of 10 and 21 are numbered in its order.
fn names_of_errors() {
    let starts = |why: Error, name: &str| assert!(format!("{why:?}(").starts_with(&format!("{name}(")), "{why:?}, not {name}");
    for name in cases_of("Refusal") {
        let number = number_of(name);
        starts(Error::of(number, if number == 10 || number == 21 { 1 } else { 0 }), name);
    }
    for (detail, name) in (1..).zip(cases_of("Wanted")) {
        assert_eq!(format!("{:?}", Error::of(10, detail)), format!("Invalid({name})"));
    }
    for (detail, name) in (1..).zip(cases_of("Which")) {
        assert_eq!(format!("{:?}", Error::of(21, detail)), format!("BadTable({name})"));
    }
}

const REFUSAL: &str = include_str!("../../../../crates/refusal/src/lib.rt");

/// The number of a refusal in the source of crate refusal, where it stands before the detail.
fn number_of(name: &str) -> u64 {
    let case = format!("Refusal::{name}");
    let arm = REFUSAL.lines().find(|line| line.trim().split(['(', ' ']).next() == Some(&case)).unwrap();
    let (_, pair) = arm.split_once(" => (").unwrap();
    pair.split(',').next().unwrap().parse().unwrap()
}

/// The names of an enum's cases in the source of crate refusal.
fn cases_of(name: &str) -> impl Iterator<Item = &'static str> {
    let (_, body) = REFUSAL.split_once(&format!("pub enum {name} {{\n")).unwrap();
    let (body, _) = body.split_once("\n}").unwrap();
    body.lines().map(|line| line.trim().split(['(', ',', ' ']).next().unwrap())
}

fn example() {
    let shown = show::sheet(b"\x80\x02}q\0(U\x07flippedq\x01\x88U\x03maxq\x02K\x04u.").unwrap();
    assert_eq!(shown, "dict of 2, each a key and its value\n    bytes \"flipped\"\n    true\n    bytes \"max\"\n    4\n");
    assert_eq!(show::sheet(b"N"), Err(Error::EndOfInput));
}
