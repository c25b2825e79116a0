//! The texts and values, the same in every run: characters and numbers drawn from a seeded sequence, so that no branch of
//! either side can be foretold from a short pattern.

use std::collections::{BTreeMap, BTreeSet};

use crate::pickle::Value;

/// How many bytes of the pickle a long text takes.
pub const LONG: usize = 40_000;

/// SplitMix64.
pub struct Draw(pub u64);

impl Draw {
    pub fn below(&mut self, n: usize) -> usize {
        self.0 = self.0.wrapping_add(0x9E37_79B9_7F4A_7C15);
        let mut z = self.0;
        z = (z ^ (z >> 30)).wrapping_mul(0xBF58_476D_1CE4_E5B9);
        z = (z ^ (z >> 27)).wrapping_mul(0x94D0_49BB_1331_11EB);
        ((z ^ (z >> 31)) % n as u64) as usize
    }

    pub fn among<T: Copy>(&mut self, items: &[T]) -> T {
        items[self.below(items.len())]
    }

    /// A letter, digit, space or comma.
    fn plain(&mut self) -> u8 {
        self.among(b"etaoinshrdlcumwfgypbvk ETAOINSHRD 0123456789 ,")
    }

    /// A number of 1 to 9 digits, half of them negative.
    fn integer(&mut self) -> Value {
        let digits = 1 + self.below(9);
        let number = self.below(10usize.pow(digits as u32)) as i64;
        Value::I64(if self.below(2) == 0 { number } else { -number })
    }

    /// A character between two, both included.
    fn between(&mut self, first: char, last: char) -> char {
        char::from_u32(first as u32 + self.below(last as usize - first as usize + 1) as u32).unwrap()
    }
}

/// Plain ASCII, without quotes and backslashes.
pub fn ascii() -> Vec<u8> {
    let mut draw = Draw(1);
    (0..LONG).map(|_| draw.plain()).collect()
}

/// Well-formed UTF-8: words of Latin, Cyrillic, CJK or emoji.
pub fn mixed() -> Vec<u8> {
    let mut draw = Draw(2);
    let mut text = String::new();
    while text.len() < LONG - 64 {
        let script = draw.below(4);
        for _ in 0..2 + draw.below(8) {
            text.push(match script {
                0 if draw.below(4) == 0 => draw.between('à', 'ö'),
                0 => draw.between('a', 'z'),
                1 => draw.between('а', 'я'),
                2 => draw.between('一', '龥'),
                _ => draw.between('😀', '🙏'),
            });
        }
        text.push(' ');
    }
    let mut text = text.into_bytes();
    text.resize(LONG, b'.');
    text
}

/// ASCII in which every sixteenth byte is none of UTF-8: a continuation without a start, starts without their continuation,
/// and bytes that stand nowhere.
pub fn damaged() -> Vec<u8> {
    let mut draw = Draw(3);
    let mut text = ascii();
    for byte in text.iter_mut().skip(15).step_by(16) {
        *byte = draw.among(&[0x80, 0xBF, 0xC3, 0xE2, 0xF0, 0xC0, 0xFF]);
    }
    text
}

/// Bytes with no newline, whose pieces nobody can foretell: ASCII, continuations, starts, and a byte that stands nowhere.
pub fn broken(length: usize) -> Vec<u8> {
    let mut draw = Draw(12);
    (0..length).map(|_| draw.among(&[0x61, 0x82, 0xC3, 0xE2, 0xFF])).collect()
}

/// The inside of a `str` literal: in each eight bytes plain ones and then an escape.
pub fn escaped() -> Vec<u8> {
    let mut draw = Draw(4);
    let mut text = Vec::new();
    while text.len() < LONG {
        let escape = match draw.below(4) {
            0 => format!("\\x{:02x}", draw.below(256)),
            1 => format!("\\{:03o}", draw.below(256)),
            _ => format!("\\{}", draw.among(&['n', 't', 'r', '\\', '\''])),
        };
        text.extend((escape.len()..8).map(|_| draw.plain()));
        text.extend(escape.bytes());
    }
    text
}

/// A `unicode` literal: in each sixteen bytes five of ASCII, five of Latin-1 and an escape of a Cyrillic or CJK character.
pub fn latin() -> Vec<u8> {
    let mut draw = Draw(5);
    let mut text = Vec::new();
    while text.len() < LONG {
        text.extend((0..5).map(|_| draw.plain()));
        text.extend((0..5).map(|_| 0xA0 + draw.below(0x60) as u8));
        let character = if draw.below(2) == 0 { draw.between('а', 'я') } else { draw.between('一', '龥') };
        text.extend(format!("\\u{:04x}", character as u32).bytes());
    }
    text
}

/// A list of 2,048 records with itself: 292 dicts of three entries, two ints and a bytes of 8 to 15, and a dict of one int.
pub fn dicts() -> Value {
    let mut draw = Draw(6);
    let key = |name: &str| Value::Bytes(name.into());
    let mut items: Vec<Value> = (0..292)
        .map(|_| {
            let name = (0..8 + draw.below(8)).map(|_| draw.plain()).collect();
            Value::Dict([
                (key("id"), draw.integer()),
                (key("level"), draw.integer()),
                (key("name"), Value::Bytes(name)),
            ].into_iter().collect())
        })
        .collect();
    items.push(last(0));
    Value::List(items)
}

/// The same list with another number in its last record, which makes it the greater.
pub fn dicts_and_more() -> Value {
    let Value::List(mut items) = dicts() else { unreachable!() };
    items.pop();
    items.push(last(1));
    Value::List(items)
}

fn last(number: i64) -> Value {
    Value::Dict([(Value::Bytes("id".into()), Value::I64(number))].into_iter().collect())
}

/// A tuple of 2,047 ints: 2,048 records with itself.
pub fn flat() -> Value {
    let mut draw = Draw(7);
    Value::Tuple((0..2047).map(|_| draw.integer()).collect())
}

/// A list of 2,000 items, in turn a string of 40 plain characters and an int: 40,000 bytes of text.
pub fn strings() -> Value {
    let mut draw = Draw(8);
    let text = ascii();
    Value::List(text.chunks(40)
        .flat_map(|text| [Value::String(String::from_utf8(text.to_vec()).unwrap()), draw.integer()])
        .collect())
}

/// A sheet of 200 answers from 0 to 10, a third of them reversed and not flipped before; and its score.
pub fn answered() -> (Value, u64) {
    let mut draw = Draw(20);
    let (mut answers, mut reverse, mut score) = (BTreeMap::new(), BTreeSet::new(), 0);
    for item in 1..=200 {
        let answer = draw.below(11);
        let reversed = draw.below(3) == 0;
        answers.insert(Value::I64(item), Value::I64(answer as i64));
        if reversed {
            reverse.insert(Value::I64(item));
        }
        score += if reversed { 10 - answer } else { answer } as u64;
    }
    let fields = [
        ("answers", Value::Dict(answers)),
        ("flipped", Value::Bool(false)),
        ("max", Value::I64(10)),
        ("reverse", Value::Set(reverse)),
    ];
    (Value::Dict(fields.into_iter().map(|(name, value)| (Value::Bytes(name.into()), value)).collect()), score)
}

/// A pickle with how many opcodes it has.
pub struct Counted {
    pub pickle: Vec<u8>,
    pub opcodes: usize,
}

impl Counted {
    fn op(&mut self, code: u8, rest: &[u8]) {
        self.opcodes += 1;
        self.pickle.push(code);
        self.pickle.extend(rest);
    }

    /// Remembers the value on top, as Python does with every new text and container.
    fn put(&mut self, key: u32) {
        match u8::try_from(key) {
            Ok(key) => self.op(b'q', &[key]),
            Err(_) => self.op(b'r', &key.to_le_bytes()),
        }
    }

    /// The value that was remembered under this number.
    fn get(&mut self, key: u32) {
        match u8::try_from(key) {
            Ok(key) => self.op(b'h', &[key]),
            Err(_) => self.op(b'j', &key.to_le_bytes()),
        }
    }

}

/// One patient's sheet of 30 items, some 300 bytes.
pub fn small_sheet() -> Counted {
    let mut forms = Forms::new(10);
    forms.form(30, 9, 60);
    forms.end()
}

/// A tablet's 15 sheets of 18 items, which share the set of reversed items: 800 values, some 4 KB.
pub fn middle_sheet() -> Counted {
    let mut forms = Forms::new(11);
    forms.tablet(15, |forms| forms.form(18, 6, 150));
    forms.end()
}

/// A tablet's 285 records, each a dict of two ints and a text of 88 characters, under keys that they share: 2,000 values, some 33 KB.
pub fn sheet() -> Counted {
    let mut forms = Forms::new(9);
    forms.tablet(285, Forms::record);
    forms.end()
}

/// A tablet's 511 notes, each a tuple of a text, the same text again and the one before: 1,023 PUTs, of numbers upwards from 0, and
/// 1,022 GETs of recent ones. 2,045 values, some 20 KB.
pub fn recent_sheet() -> Counted {
    let mut forms = Forms::new(13);
    forms.notes(true);
    forms.end()
}

/// The same without the PUTs that no GET names: pickletools.optimize of Python 2 takes them out and numbers nothing anew.
pub fn optimized_sheet() -> Counted {
    let mut forms = Forms::new(13);
    forms.notes(false);
    forms.end()
}

/// Writes sheets as Python 2's pickle does with protocol 2: what is new is remembered under the next number, from 0 on, and what was
/// written before comes from the memo.
struct Forms {
    sheet: Counted,
    draw: Draw,
    remembered: u32,
    /// The keys so far, with their memo numbers.
    keys: Vec<(&'static [u8], u32)>,
    /// The memo number of the set of reversed items.
    reverse: Option<u32>,
}

impl Forms {
    fn new(seed: u64) -> Forms {
        let mut sheet = Counted { pickle: Vec::new(), opcodes: 0 };
        sheet.op(0x80, &[2]);
        Forms { sheet, draw: Draw(seed), remembered: 0, keys: Vec::new(), reverse: None }
    }

    fn end(mut self) -> Counted {
        self.op(b'.', &[]);
        self.sheet
    }

    fn op(&mut self, code: u8, rest: &[u8]) {
        self.sheet.op(code, rest);
    }

    /// Remembers the value that was written last; its number.
    fn remember(&mut self) -> u32 {
        self.remember_if(true)
    }

    /// The same, or the number is left out.
    fn remember_if(&mut self, wanted: bool) -> u32 {
        let number = self.remembered;
        self.remembered += 1;
        if wanted {
            self.sheet.put(number);
        }
        number
    }

    /// An opcode that makes something that is remembered; its number.
    fn container(&mut self, code: u8) -> u32 {
        self.op(code, &[]);
        self.remember()
    }

    /// A new text of at most 255 bytes; its number.
    fn text(&mut self, text: &[u8]) -> u32 {
        self.op(b'U', &[&[text.len() as u8], text].concat());
        self.remember()
    }

    fn plain_text(&mut self, length: usize) -> u32 {
        let text: Vec<u8> = (0..length).map(|_| self.draw.plain()).collect();
        self.text(&text)
    }

    fn key(&mut self, name: &'static [u8]) {
        if let Some(&(_, number)) = self.keys.iter().find(|(key, _)| *key == name) {
            return self.sheet.get(number);
        }
        let number = self.text(name);
        self.keys.push((name, number));
    }

    /// A dict of a tablet's number and a list of so many records.
    fn tablet(&mut self, records: usize, record: impl Fn(&mut Forms)) {
        self.container(b'}');
        self.op(b'(', &[]);
        self.key(b"tablet");
        self.op(b'K', &[17]);
        self.key(b"records");
        self.container(b']');
        self.op(b'(', &[]);
        for _ in 0..records {
            record(self);
        }
        self.op(b'e', &[]);
        self.op(b'u', &[]);
    }

    fn record(&mut self) {
        self.container(b'}');
        self.op(b'(', &[]);
        self.key(b"id");
        let id = (1 << 16) + self.draw.below(1 << 29) as u32;
        self.op(b'J', &id.to_le_bytes());
        self.key(b"answer");
        let answer = (1 << 8) + self.draw.below(1 << 15) as u16;
        self.op(b'M', &answer.to_le_bytes());
        self.key(b"comment");
        self.plain_text(88);
        self.op(b'u', &[]);
    }

    /// A list of 511 tuples; with what no GET names remembered or not.
    fn notes(&mut self, unused: bool) {
        self.op(b']', &[]);
        self.remember_if(unused);
        self.op(b'(', &[]);
        let mut before = None;
        for _ in 0..511 {
            let text = self.plain_text(20);
            self.sheet.get(text);
            self.sheet.get(before.unwrap_or(text));
            before = Some(text);
            self.op(0x87, &[]);
            self.remember_if(unused);
        }
        self.op(b'e', &[]);
    }

    /// A sheet: its answers by item, the set of the first `reversed` items, the greatest answer, whether it is flipped, a comment.
    fn form(&mut self, items: u8, reversed: u8, comment: usize) {
        self.container(b'}');
        self.op(b'(', &[]);
        self.key(b"answers");
        self.container(b'}');
        self.op(b'(', &[]);
        for item in 1..=items {
            let answer = self.draw.below(5) as u8;
            self.op(b'K', &[item]);
            self.op(b'K', &[answer]);
        }
        self.op(b'u', &[]);
        self.key(b"reverse");
        self.reverse(reversed);
        self.key(b"max");
        self.op(b'K', &[4]);
        self.key(b"flipped");
        self.op(0x88, &[]);
        self.key(b"comment");
        self.plain_text(comment);
        self.op(b'u', &[]);
    }

    fn reverse(&mut self, reversed: u8) {
        if let Some(number) = self.reverse {
            return self.sheet.get(number);
        }
        self.op(b'c', b"__builtin__\nset\n");
        self.remember();
        self.container(b']');
        self.op(b'(', &[]);
        for item in 1..=reversed {
            self.op(b'K', &[item]);
        }
        self.op(b'e', &[]);
        self.container(0x85);
        self.reverse = Some(self.container(b'R'));
    }
}
