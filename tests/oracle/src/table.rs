//! The value table of RULES A2: preorder records of four words, and a text without gaps in the same order.

use crate::pickle::{Global, Object, Value};

/// A value with more than this is answered `large`: the Rust can make values that no answer line could hold.
const MOST_RECORDS: usize = 20_000;
const MOST_TEXT: usize = 1_000_000;

/// What word 0 of an Object has besides its kind.
const NEW: u64 = 16;
const STATE: u64 = 32;

#[derive(Default)]
pub struct Table {
    pub words: Vec<u64>,
    pub text: Vec<u8>,
}

/// The table of a value, or nothing if it is too large; it stops at the first record or text past the bounds.
pub fn of_value(value: &Value) -> Option<Table> {
    let mut table = Table::default();
    table.put(value)?;
    Some(table)
}

/// The value of a table. Items and keys in any order, also repeated: the Rust's sets and dicts put that right, and
/// there is no limit on records, depth and text. All else must be as RULES A2 has it.
pub fn to_value(words: &[u64], text: &[u8]) -> Result<Value, &'static str> {
    if words.len() % 4 != 0 {
        return Err("a record has four words");
    }
    let mut reader = Reader { words, text, record: 0, place: 0 };
    let value = reader.value()?;
    if 4 * reader.record != words.len() {
        return Err("bad table: records left");
    }
    if reader.place != text.len() {
        return Err("bad table: text left");
    }
    Ok(value)
}

impl Table {

    pub fn records(&self) -> usize {
        self.words.len() / 4
    }

    fn put(&mut self, value: &Value) -> Option<()> {
        match value {
            Value::None => self.record([0, 0, 0, 0]),
            &Value::Bool(value) => self.record([1, value.into(), 0, 0]),
            &Value::I64(value) => self.record([2, value as u64, 0, 0]),
            Value::F64(value) => self.record([3, value.to_bits(), 0, 0]),
            Value::Bytes(value) => self.text_record(4, value),
            Value::String(value) => self.text_record(5, value.as_bytes()),
            Value::List(items) => self.group(6, items.len(), items.iter()),
            Value::Tuple(items) => self.group(7, items.len(), items.iter()),
            Value::Set(items) => self.group(8, items.len(), items.iter()),
            Value::FrozenSet(items) => self.group(9, items.len(), items.iter()),
            Value::Dict(entries) => self.group(10, entries.len(), entries.iter().flat_map(|(key, value)| [key, value])),
            Value::Global(global) => self.names(11, global),
            Value::Object(object) => self.object(object),
        }
    }

    fn record(&mut self, words: [u64; 4]) -> Option<()> {
        if self.records() == MOST_RECORDS {
            return None;
        }
        self.words.extend(words);
        Some(())
    }

    /// Append text, giving its place.
    fn append(&mut self, text: &[u8]) -> Option<u64> {
        let place = self.text.len();
        if text.len() > MOST_TEXT - place {
            return None;
        }
        self.text.extend(text);
        Some(place as u64)
    }

    fn text_record(&mut self, kind: u64, text: &[u8]) -> Option<()> {
        let place = self.append(text)?;
        self.record([kind, place, text.len() as u64, 0])
    }

    /// A Global, or the record of an Object with its class.
    fn names(&mut self, kind: u64, global: &Global) -> Option<()> {
        let place = self.append(global.module.as_bytes())?;
        self.append(global.name.as_bytes())?;
        self.record([kind, place, (global.module.len() as u64) << 32 | global.name.len() as u64, 0])
    }

    fn group<'a>(&mut self, kind: u64, count: usize, items: impl Iterator<Item = &'a Value>) -> Option<()> {
        let start = self.records();
        self.record([kind, count as u64, 0, 0])?;
        for item in items {
            self.put(item)?;
        }
        self.words[4 * start + 2] = (self.records() - start) as u64;
        Some(())
    }

    fn object(&mut self, object: &Object) -> Option<()> {
        let start = self.records();
        let flags = if object.new { NEW } else { 0 } + if object.state.is_some() { STATE } else { 0 };
        self.names(12 + flags, &object.class)?;
        self.group(7, object.args.len(), object.args.iter())?;
        if let Some(state) = &object.state {
            self.put(state)?;
        }
        self.words[4 * start + 3] = (self.records() - start) as u64;
        Some(())
    }

}

/// Reads a table from its first record on; `place` is where the next text must begin.
struct Reader<'a> {
    words: &'a [u64],
    text: &'a [u8],
    record: usize,
    place: usize,
}

impl Reader<'_> {

    fn value(&mut self) -> Result<Value, &'static str> {
        let start = self.record;
        let words: [u64; 4] = self.words.get(4 * start..4 * start + 4)
            .and_then(|words| words.try_into().ok())
            .ok_or("bad table: record missing")?;
        self.record += 1;
        match words {
            [0, 0, 0, 0] => Ok(Value::None),
            [1, bit @ (0 | 1), 0, 0] => Ok(Value::Bool(bit == 1)),
            [2, bits, 0, 0] => Ok(Value::I64(bits as i64)),
            [3, bits, 0, 0] => Ok(Value::F64(f64::from_bits(bits))),
            [4, place, len, 0] => Ok(Value::Bytes(self.take(place, len)?.to_vec())),
            [5, place, len, 0] => Ok(Value::String(self.take_string(place, len)?)),
            [kind @ 6..=10, count, records, 0] => self.group(kind, count, start, records),
            [11, place, lens, 0] => Ok(Value::Global(self.names(place, lens)?)),
            [kind, place, lens, records] if kind & !(NEW | STATE) == 12 => {
                let class = self.names(place, lens)?;
                let Value::Tuple(args) = self.value()? else { return Err("bad table: arguments") };
                let state = if kind & STATE != 0 { Some(self.value()?) } else { None };
                self.check_records(start, records)?;
                Ok(Value::Object(Box::new(Object { class, args, new: kind & NEW != 0, state })))
            }
            _ => Err("bad table: record"),
        }
    }

    fn group(&mut self, kind: u64, count: u64, start: usize, records: u64) -> Result<Value, &'static str> {
        // Not (0..count).map(..).collect(): that would make room for a count that may be any number.
        let mut items = Vec::new();
        for _ in 0..count {
            items.push(self.value()?);
            if kind == 10 {
                items.push(self.value()?);
            }
        }
        self.check_records(start, records)?;
        Ok(match kind {
            6 => Value::List(items),
            7 => Value::Tuple(items),
            8 => Value::Set(items.into_iter().collect()),
            9 => Value::FrozenSet(items.into_iter().collect()),
            _ => {
                let mut items = items.into_iter();
                Value::Dict(std::iter::from_fn(|| Some((items.next()?, items.next()?))).collect())
            }
        })
    }

    fn check_records(&self, start: usize, records: u64) -> Result<(), &'static str> {
        if (self.record - start) as u64 == records { Ok(()) } else { Err("bad table: records in it") }
    }

    fn take(&mut self, place: u64, len: u64) -> Result<&[u8], &'static str> {
        if place != self.place as u64 {
            return Err("bad table: text place");
        }
        if len > (self.text.len() - self.place) as u64 {
            return Err("bad table: text length");
        }
        let start = self.place;
        self.place += len as usize;
        Ok(&self.text[start..self.place])
    }

    fn take_string(&mut self, place: u64, len: u64) -> Result<String, &'static str> {
        String::from_utf8(self.take(place, len)?.to_vec()).map_err(|_| "bad table: not UTF-8")
    }

    fn names(&mut self, place: u64, lens: u64) -> Result<Global, &'static str> {
        let module = self.take_string(place, lens >> 32)?;
        let name = self.take_string(self.place as u64, lens & 0xFFFF_FFFF)?;
        Ok(Global { module, name })
    }

}
