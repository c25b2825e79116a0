//! The readings: of one pickle, also of plain data only, and of a night's sheets at once.

use crate::calls::{text_len, Answer};
use crate::error::Error;
use crate::rooms::{
    qelemvir_from_bytes, qelemvir_from_bytes_prefix, qelemvir_plain_from_bytes, qelemvir_plain_from_bytes_prefix, Reading, Rooms,
};
use crate::value::Value;

/// Owns the rooms that a reading works in, so that many pickles can be read in them one after the other.
pub struct Reader {
    rooms: Rooms,
    prefix: Reading,
    whole: Reading,
    plain: bool,
}

/// What was read of a sheet: its bytes, and the records of its value.
#[derive(Clone, Copy, Debug, PartialEq, Eq)]
pub struct Read {
    pub length: usize,
    pub count: usize,
}

/// What a night's sheets gave.
#[derive(Clone, Debug, PartialEq, Eq)]
pub struct Night {
    /// Of each sheet, in order, what was read or why it is refused.
    pub sheets: Vec<Result<Read, Error>>,
    /// The value of the last one that was read, if one was.
    pub last: Option<Value>,
}

impl Reader {
    pub fn new() -> Reader {
        Reader { rooms: Rooms::new(), prefix: qelemvir_from_bytes_prefix, whole: qelemvir_from_bytes, plain: false }
    }

    /// A reader of plain data only: an opcode that names, calls or fills a class, and the text PUT and GET, are `OutsideProfile`.
    pub fn plain() -> Reader {
        Reader { rooms: Rooms::new(), prefix: qelemvir_plain_from_bytes_prefix, whole: qelemvir_plain_from_bytes, plain: true }
    }

    /// The value at the start of the bytes, and how many of them it took.
    pub fn from_bytes_prefix(&mut self, pickle: &[u8]) -> Result<(Value, usize), Error> {
        self.read(self.prefix, pickle)
    }

    /// The value that the bytes are, with none left over.
    pub fn from_bytes(&mut self, pickle: &[u8]) -> Result<Value, Error> {
        self.read(self.whole, pickle).map(|(value, _)| value)
    }

    /// The sheets that stand end to end in a buffer and have these lengths, each read as [`Reader::from_bytes`] reads it by itself.
    /// [`Error::BadLengths`] if the lengths do not add up to the buffer's.
    pub fn from_bytes_batch(&mut self, sheets: &[u8], lengths: &[u64]) -> Result<Night, Error> {
        if self.plain {
            return self.one_by_one(sheets, lengths);
        }
        let mut answers = vec![0; 4 * lengths.len()];
        self.rooms.lend_batch(sheets, lengths, &mut answers).accepted()?;
        let sheets: Vec<_> = answers
            .chunks_exact(4)
            .map(|four| Answer { number: four[0], detail: four[1], length: four[2], count: four[3] }.accepted())
            .map(|answer| answer.map(|Answer { length, count, .. }| Read { length: length as usize, count: count as usize }))
            .collect();
        let last = sheets.iter().rev().find_map(|sheet| sheet.ok()).map(|Read { count, .. }| self.value(count));
        Ok(Night { sheets, last })
    }

    /// The same of plain data only, for which the library has no batch.
    fn one_by_one(&mut self, sheets: &[u8], lengths: &[u64]) -> Result<Night, Error> {
        let (mut rest, mut parts) = (sheets, Vec::new());
        for &length in lengths {
            if (rest.len() as u64) < length {
                return Err(Error::BadLengths);
            }
            let (part, behind) = rest.split_at(length as usize);
            parts.push(part);
            rest = behind;
        }
        if !rest.is_empty() {
            return Err(Error::BadLengths);
        }
        let mut night = Night { sheets: Vec::new(), last: None };
        for part in parts {
            let read = self.rooms.lend(self.whole, part).accepted();
            let sheet = read.map(|Answer { length, count, .. }| Read { length: length as usize, count: count as usize });
            if let Ok(Read { count, .. }) = sheet {
                night.last = Some(self.value(count));
            }
            night.sheets.push(sheet);
        }
        Ok(night)
    }

    fn read(&mut self, reading: Reading, pickle: &[u8]) -> Result<(Value, usize), Error> {
        let Answer { length, count, .. } = self.rooms.lend(reading, pickle).accepted()?;
        Ok((self.value(count as usize), length as usize))
    }

    /// The value that was put at the start of table and text, of so many records.
    fn value(&self, count: usize) -> Value {
        let words = &self.rooms.table[..4 * count];
        Value::read(words, &self.rooms.text[..text_len(words)])
    }
}

impl Default for Reader {
    fn default() -> Reader {
        Reader::new()
    }
}
