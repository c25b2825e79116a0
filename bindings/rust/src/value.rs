//! A value as the library has it: a table of records and a text.

use std::{cmp::Ordering, fmt};

use crate::calls;
use crate::error::Error;
use crate::record::Records;

/// No value is written as a longer pickle.
pub const LONGEST_PICKLE: usize = 122_883;

/// No value has a longer listing.
pub const LONGEST_LISTING: usize = 370_688;

/// A value that was read, or made from a table that the library found well formed. The order, and with it equality, is the
/// library's: total, floats by IEEE's totalOrder; values are equal exactly when their tables and texts are the same.
#[derive(Clone)]
pub struct Value {
    words: Vec<u64>,
    text: Vec<u8>,
}

impl Value {
    /// A value of the caller's making: records of four words, and the text of all of them. [`Error::BadTable`] if the table is not
    /// well formed.
    pub fn from_table(words: Vec<u64>, text: Vec<u8>) -> Result<Value, Error> {
        match calls::list(&words, &text, &mut []) {
            // The table was found good before the output was found short.
            Err(Error::OutputFull) | Ok(_) => Ok(Value { words, text }),
            Err(why) => Err(why),
        }
    }

    /// What a reading left in its outputs, which is well formed.
    pub(crate) fn read(words: &[u64], text: &[u8]) -> Value {
        Value { words: words.to_vec(), text: text.to_vec() }
    }

    /// The table's records, four words each.
    pub fn words(&self) -> &[u64] {
        &self.words
    }

    /// The texts of all records, one behind the other.
    pub fn text(&self) -> &[u8] {
        &self.text
    }

    /// The records in the table's order, which is preorder, each with its depth.
    pub fn records(&self) -> Records<'_> {
        Records::new(&self.words, &self.text)
    }

    /// The value as a pickle of protocol 2. [`Error::UnwritableName`] where a module or a name in it would not come back.
    pub fn to_bytes(&self) -> Result<Vec<u8>, Error> {
        let mut output = vec![0; LONGEST_PICKLE];
        let length = calls::to_bytes(&self.words, &self.text, &mut output)?;
        Ok(output[..length].to_vec())
    }

    /// The listing, a line a record, all of it ASCII: of texts and names a backslash as two, a byte outside 20 to 7E hex as `\x`
    /// and two digits. Two values with the same listing are the same value. No value is refused today.
    pub fn list(&self) -> Result<String, Error> {
        let mut output = vec![0; LONGEST_LISTING];
        let length = calls::list(&self.words, &self.text, &mut output)?;
        Ok(output[..length].iter().copied().map(char::from).collect())
    }

    /// The score of the sheet that this value is, and how many items were answered. [`Error::SheetShape`] if it is none.
    pub fn score(&self) -> Result<(u64, u64), Error> {
        calls::score(&self.words, &self.text)
    }
}

impl Ord for Value {
    fn cmp(&self, other: &Value) -> Ordering {
        calls::compare((&self.words, &self.text), (&other.words, &other.text)).expect("both tables are well formed").cmp(&0)
    }
}

impl PartialOrd for Value {
    fn partial_cmp(&self, other: &Value) -> Option<Ordering> {
        Some(self.cmp(other))
    }
}

impl PartialEq for Value {
    fn eq(&self, other: &Value) -> bool {
        self.cmp(other) == Ordering::Equal
    }
}

impl Eq for Value {}

impl fmt::Debug for Value {
    fn fmt(&self, f: &mut fmt::Formatter) -> fmt::Result {
        f.debug_list().entries(self.records()).finish()
    }
}
