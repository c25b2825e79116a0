//! The records of a value, one by one.

/// What a record of a table says; its texts are borrowed from the table. The records of what it holds follow it.
#[derive(Clone, Copy, Debug, PartialEq)]
pub enum Record<'a> {
    None,
    Bool(bool),
    Int(i64),
    Float(f64),
    Bytes(&'a [u8]),
    String(&'a str),
    /// How many items follow, each with all that it holds.
    List(usize),
    Tuple(usize),
    /// The items, in ascending order.
    Set(usize),
    FrozenSet(usize),
    /// How many entries follow, a key and a value each, the keys in ascending order.
    Dict(usize),
    Global { module: &'a str, name: &'a str },
    /// Its arguments follow as a tuple, and then its state if it has one. `new`: made by `__new__`, not by a call.
    Object { module: &'a str, name: &'a str, new: bool, state: bool },
}

/// Iterates over the records of a value, in preorder, with their depth; the root has depth 0.
#[derive(Clone, Debug)]
pub struct Records<'a> {
    words: &'a [u64],
    text: &'a [u8],
    next: usize,
    /// Of each record that holds the next one: the first record behind all that it holds. The outermost comes first.
    ends: Vec<usize>,
}

impl<'a> Records<'a> {
    /// The table must be well formed.
    pub(crate) fn new(words: &'a [u64], text: &'a [u8]) -> Records<'a> {
        Records { words, text, next: 0, ends: Vec::new() }
    }

    fn bytes(&self, place: u64, length: u64) -> &'a [u8] {
        &self.text[place as usize..][..length as usize]
    }

    fn string(&self, place: u64, length: u64) -> &'a str {
        std::str::from_utf8(self.bytes(place, length)).expect("a well-formed table has valid UTF-8 here")
    }

    /// Module and name, whose lengths share a word.
    fn names(&self, place: u64, lengths: u64) -> (&'a str, &'a str) {
        let (module, name) = (lengths >> 32, lengths & 0xFFFF_FFFF);
        (self.string(place, module), self.string(place + module, name))
    }

    /// The record of these words, and how many records it takes with all that it holds.
    fn record(&self, words: [u64; 4]) -> (Record<'a>, usize) {
        let [head, a, b, c] = words;
        let record = match head & 15 {
            0 => Record::None,
            1 => Record::Bool(a == 1),
            2 => Record::Int(a as i64),
            3 => Record::Float(f64::from_bits(a)),
            4 => Record::Bytes(self.bytes(a, b)),
            5 => Record::String(self.string(a, b)),
            6 => return (Record::List(a as usize), b as usize),
            7 => return (Record::Tuple(a as usize), b as usize),
            8 => return (Record::Set(a as usize), b as usize),
            9 => return (Record::FrozenSet(a as usize), b as usize),
            10 => return (Record::Dict(a as usize), b as usize),
            11 => {
                let (module, name) = self.names(a, b);
                Record::Global { module, name }
            }
            12 => {
                let (module, name) = self.names(a, b);
                return (Record::Object { module, name, new: head & 16 != 0, state: head & 32 != 0 }, c as usize);
            }
            kind => unreachable!("a well-formed table has no kind {kind}"),
        };
        (record, 1)
    }
}

impl<'a> Iterator for Records<'a> {
    type Item = (usize, Record<'a>);

    fn next(&mut self) -> Option<(usize, Record<'a>)> {
        let words = self.words.get(4 * self.next..4 * self.next + 4)?;
        while self.ends.last() == Some(&self.next) {
            self.ends.pop();
        }
        let depth = self.ends.len();
        let (record, size) = self.record([words[0], words[1], words[2], words[3]]);
        if size > 1 {
            self.ends.push(self.next + size);
        }
        self.next += 1;
        Some((depth, record))
    }

    fn size_hint(&self) -> (usize, Option<usize>) {
        let left = self.words.len() / 4 - self.next;
        (left, Some(left))
    }
}

impl ExactSizeIterator for Records<'_> {}
