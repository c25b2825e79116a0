//! Why the library refuses.

use std::fmt;

/// What an opcode found no valid one of.
#[derive(Clone, Copy, Debug, PartialEq, Eq)]
pub enum Wanted {
    Length,
    DictItems,
    List,
    Dict,
    Class,
    Arguments,
    Object,
}

/// Which of a call's tables is meant.
#[derive(Clone, Copy, Debug, PartialEq, Eq)]
pub enum Which {
    First,
    Second,
}

/// A refusal, by the library's names. Each has its number and its detail.
#[derive(Clone, Copy, Debug, PartialEq, Eq)]
#[non_exhaustive]
pub enum Error {
    ShortRoom,
    TooLong,
    EndOfInput,
    /// With the opcode's byte.
    UnsupportedOpcode(u8),
    UnsupportedProtocol(u8),
    StackUnderflow,
    /// With the memo number.
    MissingMemo(u32),
    InvalidLiteral,
    IntegerTooLarge,
    Invalid(Wanted),
    TrailingData,
    StackFull,
    MarksFull,
    MemoFull,
    NodesFull,
    LinksFull,
    TooDeep,
    TooManyValues,
    TextFull,
    FloatOutside,
    BadTable(Which),
    OutputFull,
    /// The lengths of a night's sheets do not add up to their buffer's.
    BadLengths,
    SheetShape,
    /// A module or a name has a newline or ends with CR, and is not written.
    UnwritableName,
    /// With the byte of an opcode that is not for plain data.
    OutsideProfile(u8),
    /// A refusal of a later version of the library, which this crate does not know.
    Other { number: u64, detail: u64 },
}

impl Error {
    /// The refusal of this number and detail.
    pub fn of(number: u64, detail: u64) -> Error {
        match (number, detail) {
            (1, 0) => Error::ShortRoom,
            (2, 0) => Error::TooLong,
            (3, 0) => Error::EndOfInput,
            (4, 0..=0xFF) => Error::UnsupportedOpcode(detail as u8),
            (5, 0..=0xFF) => Error::UnsupportedProtocol(detail as u8),
            (6, 0) => Error::StackUnderflow,
            (7, 0..=0xFFFF_FFFF) => Error::MissingMemo(detail as u32),
            (8, 0) => Error::InvalidLiteral,
            (9, 0) => Error::IntegerTooLarge,
            (10, 1) => Error::Invalid(Wanted::Length),
            (10, 2) => Error::Invalid(Wanted::DictItems),
            (10, 3) => Error::Invalid(Wanted::List),
            (10, 4) => Error::Invalid(Wanted::Dict),
            (10, 5) => Error::Invalid(Wanted::Class),
            (10, 6) => Error::Invalid(Wanted::Arguments),
            (10, 7) => Error::Invalid(Wanted::Object),
            (11, 0) => Error::TrailingData,
            (12, 0) => Error::StackFull,
            (13, 0) => Error::MarksFull,
            (14, 0) => Error::MemoFull,
            (15, 0) => Error::NodesFull,
            (16, 0) => Error::LinksFull,
            (17, 0) => Error::TooDeep,
            (18, 0) => Error::TooManyValues,
            (19, 0) => Error::TextFull,
            (20, 0) => Error::FloatOutside,
            (21, 1) => Error::BadTable(Which::First),
            (21, 2) => Error::BadTable(Which::Second),
            (22, 0) => Error::OutputFull,
            (23, 0) => Error::BadLengths,
            (24, 0) => Error::SheetShape,
            (25, 0) => Error::UnwritableName,
            (26, 0..=0xFF) => Error::OutsideProfile(detail as u8),
            _ => Error::Other { number, detail },
        }
    }

    pub fn number(&self) -> u64 {
        match *self {
            Error::ShortRoom => 1,
            Error::TooLong => 2,
            Error::EndOfInput => 3,
            Error::UnsupportedOpcode(_) => 4,
            Error::UnsupportedProtocol(_) => 5,
            Error::StackUnderflow => 6,
            Error::MissingMemo(_) => 7,
            Error::InvalidLiteral => 8,
            Error::IntegerTooLarge => 9,
            Error::Invalid(_) => 10,
            Error::TrailingData => 11,
            Error::StackFull => 12,
            Error::MarksFull => 13,
            Error::MemoFull => 14,
            Error::NodesFull => 15,
            Error::LinksFull => 16,
            Error::TooDeep => 17,
            Error::TooManyValues => 18,
            Error::TextFull => 19,
            Error::FloatOutside => 20,
            Error::BadTable(_) => 21,
            Error::OutputFull => 22,
            Error::BadLengths => 23,
            Error::SheetShape => 24,
            Error::UnwritableName => 25,
            Error::OutsideProfile(_) => 26,
            Error::Other { number, .. } => number,
        }
    }

    pub fn detail(&self) -> u64 {
        match *self {
            Error::UnsupportedOpcode(byte) | Error::UnsupportedProtocol(byte) | Error::OutsideProfile(byte) => byte.into(),
            Error::MissingMemo(number) => number.into(),
            Error::Invalid(what) => what as u64 + 1,
            Error::BadTable(which) => which as u64 + 1,
            Error::Other { detail, .. } => detail,
            _ => 0,
        }
    }
}

impl fmt::Display for Error {
    fn fmt(&self, f: &mut fmt::Formatter) -> fmt::Result {
        let words = match *self {
            Error::UnsupportedOpcode(byte) => return write!(f, "the opcode with byte {byte:02x} is not read"),
            Error::UnsupportedProtocol(number) => return write!(f, "protocol {number} is not read"),
            Error::OutsideProfile(byte) => return write!(f, "the opcode with byte {byte:02x} is not for plain data"),
            Error::MissingMemo(number) => return write!(f, "nothing was put under the memo number {number}"),
            Error::Other { number, detail } => return write!(f, "refused with number {number} and detail {detail}"),
            Error::ShortRoom => "a lent room is shorter than stated",
            Error::TooLong => "the pickle is longer than 65,536 bytes",
            Error::EndOfInput => "the pickle ends too early",
            Error::StackUnderflow => "an opcode needs more than is on the stack",
            Error::InvalidLiteral => "a literal is not of the right form, or its number does not fit",
            Error::IntegerTooLarge => "an integer does not fit into 64 bits",
            Error::Invalid(Wanted::Length) => "a length is negative",
            Error::Invalid(Wanted::DictItems) => "a key of a dict has no value",
            Error::Invalid(Wanted::List) => "items are added to what is no list",
            Error::Invalid(Wanted::Dict) => "entries are added to what is no dict",
            Error::Invalid(Wanted::Class) => "an object's class is no class",
            Error::Invalid(Wanted::Arguments) => "an object's arguments are no tuple",
            Error::Invalid(Wanted::Object) => "a state is given to what is no object",
            Error::TrailingData => "bytes are left after the pickle",
            Error::StackFull => "the stack would hold more than 2,048 values",
            Error::MarksFull => "there would be more than 256 marks",
            Error::MemoFull => "the memo would hold more than 1,024 numbers",
            Error::NodesFull => "the opcodes would make more than 4,096 values",
            Error::LinksFull => "there would be more than 8,192 links to items",
            Error::TooDeep => "the value is more than 64 deep",
            Error::TooManyValues => "the value holds more than 2,048 values",
            Error::TextFull => "the value has more than 65,536 bytes of text",
            Error::FloatOutside => "a float literal is outside of what is read exactly",
            Error::BadTable(Which::First) => "the table is not well formed",
            Error::BadTable(Which::Second) => "the second table is not well formed",
            Error::OutputFull => "the lent output is too short",
            Error::BadLengths => "the lengths of the sheets do not add up to the bytes",
            Error::SheetShape => "the value is no sheet",
            Error::UnwritableName => "a module or a name has a newline or ends with CR, and could not be read back",
        };
        f.write_str(words)
    }
}

impl std::error::Error for Error {}
