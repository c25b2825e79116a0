//! The rooms that a reading works in and the two slices that it fills, as the repository's rooms.txt states them.

use crate::calls::Answer;

/// One list, in the order of the calls' arguments, gives the lengths, the slices and the calls that take them, which so agree.
macro_rules! rooms {
    ($($name:ident: $element:ty, $constant:ident = $length:expr;)*) => {
        $(
            #[doc = concat!("How many `", stringify!($element), "` the slice `", stringify!($name), "` has.")]
            pub const $constant: usize = $length;
        )*

        pub(crate) struct Rooms {
            $(pub(crate) $name: Box<[$element]>,)*
        }

        pub(crate) type Reading = unsafe extern "C" fn(*const u8, usize, $(*mut $element, usize),*) -> Answer;

        extern "C" {
            pub(crate) fn qelemvir_from_bytes_prefix(
                pickle: *const u8, pickle_len: usize, $($name: *mut $element, _: usize),*
            ) -> Answer;

            pub(crate) fn qelemvir_from_bytes(
                pickle: *const u8, pickle_len: usize, $($name: *mut $element, _: usize),*
            ) -> Answer;

            fn qelemvir_from_bytes_batch(
                sheets: *const u8, sheets_len: usize, lengths: *const u64, lengths_len: usize, answers: *mut u64, answers_len: usize,
                $($name: *mut $element, _: usize),*
            ) -> Answer;

            pub(crate) fn qelemvir_plain_from_bytes_prefix(
                pickle: *const u8, pickle_len: usize, $($name: *mut $element, _: usize),*
            ) -> Answer;

            pub(crate) fn qelemvir_plain_from_bytes(
                pickle: *const u8, pickle_len: usize, $($name: *mut $element, _: usize),*
            ) -> Answer;
        }

        impl Rooms {
            pub(crate) fn new() -> Rooms {
                Rooms { $($name: vec![0; $constant].into_boxed_slice(),)* }
            }

            pub(crate) fn lend(&mut self, reading: Reading, pickle: &[u8]) -> Answer {
                // SAFETY: a slice passes as pointer and length, and the contract asks nothing of what is in it; the slices that the
                // library writes to are our own, each a room of its own.
                unsafe { reading(pickle.as_ptr(), pickle.len(), $(self.$name.as_mut_ptr(), self.$name.len()),*) }
            }

            /// For the sheets of a night, which stand end to end; the answers have four places a sheet.
            pub(crate) fn lend_batch(&mut self, sheets: &[u8], lengths: &[u64], answers: &mut [u64]) -> Answer {
                // SAFETY: as for lend.
                unsafe {
                    qelemvir_from_bytes_batch(
                        sheets.as_ptr(), sheets.len(), lengths.as_ptr(), lengths.len(), answers.as_mut_ptr(), answers.len(),
                        $(self.$name.as_mut_ptr(), self.$name.len()),*
                    )
                }
            }
        }
    };
}

rooms! {
    // from rooms.txt, by tests/rooms: list
    nodes: u64, NODES = 8192;
    owners: u16, OWNERS = 8192;
    children: u16, CHILDREN = 8192;
    stack: u16, STACK = 2048;
    marks: u16, MARKS = 256;
    keys: u32, KEYS = 2048;
    held: u16, HELD = 1024;
    unescaped: u8, UNESCAPED = 65536;
    starts: u16, STARTS = 4098;
    sorted: u16, SORTED = 16384;
    measures: u64, MEASURES = 4096;
    table: u64, TABLE = 8192;
    text: u8, TEXT = 65536;
    // end of list
}
