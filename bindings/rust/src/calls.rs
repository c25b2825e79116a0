//! The library's calls on tables as safe functions. A table is its words, all of which are records, and its text.

use crate::error::Error;

#[repr(C)]
pub struct Answer {
    pub number: u64,
    pub detail: u64,
    pub length: u64,
    pub count: u64,
}

#[repr(C)]
struct Compared {
    number: u64,
    detail: u64,
    sign: i64,
}

#[repr(C)]
struct Scored {
    number: u64,
    detail: u64,
    score: u64,
    items: u64,
}

extern "C" {
    fn qelemvir_compare(
        first: *const u64, first_len: usize, first_count: usize, first_text: *const u8, first_text_len: usize,
        second: *const u64, second_len: usize, second_count: usize, second_text: *const u8, second_text_len: usize,
    ) -> Compared;

    fn qelemvir_list(
        words: *const u64, words_len: usize, count: usize, text: *const u8, text_len: usize,
        output: *mut u8, output_len: usize,
    ) -> Answer;

    fn qelemvir_to_bytes(
        words: *const u64, words_len: usize, count: usize, text: *const u8, text_len: usize,
        output: *mut u8, output_len: usize,
    ) -> Answer;

    fn qelemvir_score(words: *const u64, words_len: usize, count: usize, text: *const u8, text_len: usize) -> Scored;

    fn qelemvir_text_len(words: *const u64, words_len: usize, count: usize) -> usize;
}

impl Answer {
    /// The answer of a success, or the refusal.
    pub fn accepted(self) -> Result<Answer, Error> {
        match self.number {
            0 => Ok(self),
            number => Err(Error::of(number, self.detail)),
        }
    }
}

/// How many records the words make. A last one that is cut off counts, so that the library refuses it.
fn count(words: &[u64]) -> usize {
    words.len() / 4 + usize::from(words.len() % 4 != 0)
}

/// -1, 0 or 1.
pub fn compare(first: (&[u64], &[u8]), second: (&[u64], &[u8])) -> Result<i64, Error> {
    let ((a, a_text), (b, b_text)) = (first, second);
    // SAFETY: a slice passes as pointer and length, and the library only reads it; its contract asks nothing of what is in it.
    let compared = unsafe {
        qelemvir_compare(
            a.as_ptr(), a.len(), count(a), a_text.as_ptr(), a_text.len(),
            b.as_ptr(), b.len(), count(b), b_text.as_ptr(), b_text.len(),
        )
    };
    match compared.number {
        0 => Ok(compared.sign),
        number => Err(Error::of(number, compared.detail)),
    }
}

/// Puts the listing at the start of the output and answers its length.
pub fn list(words: &[u64], text: &[u8], output: &mut [u8]) -> Result<usize, Error> {
    // SAFETY: as for compare; the output is no part of the table, since it is lent as `&mut`.
    let answer = unsafe {
        qelemvir_list(
            words.as_ptr(), words.len(), count(words), text.as_ptr(), text.len(),
            output.as_mut_ptr(), output.len(),
        )
    };
    answer.accepted().map(|answer| answer.length as usize)
}

/// Puts the pickle at the start of the output and answers its length.
pub fn to_bytes(words: &[u64], text: &[u8], output: &mut [u8]) -> Result<usize, Error> {
    // SAFETY: as for list.
    let answer = unsafe {
        qelemvir_to_bytes(
            words.as_ptr(), words.len(), count(words), text.as_ptr(), text.len(),
            output.as_mut_ptr(), output.len(),
        )
    };
    answer.accepted().map(|answer| answer.length as usize)
}

/// The score of a sheet, and how many items were answered.
pub fn score(words: &[u64], text: &[u8]) -> Result<(u64, u64), Error> {
    // SAFETY: as for compare.
    let scored = unsafe { qelemvir_score(words.as_ptr(), words.len(), count(words), text.as_ptr(), text.len()) };
    match scored.number {
        0 => Ok((scored.score, scored.items)),
        number => Err(Error::of(number, scored.detail)),
    }
}

/// How many bytes of text the records have, which a reading does not say.
pub fn text_len(words: &[u64]) -> usize {
    // SAFETY: as for compare.
    unsafe { qelemvir_text_len(words.as_ptr(), words.len(), count(words)) }
}
