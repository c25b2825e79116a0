//! Number and detail, by RULES A4, of each refusal of the Rust.

/// A macro, not a function: the unchanged de.rs and its substituted copy each have a type `DeError` of their own,
/// and this has to be said of both in the same words. The caller's `DeError` is meant.
#[macro_export]
macro_rules! refusal {
    ($error:expr) => {
        match $error {
            DeError::Io(_) => (3, 0),
            DeError::UnsupportedOpcode(code) => (4, u64::from(*code)),
            DeError::UnsupportedProtocol(proto) => (5, u64::from(*proto)),
            DeError::StackUnderflow => (6, 0),
            DeError::MissingMemo(index) => (7, u64::from(*index)),
            DeError::InvalidLiteral => (8, 0),
            DeError::IntegerTooLarge => (9, 0),
            DeError::Invalid(what) => (10, $crate::refusal::invalid(what)),
            DeError::TrailingData => (11, 0),
        }
    };
}

/// The detail of number 10. An unknown word is 0, which RULES A4 does not have.
pub fn invalid(what: &str) -> u64 {
    let words = ["length", "dict items", "list", "dict", "class", "arguments", "object"];
    words.iter().position(|word| *word == what).map_or(0, |place| place as u64 + 1)
}
