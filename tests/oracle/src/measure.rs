//! The measures of a value that `Builder` makes, told before equal keys or items collapse. The substituted `build`
//! returns one of these in place of a value, since the value itself may be exponential in the pickle.

use crate::traced::{Global, Value};

/// Saturating at the top of u64, far above every number that stops a reading.
#[derive(Debug, Clone, Copy)]
pub struct Measure {
    /// Whether the value is a Tuple: an Object whose arguments are none is made None. (Whether it is a List would
    /// matter to a Set only, which measures the same either way.)
    pub tuple: bool,
    pub depth: u64,
    pub values: u64,
    pub text: u64,
}

impl Measure {

    /// A value without contents.
    pub fn leaf(value: &Value) -> Self {
        let text = match value {
            Value::Bytes(value) => value.len() as u64,
            Value::String(value) => value.len() as u64,
            Value::Global(global) => names(global),
            _ => 0,
        };
        Measure { tuple: false, depth: 1, values: 1, text }
    }

    pub fn list(items: Vec<Measure>) -> Self {
        Self::around(0, items)
    }

    pub fn tuple(items: Vec<Measure>) -> Self {
        Measure { tuple: true, ..Self::around(0, items) }
    }

    /// Keys and values, entries of equal keys included.
    pub fn dict(entries: Vec<(Measure, Measure)>) -> Self {
        Self::around(0, entries.into_iter().flat_map(|(key, value)| [key, value]))
    }

    /// A Set's one child is its argument, whatever becomes of it.
    pub fn set(argument: Measure) -> Self {
        Self::around(0, [argument])
    }

    /// The arguments are a value of their own; the class is none, but its text counts here.
    pub fn object(class: &Global, args: Measure, state: Option<Measure>) -> Self {
        Self::around(names(class), [Some(args), state].into_iter().flatten())
    }

    /// One value with these children, one level above the deepest.
    fn around(text: u64, children: impl IntoIterator<Item = Measure>) -> Self {
        let mut sum = Measure { tuple: false, depth: 1, values: 1, text };
        for child in children {
            sum.depth = sum.depth.max(child.depth.saturating_add(1));
            sum.values = sum.values.saturating_add(child.values);
            sum.text = sum.text.saturating_add(child.text);
        }
        sum
    }

}

fn names(global: &Global) -> u64 {
    global.module.len() as u64 + global.name.len() as u64
}
