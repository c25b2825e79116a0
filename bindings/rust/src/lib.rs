//! Reads pickles of Python 2 (protocols 0 to 2) and writes, orders and lists what was read, by code that is proved to meet its
//! contract: it ends on every input, refuses with exact numbers, and never lets sharing show. No class is ever called.
//!
//! A [`Reader`] owns the rooms that a reading works in. It gives a [`Value`], which hands out its [`Record`]s, or an [`Error`],
//! which says why the pickle is refused. `examples/show.rs` prints a sheet.
//!
//! All of `unsafe` stands in the modules `calls` and `rooms`, where slices are lent to the library. The repository's `tests/rooms` checks the
//! declarations of the readings against the library's source. Nothing checks those of the other calls: a change there must be made
//! here too.

mod calls;
mod error;
mod reader;
mod record;
pub mod rooms;
mod value;

pub use error::{Error, Wanted, Which};
pub use reader::{Night, Read, Reader};
pub use record::{Record, Records};
pub use value::{Value, LONGEST_LISTING, LONGEST_PICKLE};
