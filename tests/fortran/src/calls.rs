//! The library under test.

pub use library::{read, write};
pub use reference::{Counts, Refusal, Value};
