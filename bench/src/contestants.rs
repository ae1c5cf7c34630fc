//! What is measured, each behind the same two traits.

use crate::cases::{Act, Case};

pub trait Contestant {
    fn name(&self) -> &str;
    /// The work of a case, ready to be repeated; none where it has no such call.
    fn ready<'a>(&'a self, case: &'a Case, act: Act) -> Option<Box<dyn Work + 'a>>;
}

pub trait Work {
    fn repeat(&mut self, times: usize);
    /// Whether the last repetition gave what it should.
    fn is_right(&self) -> bool;
}
