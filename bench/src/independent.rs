//! The independent Rust implementation.

use std::hint::black_box;

use crate::cases::{Act, Case};
use crate::contestants::{Contestant, Work};
use reference::Value;

pub struct Independent;

impl Contestant for Independent {
    fn name(&self) -> &str {
        "rust"
    }

    fn ready<'a>(&'a self, case: &'a Case, act: Act) -> Option<Box<dyn Work + 'a>> {
        Some(match act {
            Act::Write => Box::new(Writing { case, buffer: vec![0; case.records.len()] }),
            Act::Read => Box::new(Reading { case, area: vec![0; case.area.len()], read: Vec::new() }),
            Act::Check => Box::new(Checking { case, accepted: false }),
        })
    }
}

struct Writing<'a> {
    case: &'a Case,
    buffer: Vec<u8>,
}

impl Work for Writing<'_> {
    fn repeat(&mut self, times: usize) {
        for _ in 0..times {
            let Case { width, format, elements, area, .. } = black_box(self.case);
            let count = elements.len() as u64;
            let answer = reference::write(*width as u64, format, elements, count, area, &mut self.buffer);
            assert!(black_box(answer).is_ok());
        }
    }

    fn is_right(&self) -> bool {
        self.buffer == self.case.records
    }
}

struct Reading<'a> {
    case: &'a Case,
    area: Vec<u8>,
    read: Vec<Value>,
}

impl Work for Reading<'_> {
    fn repeat(&mut self, times: usize) {
        for _ in 0..times {
            let Case { width, format, elements, records, .. } = black_box(self.case);
            let count = elements.len() as u64;
            let answer = reference::read(*width as u64, format, elements, count, &mut self.area, records);
            self.read = black_box(answer).expect("a good sheet").1;
        }
    }

    fn is_right(&self) -> bool {
        self.area == self.case.area && self.read == self.case.read
    }
}

struct Checking<'a> {
    case: &'a Case,
    accepted: bool,
}

impl Work for Checking<'_> {
    fn repeat(&mut self, times: usize) {
        for _ in 0..times {
            self.accepted = reference::check(black_box(&self.case.format)).is_ok();
        }
    }

    fn is_right(&self) -> bool {
        self.accepted
    }
}
