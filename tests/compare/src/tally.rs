//! Counts of calls by their answer's number.

use crate::readback::Outcome;
use crate::signs::SignTally;
use std::fmt;

/// Refusal numbers run from 1 to 13; 0 is accepted.
const NUMBERS: usize = 14;
/// A refusal, writings of many items, and what sign settings are for, are to be reached so often.
pub const ENOUGH: usize = 100;

#[derive(Clone, Copy, Debug, PartialEq, Eq)]
pub enum Call {
    Write,
    Read,
    Check,
    ListText,
    Sheet,
    HostWrite,
    HostCheck,
}

const CALLS: [(Call, &str); 7] = [
    (Call::Write, "write"),
    (Call::Read, "read"),
    (Call::Check, "check"),
    (Call::ListText, "list text"),
    (Call::Sheet, "sheet"),
    (Call::HostWrite, "host write"),
    (Call::HostCheck, "host check"),
];

/// Items that cover columns are placed in parts: so many in one where the list is short, or long.
const SHORT_LIST: usize = 8;
const SMALL_PART: usize = 16;
const PART: usize = 80;

#[derive(Default)]
pub struct Tally {
    counts: [[usize; NUMBERS]; CALLS.len()],
    read_back: usize,
    refused_for_stars: usize,
    covered_twice: usize,
    full_parts: usize,
    several_small_parts: usize,
    several_parts: usize,
    pub signs: SignTally,
}

impl Tally {
    pub fn count(&mut self, call: Call, number: u64) {
        self.counts[call as usize][number as usize] += 1;
    }

    pub fn count_outcome(&mut self, outcome: Outcome) {
        match outcome {
            Outcome::ReadBack => self.read_back += 1,
            Outcome::RefusedForStars => self.refused_for_stars += 1,
            Outcome::CoveredTwice => self.covered_twice += 1,
        }
    }

    /// Counts an accepted writing by how many items cover columns, and how many elements it has.
    pub fn count_items(&mut self, items: usize, elements: usize) {
        let short = elements <= SHORT_LIST;
        let part = if short { SMALL_PART } else { PART };
        self.full_parts += usize::from(items > 0 && items % part == 0);
        self.several_small_parts += usize::from(short && items > part);
        self.several_parts += usize::from(!short && items > part);
    }

    fn of(&self, call: Call, number: usize) -> usize {
        self.counts[call as usize][number]
    }

    /// What was reached too seldom for the comparison to say much.
    pub fn shortcomings(&self) -> Vec<String> {
        let mut found = Vec::new();
        let mut require = |name: &str, number: usize, count: usize| {
            if count < ENOUGH {
                found.push(format!("{name}: refusal {number} reached {count} times, fewer than {ENOUGH}"));
            }
        };
        for number in 1..NUMBERS {
            require("write and read", number, self.of(Call::Write, number) + self.of(Call::Read, number));
        }
        for number in 2..=5 {
            require("check", number, self.of(Call::Check, number));
        }
        require("list text", 6, self.of(Call::ListText, 6));
        for (name, count) in self.parts() {
            if count < ENOUGH {
                found.push(format!("{name}: {count}, fewer than {ENOUGH}"));
            }
        }
        found.extend(self.signs.shortcomings());
        for call in [Call::Write, Call::Read] {
            let all: usize = self.counts[call as usize].iter().sum();
            if self.of(call, 0) * 4 < all {
                found.push(format!("{call:?}: fewer than a quarter accepted"));
            }
        }
        found
    }

    fn parts(&self) -> [(&'static str, usize); 3] {
        [
            ("exactly full parts", self.full_parts),
            ("more than a part, a short list", self.several_small_parts),
            ("more than a part, a long list", self.several_parts),
        ]
    }
}

impl fmt::Display for Tally {
    fn fmt(&self, f: &mut fmt::Formatter) -> fmt::Result {
        write!(f, "{:>8}", "number")?;
        for (_, name) in CALLS {
            write!(f, "{name:>12}")?;
        }
        for number in 0..NUMBERS {
            write!(f, "\n{number:>8}")?;
            for (call, _) in CALLS {
                write!(f, "{:>12}", self.of(call, number))?;
            }
        }
        write!(f, "\n{:>8}", "all")?;
        for (call, _) in CALLS {
            write!(f, "{:>12}", self.counts[call as usize].iter().sum::<usize>())?;
        }
        write!(
            f,
            "\naccepted writings: {} read back, {} refused for stars, {} covering a column twice",
            self.read_back, self.refused_for_stars, self.covered_twice
        )?;
        write!(f, "\nitems that cover columns:")?;
        self.parts().iter().try_for_each(|(name, count)| write!(f, " {name} {count};"))?;
        write!(f, "\n{}", self.signs)
    }
}
