//! The comparison of one implementation of the calls with the reference.

use crate::bytes::Bytes;
use crate::calls::{Answer, Calls, List, Reference, SHEET_OUTPUT};
use crate::cases::{list_text, reading, sheet_text, tall_sheet, writing, Reading, Writing};
use crate::formats::{damaged_format, noise};
use crate::readback;
use crate::tally::{Call, Tally};
use random::Random;
use std::fmt::{self, Debug};

/// A case in which the two differ, told in full.
pub struct Difference(String);

impl fmt::Display for Difference {
    fn fmt(&self, f: &mut fmt::Formatter) -> fmt::Result {
        f.write_str(&self.0)
    }
}

pub struct Harness<'a, C> {
    calls: &'a C,
    random: Random,
    pub tally: Tally,
}

impl<'a, C: Calls> Harness<'a, C> {
    pub fn new(calls: &'a C, seed: u64) -> Harness<'a, C> {
        Harness { calls, random: Random::new(seed), tally: Tally::default() }
    }

    pub fn run(&mut self, cases: usize) -> Result<(), Difference> {
        (0..cases).try_for_each(|_| self.case())
    }

    fn case(&mut self) -> Result<(), Difference> {
        let case = writing(&mut self.random);
        self.write(&case)?;
        self.formats(&case.format)?;
        if self.random.chance(70) {
            let reading = reading(&mut self.random, &case);
            self.read(&reading)?;
        }
        self.texts(&case)
    }

    /// Checks the format, a damaged one and noise.
    fn formats(&mut self, format: &[u8]) -> Result<(), Difference> {
        self.check(format)?;
        let damaged = damaged_format(&mut self.random, format);
        self.check(&damaged)?;
        let noise = noise(&mut self.random);
        self.check(&noise)
    }

    fn texts(&mut self, case: &Writing) -> Result<(), Difference> {
        let text = list_text(&mut self.random, case);
        if self.random.chance(40) {
            self.list_text(&text)?;
        }
        if self.random.chance(20) {
            let tall = self.random.chance(2);
            let input = if tall { tall_sheet(&mut self.random) } else { sheet_text(&mut self.random, case, &text) };
            self.sheet(&input)?;
        }
        if self.random.chance(40) {
            self.host_write(case, &text)?;
            self.host_check(&case.format)?;
        }
        Ok(())
    }

    fn write(&mut self, case: &Writing) -> Result<(), Difference> {
        let (mut right, mut buffer) = (case.buffer.clone(), case.buffer.clone());
        let expected = Reference.write(case, &mut right);
        let actual = self.calls.write(case, &mut buffer);
        self.tally.count(Call::Write, expected.number);
        same("write", case, (expected, Bytes(&right)), (actual, Bytes(&buffer)))?;
        unchanged("write", case, actual, &case.buffer, &buffer)?;
        if actual.number == 0 {
            let told = |what| difference("stars and reading back", case, what, Bytes(&buffer));
            let traced = readback::traced(case);
            let traced = traced.map_err(|refusal| told(format!("accepted, where the walk meets {refusal:?}")))?;
            self.tally.count_items(traced.placements.len(), case.count as usize);
            self.tally.signs.count_writing(case, &traced, &buffer);
            let outcome = readback::check(&mut self.random, self.calls, case, actual, &buffer, &traced);
            self.tally.count_outcome(outcome.map_err(told)?);
        }
        self.tally.signs.count_no_field(&case.format, actual.number);
        Ok(())
    }

    fn read(&mut self, case: &Reading) -> Result<(), Difference> {
        let (mut right, mut area) = (case.area.clone(), case.area.clone());
        let (expected, expected_list) = Reference.read(case, &mut right);
        let (actual, list) = self.calls.read(case, &mut area);
        self.tally.count(Call::Read, expected.number);
        same("read", case, (expected, Shown(&expected_list), Bytes(&right)), (actual, Shown(&list), Bytes(&area)))?;
        if actual.number == 0 {
            self.tally.signs.count_reading(case);
        }
        unchanged("read", case, actual, &case.area, &area)
    }

    fn check(&mut self, format: &[u8]) -> Result<(), Difference> {
        let expected = Reference.check(format);
        self.tally.count(Call::Check, expected.number);
        self.tally.signs.count_format(format, expected);
        same("check", &Bytes(format), expected, self.calls.check(format))
    }

    fn list_text(&mut self, text: &[u8]) -> Result<(), Difference> {
        let (expected, expected_list) = Reference.list_text(text);
        let (actual, list) = self.calls.list_text(text);
        self.tally.count(Call::ListText, expected.number);
        same("list text", &Bytes(text), (expected, Shown(&expected_list)), (actual, Shown(&list)))
    }

    fn sheet(&mut self, input: &[u8]) -> Result<(), Difference> {
        let mut right = [self.random.number() as u8; SHEET_OUTPUT];
        let mut output = right;
        let expected = Reference.sheet(input, &mut right);
        let actual = self.calls.sheet(input, &mut output);
        self.tally.count(Call::Sheet, refusal_number(&right));
        if right != output {
            let ends = (Bytes(&right[..expected as usize]), Bytes(&output[..(actual as usize).min(SHEET_OUTPUT)]));
            return Err(difference("sheet", &Bytes(input), ends.0, ends.1));
        }
        same("sheet", &Bytes(input), expected, actual)
    }

    fn host_write(&mut self, case: &Writing, text: &[u8]) -> Result<(), Difference> {
        let (mut right, mut buffer) = (case.buffer.clone(), case.buffer.clone());
        let expected = Reference.host_write(case.width, &case.format, text, &mut right);
        let actual = self.calls.host_write(case.width, &case.format, text, &mut buffer);
        self.tally.count(Call::HostWrite, expected.min(0).unsigned_abs());
        same("host write", &(case, Bytes(text)), (expected, Bytes(&right)), (actual, Bytes(&buffer)))
    }

    fn host_check(&mut self, format: &[u8]) -> Result<(), Difference> {
        let expected = Reference.host_check(format);
        self.tally.count(Call::HostCheck, expected.unsigned_abs());
        same("host check", &Bytes(format), expected, self.calls.host_check(format))
    }
}

fn same<T: Debug + PartialEq>(call: &str, case: &impl Debug, expected: T, actual: T) -> Result<(), Difference> {
    if expected == actual {
        Ok(())
    } else {
        Err(difference(call, case, expected, actual))
    }
}

fn difference(call: &str, case: &impl Debug, expected: impl Debug, actual: impl Debug) -> Difference {
    Difference(format!("{call} differs\ncase: {case:#?}\nreference: {expected:?}\nother:     {actual:?}"))
}

/// After a refusal "every lent byte is then as before the call".
fn unchanged(call: &str, case: &impl Debug, answer: Answer, before: &[u8], after: &[u8]) -> Result<(), Difference> {
    if answer.number != 0 && before != after {
        return Err(difference(call, case, Bytes(before), Bytes(after)));
    }
    Ok(())
}

/// The number in a sheet that is one line `refused`, else 0.
fn refusal_number(output: &[u8]) -> u64 {
    let digits = output.strip_prefix(b"refused ").unwrap_or_default();
    let digits = digits.iter().take_while(|byte| byte.is_ascii_digit());
    digits.fold(0, |number, digit| number * 10 + u64::from(digit - b'0'))
}

/// A list, shown without the slots past its count that hold integer 0.
#[derive(PartialEq)]
struct Shown<'a>(&'a List);

impl Debug for Shown<'_> {
    fn fmt(&self, f: &mut fmt::Formatter) -> fmt::Result {
        let List { count, slots } = self.0;
        let end = slots.iter().rposition(|&slot| slot != reference::Value::Integer(0)).map_or(0, |last| last + 1);
        write!(f, "count {count}, slots {:?}", &slots[..end])
    }
}
