//! The calls that are compared, with all that each of them gives.

use crate::cases::{Reading, Writing};
use reference::{Counts, Refusal, Value};

/// Slots of a list.
pub const SLOTS: usize = 64;
/// Bytes of the output that a sheet is put into.
pub const SHEET_OUTPUT: usize = library::SHEET_OUTPUT;

/// What a call answers: number 0 if accepted.
#[derive(Clone, Copy, Debug, PartialEq, Eq)]
pub struct Answer {
    pub number: u64,
    pub place: u64,
    pub records: u64,
    pub starred: u64,
}

/// A list that a call gives, with the slots past its count.
#[derive(Clone, Debug, PartialEq, Eq)]
pub struct List {
    pub count: u64,
    pub slots: [Value; SLOTS],
}

pub trait Calls {
    fn write(&self, case: &Writing, buffer: &mut [u8]) -> Answer;
    fn read(&self, case: &Reading, area: &mut [u8]) -> (Answer, List);
    fn check(&self, format: &[u8]) -> Answer;
    fn list_text(&self, text: &[u8]) -> (Answer, List);
    /// The bytes put at the start of the output.
    fn sheet(&self, input: &[u8], output: &mut [u8; SHEET_OUTPUT]) -> u64;
    fn host_write(&self, width: u64, format: &[u8], list_text: &[u8], buffer: &mut [u8]) -> i64;
    fn host_check(&self, format: &[u8]) -> i64;
}

impl Answer {
    pub fn accepted(counts: Counts) -> Answer {
        Answer { number: 0, place: 0, records: counts.records, starred: counts.starred }
    }

    /// A refusal carries "zero records, zero starred".
    pub fn refused(refusal: Refusal) -> Answer {
        Answer { number: refusal.number, place: refusal.place, records: 0, starred: 0 }
    }
}

impl List {
    /// Places past the count "hold integer 0 in a result".
    pub fn of(values: &[Value]) -> List {
        let slots = std::array::from_fn(|slot| values.get(slot).copied().unwrap_or(Value::Integer(0)));
        List { count: values.len() as u64, slots }
    }
}

pub struct Reference;

impl Calls for Reference {
    fn write(&self, case: &Writing, buffer: &mut [u8]) -> Answer {
        let Writing { width, format, elements, count, area, .. } = case;
        let answer = reference::write(*width, format, elements, *count, area, buffer);
        answer.map_or_else(Answer::refused, Answer::accepted)
    }

    fn read(&self, case: &Reading, area: &mut [u8]) -> (Answer, List) {
        match reference::read(case.width, &case.format, &case.wanted, case.count, area, &case.records) {
            Ok((counts, values)) => (Answer::accepted(counts), List::of(&values)),
            Err(refusal) => (Answer::refused(refusal), List::of(&[])),
        }
    }

    fn check(&self, format: &[u8]) -> Answer {
        let none = Counts { records: 0, starred: 0 };
        reference::check(format).map_or_else(Answer::refused, |()| Answer::accepted(none))
    }

    fn list_text(&self, text: &[u8]) -> (Answer, List) {
        let none = Counts { records: 0, starred: 0 };
        match reference::list_text(text) {
            Ok(elements) => (Answer::accepted(none), List::of(&elements)),
            Err(refusal) => (Answer::refused(refusal), List::of(&[])),
        }
    }

    fn sheet(&self, input: &[u8], output: &mut [u8; SHEET_OUTPUT]) -> u64 {
        let printed = reference::sheet(input);
        output[..printed.len()].copy_from_slice(&printed);
        printed.len() as u64
    }

    fn host_write(&self, width: u64, format: &[u8], list_text: &[u8], buffer: &mut [u8]) -> i64 {
        reference::host_write(width, format, list_text, buffer)
    }

    fn host_check(&self, format: &[u8]) -> i64 {
        reference::host_check(format)
    }
}

pub struct Library;

impl Calls for Library {
    fn write(&self, case: &Writing, buffer: &mut [u8]) -> Answer {
        let Writing { width, format, elements, count, area, .. } = case;
        let [number, place, records, starred] = library::answers::write(*width, format, elements, *count, area, buffer);
        Answer { number, place, records, starred }
    }

    fn read(&self, case: &Reading, area: &mut [u8]) -> (Answer, List) {
        let ([number, place, records, starred, count], slots) =
            library::answers::read(case.width, &case.format, &case.wanted, case.count, area, &case.records);
        (Answer { number, place, records, starred }, List { count, slots })
    }

    fn check(&self, format: &[u8]) -> Answer {
        let [number, place] = library::answers::check(format);
        Answer { number, place, records: 0, starred: 0 }
    }

    fn list_text(&self, text: &[u8]) -> (Answer, List) {
        let ([number, place, count], slots) = library::answers::list_text(text);
        (Answer { number, place, records: 0, starred: 0 }, List { count, slots })
    }

    fn sheet(&self, input: &[u8], output: &mut [u8; SHEET_OUTPUT]) -> u64 {
        let mut records = [b'?'; library::SHEET_RECORDS];
        library::answers::sheet(input, &mut records, output)
    }

    fn host_write(&self, width: u64, format: &[u8], list_text: &[u8], buffer: &mut [u8]) -> i64 {
        library::host_write(width, format, list_text, buffer)
    }

    fn host_check(&self, format: &[u8]) -> i64 {
        library::host_check(format)
    }
}
