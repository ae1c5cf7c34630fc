//! The list: its limits, the checks on it, and its text.

use crate::{Refusal, Value};

/// Most elements of a list.
pub const MOST: usize = 64;
/// Largest magnitude of an integer or of a decimal's units.
pub const LARGEST: i64 = 999_999_999_999_999_999;

/// The list to be written, or refusal 6.
pub(crate) fn checked_for_writing(elements: &[Value], count: u64, area: &[u8]) -> Result<Vec<Value>, Refusal> {
    checked(elements, count, |value| is_element(value, area))
}

/// The list wanted in reading, or refusal 6 or 13. "Kinds and lengths are all
/// that is looked at."
pub(crate) fn checked_for_reading(wanted: &[Value], count: u64, room: usize) -> Result<Vec<Value>, Refusal> {
    let wanted = checked(wanted, count, |value| (1..=64).contains(&text_length(value).unwrap_or(1)))?;
    let lengths: u64 = wanted.iter().copied().filter_map(text_length).sum();
    if lengths > room as u64 {
        return Err(Refusal::new(13, 0));
    }
    Ok(wanted)
}

/// The first `count` slots, if all are good; else refusal 6 at "the first such
/// element of the first 64; if none, 64".
fn checked(elements: &[Value], count: u64, good: impl Fn(Value) -> bool) -> Result<Vec<Value>, Refusal> {
    let slots = elements.iter().copied().chain(std::iter::repeat(Value::Integer(0)));
    let list: Vec<Value> = slots.take(count.min(MOST as u64) as usize).collect();
    if let Some(bad) = list.iter().position(|&value| !good(value)) {
        return Err(Refusal::new(6, bad));
    }
    if count > MOST as u64 {
        return Err(Refusal::new(6, MOST));
    }
    Ok(list)
}

fn text_length(value: Value) -> Option<u64> {
    match value {
        Value::Text { len, .. } => Some(len),
        _ => None,
    }
}

/// Whether the value is within an element's limits and the text area.
fn is_element(value: Value, area: &[u8]) -> bool {
    match value {
        Value::Integer(n) => within(n),
        Value::Decimal { units, places } => within(units) && places <= 9,
        Value::Logical(_) => true,
        Value::Text { start, len } => is_text(start, len, area),
    }
}

fn within(number: i64) -> bool {
    (-LARGEST..=LARGEST).contains(&number)
}

fn is_text(start: u64, len: u64, area: &[u8]) -> bool {
    if !(1..=64).contains(&len) || start > area.len() as u64 {
        return false;
    }
    let rest = &area[start as usize..];
    rest.get(..len as usize).is_some_and(|text| text.iter().all(|byte| (32..=126).contains(byte)))
}

/// The elements of a list text; a text is its place in the list text itself.
/// "A malformed element line is refusal 6 at that element."
pub fn list_text(text: &[u8]) -> Result<Vec<Value>, Refusal> {
    let mut elements = Vec::new();
    let mut rest = text;
    while !rest.is_empty() {
        let (line, after) = split_line(rest);
        let start = text.len() - rest.len();
        let element = element(line, start).filter(|&value| elements.len() < MOST && is_element(value, text));
        elements.push(element.ok_or(Refusal::new(6, elements.len()))?);
        rest = after;
    }
    Ok(elements)
}

/// The first line without its line feed, "which the last may lack", and what follows.
pub(crate) fn split_line(text: &[u8]) -> (&[u8], &[u8]) {
    match text.iter().position(|&byte| byte == b'\n') {
        Some(end) => (&text[..end], &text[end + 1..]),
        None => (text, &[]),
    }
}

/// "I and n; D, u and s; L and T or F; A and the text, single blanks between."
fn element(line: &[u8], start: usize) -> Option<Value> {
    match line {
        [b'I', b' ', n @ ..] => number(n).map(Value::Integer),
        [b'D', b' ', units @ .., b' ', s @ b'0'..=b'9'] => {
            Some(Value::Decimal { units: number(units)?, places: u64::from(s - b'0') })
        }
        b"L T" => Some(Value::Logical(true)),
        b"L F" => Some(Value::Logical(false)),
        [b'A', b' ', text @ ..] => Some(Value::Text { start: (start + 2) as u64, len: text.len() as u64 }),
        _ => None,
    }
}

/// "Numbers have an optional − and 1 to 18 digits."
fn number(characters: &[u8]) -> Option<i64> {
    let digits = characters.strip_prefix(b"-").unwrap_or(characters);
    if !(1..=18).contains(&digits.len()) || !digits.iter().all(u8::is_ascii_digit) {
        return None;
    }
    std::str::from_utf8(characters).ok()?.parse().ok()
}
