//! Fields written and read.

use crate::format::Field;
use crate::list::LARGEST;
use crate::walk::Settings;
use crate::Value;

/// A field's characters, and whether they are a numeric field's asterisks.
#[derive(Clone, Debug, PartialEq, Eq)]
pub struct Written {
    pub characters: Vec<u8>,
    pub starred: bool,
}

/// The field of width `w` for a value that suits it, under the settings met
/// before; nothing if the rounded units are too large.
pub fn write(field: Field, settings: Settings, value: Value, area: &[u8], w: usize) -> Option<Written> {
    match (field, value) {
        (Field::Integer { .. }, Value::Integer(n)) => {
            Some(fit(format!("{}{}", sign(n, settings), n.unsigned_abs()), w))
        }
        (Field::Decimal { d, .. }, Value::Decimal { units, places }) => {
            let units = rounded(units, places, d)?;
            Some(fit(decimal_numeral(sign(units, settings), units.unsigned_abs(), d as usize, w), w))
        }
        (Field::Logical { .. }, Value::Logical(b)) => Some(unstarred(logical(b, w))),
        (_, Value::Text { start, len }) => Some(unstarred(text(&area[start as usize..][..len as usize], w))),
        _ => unreachable!("the walk has seen that the kind suits"),
    }
}

/// The units of u / 10^s rounded to d places: "the nearest multiple of 10^−d,
/// halves away from zero". Nothing if they are too large.
pub fn rounded(units: i64, places: u64, d: u64) -> Option<i64> {
    let units = i128::from(units);
    let rounded = if d >= places {
        units * power_of_ten(d - places)
    } else {
        let power = power_of_ten(places - d);
        (units.abs() + power / 2) / power * units.signum()
    };
    (rounded.abs() <= i128::from(LARGEST)).then_some(rounded as i64)
}

fn power_of_ten(exponent: u64) -> i128 {
    10_i128.pow(exponent as u32)
}

/// The sign of a numeral for the number: "− exactly for a value below zero after
/// rounding"; for another "+" after SP, and none after SS or S.
fn sign(number: i64, settings: Settings) -> &'static str {
    match (number < 0, settings.plus) {
        (true, _) => "-",
        (false, true) => "+",
        (false, false) => "",
    }
}

/// The shortest numeral with this sign and d places, or one with a zero before
/// the point for the integer part 0 "where a column is free" in w, or where it
/// is the only digit.
fn decimal_numeral(sign: &str, magnitude: u64, d: usize, w: usize) -> String {
    let power = 10_u64.pow(d as u32);
    let (whole, part) = (magnitude / power, magnitude % power);
    let places = if d > 0 { format!("{part:0d$}") } else { String::new() };
    if whole == 0 && d > 0 && sign.len() + 2 + d > w {
        format!("{sign}.{places}")
    } else {
        format!("{sign}{whole}.{places}")
    }
}

/// The numeral right justified, or asterisks if it is longer than the field.
fn fit(numeral: String, w: usize) -> Written {
    let starred = numeral.len() > w;
    let characters = if starred { "*".repeat(w) } else { format!("{numeral:>w$}") };
    Written { characters: characters.into_bytes(), starred }
}

fn unstarred(characters: Vec<u8>) -> Written {
    Written { characters, starred: false }
}

/// "w − 1 blanks, then T or F."
fn logical(b: bool, w: usize) -> Vec<u8> {
    let letter = if b { "T" } else { "F" };
    format!("{letter:>w$}").into_bytes()
}

/// "Text of length m right justified if m ≤ w, else its first w characters."
fn text(text: &[u8], w: usize) -> Vec<u8> {
    let shown = &text[..text.len().min(w)];
    let mut characters = vec![b' '; w - shown.len()];
    characters.extend_from_slice(shown);
    characters
}

/// The value in a field's bytes, of the wanted kind; a text's characters go to
/// the end of `texts`, which is also where the text is in the area. Nothing if
/// the field is not as the rules say.
pub fn read(field: Field, wanted: Value, bytes: &[u8], texts: &mut Vec<u8>) -> Option<Value> {
    match (field, wanted) {
        (Field::Integer { .. }, _) => read_integer(bytes).map(Value::Integer),
        (Field::Decimal { d, .. }, _) => read_decimal(bytes, d),
        (Field::Logical { .. }, _) => read_logical(bytes).map(Value::Logical),
        (Field::Text { .. }, Value::Text { len, .. }) => {
            let start = texts.len() as u64;
            texts.extend(read_text(bytes, len as usize)?);
            Some(Value::Text { start, len })
        }
        _ => unreachable!("the walk has seen that the kind suits"),
    }
}

/// "Optional sign, one or more digits"; all blank is 0.
fn read_integer(bytes: &[u8]) -> Option<i64> {
    let characters = without_blanks(bytes);
    if characters.is_empty() {
        return Some(0);
    }
    let (negative, digits) = split_sign(&characters);
    signed(negative, digits)
}

/// "Optional sign, digits with at most one point, at least one digit; with a
/// point, places is the count after it, at most 9; without, places is d."
fn read_decimal(bytes: &[u8], d: u64) -> Option<Value> {
    let characters = without_blanks(bytes);
    if characters.is_empty() {
        return Some(Value::Decimal { units: 0, places: d });
    }
    let (negative, mut digits) = split_sign(&characters);
    let mut places = d;
    let joined;
    if let Some(point) = digits.iter().position(|&c| c == b'.') {
        places = (digits.len() - point - 1) as u64;
        joined = [&digits[..point], &digits[point + 1..]].concat();
        digits = &joined;
    }
    let units = signed(negative, digits)?;
    (places <= 9).then_some(Value::Decimal { units, places })
}

fn without_blanks(bytes: &[u8]) -> Vec<u8> {
    bytes.iter().copied().filter(|&byte| byte != b' ').collect()
}

/// Whether there is a minus, and what follows the sign or no sign.
fn split_sign(characters: &[u8]) -> (bool, &[u8]) {
    match characters {
        [b'-', rest @ ..] => (true, rest),
        [b'+', rest @ ..] => (false, rest),
        _ => (false, characters),
    }
}

/// The number that one or more digits make, negated after a minus; nothing if
/// there is no digit, or another character, or the magnitude is too large.
fn signed(negative: bool, digits: &[u8]) -> Option<i64> {
    if digits.is_empty() {
        return None;
    }
    let magnitude = digits.iter().try_fold(0, |number, &digit| {
        let next = i128::from(number) * 10 + i128::from(digit.checked_sub(b'0')?);
        (digit <= b'9' && next <= i128::from(LARGEST)).then_some(next as i64)
    })?;
    Some(if negative { -magnitude } else { magnitude })
}

/// "Blanks or none, an optional period, T or F, then anything."
fn read_logical(bytes: &[u8]) -> Option<bool> {
    let start = bytes.iter().position(|&byte| byte != b' ')?;
    match &bytes[start..] {
        [b'T', ..] | [b'.', b'T', ..] => Some(true),
        [b'F', ..] | [b'.', b'F', ..] => Some(false),
        _ => None,
    }
}

/// "If w ≥ m the last m characters, else the w characters followed by m − w
/// blanks; all w bytes 32 to 126."
fn read_text(bytes: &[u8], m: usize) -> Option<Vec<u8>> {
    if !bytes.iter().all(|byte| (32..=126).contains(byte)) {
        return None;
    }
    let mut text = bytes[bytes.len().saturating_sub(m)..].to_vec();
    text.resize(m, b' ');
    Some(text)
}
