//! 'Stars and reading back' of the rules: asterisks exactly where no numeral stands for the rounded value,
//! and records that read back as the shown values.

use crate::calls::{Answer, Calls, List};
use crate::cases::{kinds, texts_length, Reading, Writing};
use random::Random;
use reference::format::Field;
use reference::trace::{trace, Content, Placement, Shown, Trace};
use reference::walk::Settings;
use reference::{Counts, Refusal, Value};

/// How an accepted writing was looked at.
#[derive(Clone, Copy, Debug, PartialEq, Eq)]
pub enum Outcome {
    ReadBack,
    RefusedForStars,
    CoveredTwice,
}

/// The trace of a writing.
pub fn traced(case: &Writing) -> Result<Trace, Refusal> {
    let room = case.buffer.len() / case.width.max(1) as usize;
    trace(case.width, &case.format, &case.elements, case.count, &case.area, room)
}

/// Checks 'Stars and reading back' on an accepted writing; `buffer` is as the writing left it.
pub fn check(
    random: &mut Random,
    calls: &impl Calls,
    case: &Writing,
    answer: Answer,
    buffer: &[u8],
    traced: &Trace,
) -> Result<Outcome, String> {
    check_stars(traced, answer)?;
    if traced.covers_twice() {
        return Ok(Outcome::CoveredTwice);
    }
    check_asterisks(traced, case.width as usize, buffer)?;
    check_reading(random, calls, case, answer, buffer, traced)
}

/// "The starred number in the result is the number of these fields."
fn check_stars(traced: &Trace, answer: Answer) -> Result<(), String> {
    let starred = traced.placements.iter().filter(|placement| must_star(placement)).count();
    for placement in &traced.placements {
        check_rounding(placement)?;
    }
    if starred as u64 != answer.starred {
        return Err(format!("{} starred, where {starred} values have no numeral", answer.starred));
    }
    Ok(())
}

/// Whether the placement is a numeric field whose rounded value has no numeral.
fn must_star(placement: &Placement) -> bool {
    match &placement.content {
        Content::Field { field, settings, shown: Shown::Value(value), .. } => !has_numeral(*field, *settings, *value),
        _ => false,
    }
}

/// Whether some numeral of the field's width that the settings permit stands
/// for the value: a column goes to a minus, one to a plus after SP and one to
/// the point; the rest are digits, at least d of them and at least one, and
/// reach every magnitude below their power of ten.
fn has_numeral(field: Field, settings: Settings, value: Value) -> bool {
    let (w, d, point, number) = match (field, value) {
        (Field::Integer { w }, Value::Integer(n)) => (w, 0, 0, n),
        (Field::Decimal { w, d }, Value::Decimal { units, .. }) => (w, d, 1, units),
        _ => return true,
    };
    let digits = w as i64 - point - i64::from(number < 0 || settings.plus);
    let power = 10_u64.pow(digits.clamp(0, 18) as u32);
    digits >= 1 && digits >= d as i64 && number.unsigned_abs() < power
}

/// "The nearest multiple of 10^−d, halves away from zero": twice the distance
/// is at most a step, and at a half the rounded magnitude is the larger one.
fn check_rounding(placement: &Placement) -> Result<(), String> {
    let Content::Field { value: Value::Decimal { units, places }, shown: Shown::Value(shown), .. } = &placement.content
    else {
        return Ok(());
    };
    let Value::Decimal { units: rounded, places: d } = shown else { return Err(format!("shown {shown:?}")) };
    let exact = i128::from(*units) * 10_i128.pow(*d as u32);
    let near = i128::from(*rounded) * 10_i128.pow(*places as u32);
    let step = 10_i128.pow(*places as u32);
    let twice = 2 * (near - exact).abs();
    if twice < step || (twice == step && near.abs() > exact.abs()) {
        return Ok(());
    }
    Err(format!("{units}/{places} rounded to {rounded}/{d}"))
}

/// Numeric fields hold asterisks exactly where they must, and the sign that their value asks for.
fn check_asterisks(traced: &Trace, width: usize, buffer: &[u8]) -> Result<(), String> {
    for placement in &traced.placements {
        let numeric =
            matches!(placement.content, Content::Field { field: Field::Integer { .. } | Field::Decimal { .. }, .. });
        let bytes = &buffer[placement.span.bytes(width)];
        let asterisks = bytes.iter().all(|&byte| byte == b'*');
        if numeric && asterisks != must_star(placement) {
            return Err(format!("{:?} for {placement:?}", bytes.escape_ascii().to_string()));
        }
        if numeric && !asterisks && !has_its_sign(placement, bytes) {
            return Err(format!("{:?} with a wrong sign for {placement:?}", bytes.escape_ascii().to_string()));
        }
    }
    Ok(())
}

/// Whether the numeral has "− exactly for a value below zero after rounding", + exactly for another after SP.
fn has_its_sign(placement: &Placement, bytes: &[u8]) -> bool {
    let Content::Field { settings, shown: Shown::Value(shown), .. } = &placement.content else { return true };
    let below = matches!(shown, Value::Integer(n) | Value::Decimal { units: n, .. } if *n < 0);
    bytes.contains(&b'-') == below && bytes.contains(&b'+') == (settings.plus && !below)
}

/// Reads the records back, "whatever bytes follow them".
fn check_reading(
    random: &mut Random,
    calls: &impl Calls,
    case: &Writing,
    answer: Answer,
    buffer: &[u8],
    traced: &Trace,
) -> Result<Outcome, String> {
    let reading = reading(random, case, answer, buffer);
    let mut area = reading.area.clone();
    let actual = calls.read(&reading, &mut area);
    let mut expected_area = reading.area.clone();
    let expected = expected(traced, &mut expected_area);
    if (&actual, &area) != (&expected, &expected_area) {
        return Err(format!("read back as {actual:?}, not {expected:?}; {reading:?}; area after {area:?}"));
    }
    let starred = expected.0.number != 0;
    Ok(if starred { Outcome::RefusedForStars } else { Outcome::ReadBack })
}

fn reading(random: &mut Random, case: &Writing, answer: Answer, buffer: &[u8]) -> Reading {
    let written = (answer.records * case.width) as usize;
    let following = random.below(2 * case.width as usize + 1);
    let records = [&buffer[..written], &random.bytes(following)].concat();
    let wanted = kinds(random, &case.elements);
    let spare = random.below(20);
    let area = random.bytes(texts_length(&wanted, case.count) as usize + spare);
    Reading { width: case.width, format: case.format.clone(), wanted, count: case.count, area, records }
}

/// "Exactly the whole list of shown values and the same number of records", or
/// "12 at the element of the first starred one in list order".
fn expected(traced: &Trace, area: &mut [u8]) -> (Answer, List) {
    if let Some(element) = first_starred(traced) {
        let refusal = Refusal { number: 12, place: element as u64 };
        return (Answer::refused(refusal), List::of(&[]));
    }
    let mut laid = 0;
    let mut values = Vec::new();
    for placement in &traced.placements {
        match &placement.content {
            Content::Literal => {}
            Content::Field { shown: Shown::Value(value), .. } => values.push(*value),
            Content::Field { shown: Shown::Text(text), .. } => {
                values.push(Value::Text { start: laid as u64, len: text.len() as u64 });
                area[laid..][..text.len()].copy_from_slice(text);
                laid += text.len();
            }
        }
    }
    (Answer::accepted(Counts { records: traced.records, starred: 0 }), List::of(&values))
}

fn first_starred(traced: &Trace) -> Option<usize> {
    let starred = traced.placements.iter().filter(|placement| must_star(placement));
    starred
        .filter_map(|placement| match placement.content {
            Content::Field { element, .. } => Some(element),
            Content::Literal => None,
        })
        .min()
}

#[cfg(test)]
mod tests {
    use super::*;
    use std::collections::BTreeSet;

    /// The value that the characters stand for under the rules' words on
    /// numerals, or nothing: blanks, a sign or none, digits and a point. After
    /// SP one for a value of zero or more has to carry a plus.
    fn stands_for(characters: &[u8], d: Option<usize>, plus: bool) -> Option<i64> {
        let text = std::str::from_utf8(characters).unwrap().trim_start_matches(' ');
        let unsigned = text.strip_prefix(['+', '-']).unwrap_or(text);
        let digits = match d {
            None => unsigned.to_string(),
            Some(d) => {
                let (whole, places) = unsigned.split_once('.')?;
                if places.len() != d {
                    return None;
                }
                format!("{whole}{places}")
            }
        };
        if digits.is_empty() || !digits.bytes().all(|byte| byte.is_ascii_digit()) {
            return None;
        }
        let number: i64 = digits.parse().unwrap();
        let number = if text.starts_with('-') { -number } else { number };
        let permitted = !plus || number < 0 || text.starts_with('+');
        permitted.then_some(number)
    }

    fn all_values(w: usize, d: Option<usize>, plus: bool) -> BTreeSet<i64> {
        const CHARACTERS: &[u8] = b" +-.0123456789";
        let texts = CHARACTERS.len().pow(w as u32);
        let text = |mut number: usize| -> Vec<u8> {
            (0..w)
                .map(|_| {
                    let character = CHARACTERS[number % CHARACTERS.len()];
                    number /= CHARACTERS.len();
                    character
                })
                .collect()
        };
        (0..texts).filter_map(|number| stands_for(&text(number), d, plus)).collect()
    }

    #[test]
    fn numerals_by_enumeration() {
        for plus in [false, true] {
            for w in 1..=4 {
                enumerated(w, Settings { plus });
            }
        }
    }

    fn enumerated(w: usize, settings: Settings) {
        let told = |field: &str, n: i64| format!("{field} {n} {settings:?}");
        let integers = all_values(w, None, settings.plus);
        for n in -11_000..11_000 {
            let field = Field::Integer { w: w as u64 };
            let found = has_numeral(field, settings, Value::Integer(n));
            assert_eq!(found, integers.contains(&n), "{}", told(&format!("I{w}"), n));
        }
        for d in 0..=4 {
            let decimals = all_values(w, Some(d), settings.plus);
            for units in -11_000..11_000 {
                let field = Field::Decimal { w: w as u64, d: d as u64 };
                let value = Value::Decimal { units, places: d as u64 };
                let found = has_numeral(field, settings, value);
                assert_eq!(found, decimals.contains(&units), "{}", told(&format!("F{w}.{d}"), units));
            }
        }
    }
}
