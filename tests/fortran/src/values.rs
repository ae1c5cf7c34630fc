//! Random elements that suit a field and that a compiler's types can hold.

use crate::calls::Value;
use crate::compiler::Compiler;
use crate::differences::{self, Number};
use crate::exact;
use crate::format::Field;
use random::Random;

const LARGEST: i64 = 999_999_999_999_999_999;

/// How a sheet is chosen: a plain one shows no known difference of the compiler.
#[derive(Clone, Copy)]
pub struct Choice {
    pub compiler: Compiler,
    pub plain: bool,
    pub reading: bool,
}

/// An element for a field; `plus` tells whether the field is met after SP.
pub fn element(
    rng: &mut Random,
    (field, plus): (Field, bool),
    length: u64,
    choice: Choice,
    area: &mut Vec<u8>,
) -> Value {
    match field {
        Field::Integer { w } => Value::Integer(integer(rng, w, choice.compiler)),
        Field::Decimal { w, d } => decimal(rng, w, d, plus, choice),
        Field::Logical { .. } => Value::Logical(rng.one_in(2)),
        Field::Text { .. } => text(rng, length, area),
    }
}

/// The length of a text for a field: shorter, as long or longer than it.
pub fn text_length(rng: &mut Random, w: Option<u64>) -> u64 {
    let rare = rng.one_in(20);
    match w {
        None => rng.within(1..=if rare { 64 } else { 8 }),
        Some(w) if rng.one_in(3) => w,
        Some(w) => rng.within(1..=(w + 4).min(64)),
    }
}

fn text(rng: &mut Random, length: u64, area: &mut Vec<u8>) -> Value {
    let start = area.len() as u64;
    area.extend(rng.printable(length as usize));
    Value::Text { start, len: length }
}

/// Mostly a number that fits, sometimes one of any length.
fn integer(rng: &mut Random, w: u64, compiler: Compiler) -> i64 {
    if rng.one_in(15) {
        return 0;
    }
    let most = compiler.integer_digits();
    let digits = if rng.one_in(8) { rng.within(1..=most) } else { rng.within(1..=w.min(most)) };
    let n = with_digits(rng, digits);
    signed(rng, n)
}

/// A number of exactly `digits` digits, 1 to 18.
fn with_digits(rng: &mut Random, digits: u64) -> i64 {
    let low = 10i64.pow(digits as u32 - 1);
    match rng.below(12) {
        0 => low,
        1 => low * 10 - 1,
        _ => rng.within(low..=low * 10 - 1),
    }
}

fn signed(rng: &mut Random, n: i64) -> i64 {
    if rng.one_in(3) {
        -n
    } else {
        n
    }
}

fn decimal(rng: &mut Random, w: u64, d: u64, plus: bool, choice: Choice) -> Value {
    for _ in 0..200 {
        let (units, places) = match rng.below(8) {
            0 | 1 => half(rng, w, d),
            2 => near_half(rng, w, d),
            3 | 4 => dyadic(rng, w, d),
            _ => digits(rng, w, d),
        };
        if units.abs() > LARGEST || exact::at_places(units, places, d).is_none() {
            continue;
        }
        if !exact::is_held(units, places, d) {
            continue;
        }
        let number = Number { w, d, plus, units, places };
        if choice.plain && differences::decimal_written(choice.compiler, number).is_some() {
            continue;
        }
        return Value::Decimal { units, places };
    }
    Value::Decimal { units: 3, places: 0 }
}

/// Digits before the point: mostly at most as many as the field has room for.
fn whole_digits(rng: &mut Random, w: u64, d: u64) -> u64 {
    let most = if rng.one_in(4) { 17 - d } else { 8 };
    let room = w.saturating_sub(d + 1).min(most);
    if rng.one_in(8) {
        rng.within(0..=most)
    } else {
        rng.within(0..=room)
    }
}

/// A number below 10^whole, of any magnitude.
fn below_power(rng: &mut Random, whole: u64) -> i64 {
    let digits = rng.within(0..=whole);
    if digits == 0 {
        return 0;
    }
    with_digits(rng, digits)
}

/// A half at d places that a double holds: an odd number of 2^-(d + 1).
fn half(rng: &mut Random, w: u64, d: u64) -> (i64, u64) {
    if d == 9 {
        return dyadic(rng, w, d);
    }
    let whole = whole_digits(rng, w, d).min(17 - (d + 1));
    let parts = 1i64 << (d + 1);
    let odd = (below_power(rng, whole) * parts + rng.within(0..=parts - 1)) | 1;
    let units = odd * 5i64.pow(d as u32 + 1);
    (signed(rng, units), d + 1)
}

/// A little less or more than a half at d places.
fn near_half(rng: &mut Random, w: u64, d: u64) -> (i64, u64) {
    if d > 7 {
        return dyadic(rng, w, d);
    }
    let s = rng.within(d + 2..=9);
    let whole = whole_digits(rng, w, d).min(17 - s);
    let number = below_power(rng, whole + d) * 10 + 5;
    let little = rng.within(1..=5);
    let units = number * 10i64.pow((s - d - 1) as u32) + if rng.one_in(2) { little } else { -little };
    (signed(rng, units), s)
}

/// A whole number of 2^-t, with s places, t at most s.
fn dyadic(rng: &mut Random, w: u64, d: u64) -> (i64, u64) {
    let s = rng.within(0..=9);
    let t = rng.within(0..=s);
    let parts = 1i64 << t;
    let whole = whole_digits(rng, w, d).min(17 - s);
    let number = below_power(rng, whole) * parts + rng.within(0..=parts - 1);
    let units = number * 5i64.pow(t as u32) * 10i64.pow((s - t) as u32);
    (signed(rng, units), s)
}

/// Any digits, also more than a double holds.
fn digits(rng: &mut Random, w: u64, d: u64) -> (i64, u64) {
    let s = rng.within(0..=9);
    let whole = whole_digits(rng, w, d);
    let units = below_power(rng, (whole + s).min(18));
    (signed(rng, units), s)
}
