//! Random lists, mostly of elements that suit a format's fields.

use random::Random;
use reference::format::{Field, Format};
use reference::list::LARGEST;
use reference::trace::fields_met;
use reference::Value;

pub struct List {
    pub elements: Vec<Value>,
    pub count: u64,
    pub area: Vec<u8>,
}

/// A list for the format; seldom with a bad element, one that does not suit or
/// a count over 64.
pub fn list(random: &mut Random, format: &[u8]) -> List {
    let area = area(random);
    let count = count(random, format);
    let fields = fields_met(format, count);
    let narrow = random.chance(65);
    let mut elements: Vec<Value> = (0..count)
        .map(|element| {
            let field = fields.get(element).copied().unwrap_or_else(|| any_field(random));
            suitable(random, field, area.len(), narrow)
        })
        .collect();
    spoil(random, &mut elements, area.len());
    let mut count = count as u64;
    if random.chance(2) {
        count = random.pick(&[65, 65, 66, u64::MAX]);
    } else if random.chance(15) {
        follow(random, &mut elements, area.len());
    }
    List { elements, count, area }
}

/// Puts slots past the count, which are ignored.
fn follow(random: &mut Random, elements: &mut Vec<Value>, area: usize) {
    for _ in 0..random.within(0..=64 - elements.len()) {
        elements.push(bad(random, area));
    }
}

fn count(random: &mut Random, format: &[u8]) -> usize {
    // A large format is not walked many times, for the time it takes.
    let large = Format::parse(format).is_ok_and(|format| format.size() > 1000);
    match random.below(100) {
        0..=7 => 0,
        8..=69 => random.within(1..=6),
        70..=84 if !large => random.within(7..=30),
        85..=89 if !large => random.within(31..=62),
        90..=93 if !large => random.within(63..=64),
        _ => fields_met(format, 64).len().min(random.within(1..=8)),
    }
}

/// A text area; seldom with bytes that no text has.
fn area(random: &mut Random) -> Vec<u8> {
    let length = random.pick(&[0, 1, 63, 64, 65, 100, 100, 100, 100, 100, 150, 150, 200, 200]);
    let mut area = random.printable(length);
    if random.chance(10) && length > 0 {
        let at = random.below(length);
        area[at] = random.pick(&[0, 10, 31, 127, 128, 255]);
    }
    area
}

fn any_field(random: &mut Random) -> Field {
    let w = random.within(1..=9);
    random.pick(&[
        Field::Integer { w },
        Field::Decimal { w, d: w / 2 },
        Field::Logical { w },
        Field::Text { w: Some(w) },
    ])
}

/// An element of the field's kind; a narrow number mostly has a numeral there.
fn suitable(random: &mut Random, field: Field, area: usize, narrow: bool) -> Value {
    match field {
        Field::Integer { w } if narrow => Value::Integer(narrow_integer(random, w as usize)),
        Field::Integer { w } => Value::Integer(integer(random, w as usize)),
        Field::Decimal { w, d } => decimal(random, w as usize, d as usize, narrow),
        Field::Logical { .. } => Value::Logical(random.chance(50)),
        Field::Text { w } => text(random, w, area),
    }
}

fn narrow_integer(random: &mut Random, w: usize) -> i64 {
    if w == 1 || random.chance(30) {
        let digits = random.within(1..=w.min(18));
        return magnitude(random, digits);
    }
    let digits = random.within(1..=(w - 1).min(18));
    signed(random, digits)
}

/// A number that fits into the width, or is just too long, or any.
fn integer(random: &mut Random, w: usize) -> i64 {
    let digits = match random.below(10) {
        0..=5 => random.within(1..=w.min(18)),
        6..=7 => random.within(w.min(18)..=(w + 1).min(18)),
        _ => random.within(0..=18),
    };
    signed(random, digits)
}

fn signed(random: &mut Random, digits: usize) -> i64 {
    let magnitude = magnitude(random, digits);
    if random.chance(40) {
        -magnitude
    } else {
        magnitude
    }
}

/// A magnitude of so many digits at most: random, nines, a power of ten or near one.
fn magnitude(random: &mut Random, digits: usize) -> i64 {
    let power = 10_i64.pow(digits as u32);
    match random.below(10) {
        0 => power - 1,
        1 => (power / 10).max(1) - 1,
        2 => power / 10,
        _ => (random.number() % power as u64) as i64,
    }
}

/// A decimal for Fw.d: often one whose last digits decide the rounding.
fn decimal(random: &mut Random, w: usize, d: usize, narrow: bool) -> Value {
    if random.chance(3) {
        return near_largest(random, d);
    }
    if d < 9 && random.chance(8) {
        return near_zero(random, d);
    }
    let any = random.within(0..=9);
    let places = random.pick(&[d, (d + 1).min(9), (d + 2).min(9), any]);
    let shown = match random.below(10) {
        _ if narrow => random.within(0..=w.saturating_sub(2).min(18)),
        0..=6 => random.within(0..=w.saturating_sub(2)),
        7..=8 => random.within(w.saturating_sub(2)..=w + 1),
        _ => random.within(0..=18),
    };
    let dropped = places.saturating_sub(d);
    let added = d.saturating_sub(places);
    let kept = signed(random, shown.saturating_sub(added).min(18 - dropped));
    Value::Decimal { units: with_tail(random, kept, dropped), places: places as u64 }
}

/// The kept digits followed by digits that the rounding drops: often a half or
/// one unit beside it.
fn with_tail(random: &mut Random, kept: i64, dropped: usize) -> i64 {
    let power = 10_i64.pow(dropped as u32);
    let half = power / 2;
    let any = (random.number() % power as u64) as i64;
    let tail = random.pick(&[0, half, half, (half - 1).max(0), (half + 1).min(power - 1), power - 1, any]);
    let negative = kept < 0 || (kept == 0 && random.chance(40));
    let magnitude = kept.abs() * power + tail;
    if negative {
        -magnitude
    } else {
        magnitude
    }
}

/// A decimal that is rounded to zero, or just not, mostly from below.
fn near_zero(random: &mut Random, d: usize) -> Value {
    let units = random.pick(&[-1, -2, -4, -4, -5, -6, 0, 4]);
    Value::Decimal { units, places: d as u64 + 1 }
}

/// A decimal whose rounded units are the largest, just more, or much more.
fn near_largest(random: &mut Random, d: usize) -> Value {
    let places = random.within(0..=d);
    let most = LARGEST / 10_i64.pow((d - places) as u32);
    let units = random.pick(&[most, most + 1, LARGEST, most / 2 + 1]).min(LARGEST);
    Value::Decimal { units: if random.chance(50) { -units } else { units }, places: places as u64 }
}

fn text(random: &mut Random, w: Option<u64>, area: usize) -> Value {
    let w = w.unwrap_or(random.within(1..=9)) as usize;
    let len = match random.below(20) {
        0..=11 => random.within(1..=w.min(64)),
        12..=15 => random.within(w.min(64)..=(w + 5).min(64)),
        16..=17 => random.within(1..=64),
        _ => random.pick(&[1, 63, 64]),
    };
    let len = len.min(area.max(1));
    let start = random.below(area.saturating_sub(len) + 1);
    Value::Text { start: start as u64, len: len as u64 }
}

/// Seldom makes one element bad or of another kind.
fn spoil(random: &mut Random, elements: &mut [Value], area: usize) {
    if elements.is_empty() || random.chance(92) {
        return;
    }
    let at = random.below(elements.len());
    elements[at] = if random.chance(60) {
        bad(random, area)
    } else {
        let field = any_field(random);
        suitable(random, field, area, false)
    };
}

/// An element at a limit or past it.
pub fn bad(random: &mut Random, area: usize) -> Value {
    let magnitude = random.pick(&[LARGEST, LARGEST + 1, -LARGEST, -LARGEST - 1, i64::MAX, i64::MIN]);
    let places = random.pick(&[9, 10, 10, u64::MAX]);
    let area = area as u64;
    let start =
        random.pick(&[0, area.saturating_sub(64), area.saturating_sub(1), area, area + 1, u64::MAX - 1, u64::MAX]);
    let len = random.pick(&[0, 1, 64, 65, u64::MAX]);
    random.pick(&[
        Value::Integer(magnitude),
        Value::Decimal { units: magnitude, places: 0 },
        Value::Decimal { units: 7, places },
        Value::Text { start, len },
        Value::Text { start, len: 1 },
    ])
}
