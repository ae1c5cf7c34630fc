//! Random cases for each call.

use crate::bytes::Bytes;
use crate::damage::damaged;
use crate::formats::format;
use crate::lists::{bad, list};
use random::Random;
use reference::format::Field;
use reference::trace::{trace, Content};
use reference::Value;
use std::fmt;

/// Bytes of the largest buffer in a case.
const LARGEST_BUFFER: usize = 70_000;

/// A call of writing; the buffer holds what is there before.
#[derive(Clone)]
pub struct Writing {
    pub width: u64,
    pub format: Vec<u8>,
    pub elements: Vec<Value>,
    pub count: u64,
    pub area: Vec<u8>,
    pub buffer: Vec<u8>,
}

/// A call of reading; the area holds what is there before.
#[derive(Clone)]
pub struct Reading {
    pub width: u64,
    pub format: Vec<u8>,
    pub wanted: Vec<Value>,
    pub count: u64,
    pub area: Vec<u8>,
    pub records: Vec<u8>,
}

impl fmt::Debug for Writing {
    fn fmt(&self, f: &mut fmt::Formatter) -> fmt::Result {
        f.debug_struct("Writing")
            .field("width", &self.width)
            .field("format", &Bytes(&self.format))
            .field("elements", &self.elements)
            .field("count", &self.count)
            .field("area", &Bytes(&self.area))
            .field("buffer", &Bytes(&self.buffer))
            .finish()
    }
}

impl fmt::Debug for Reading {
    fn fmt(&self, f: &mut fmt::Formatter) -> fmt::Result {
        f.debug_struct("Reading")
            .field("width", &self.width)
            .field("format", &Bytes(&self.format))
            .field("wanted", &self.wanted)
            .field("count", &self.count)
            .field("area", &Bytes(&self.area))
            .field("records", &Bytes(&self.records))
            .finish()
    }
}

pub fn writing(random: &mut Random) -> Writing {
    let format = format(random);
    let list = list(random, &format);
    let mut case =
        Writing { width: 255, format, elements: list.elements, count: list.count, area: list.area, buffer: Vec::new() };
    case.width = width(random, &case);
    let length = buffer_length(random, &case);
    case.buffer = random.bytes(length);
    case
}

/// A record width: mostly wide enough, often just so, seldom out of range.
fn width(random: &mut Random, case: &Writing) -> u64 {
    if random.chance(3) {
        return random.pick(&[0, 256, 257, 1 << 32, u64::MAX]);
    }
    let least = least_width(case);
    match random.below(100) {
        0..=44 => least,
        45..=74 => least.max(random.within(1..=255)),
        75..=84 => random.pick(&[255, 254, 132, 80]).max(least),
        85..=91 => (least - 1).max(1),
        _ => random.within(1..=255),
    }
}

/// The least width at which no column rule is broken, or 255.
fn least_width(case: &Writing) -> u64 {
    let (mut low, mut high) = (1, 255);
    while low < high {
        let middle = (low + high) / 2;
        if breaks_column(case, middle) {
            low = middle + 1;
        } else {
            high = middle;
        }
    }
    low
}

fn breaks_column(case: &Writing, width: u64) -> bool {
    trace(width, &case.format, &case.elements, case.count, &case.area, LARGEST_BUFFER)
        .is_err_and(|refusal| refusal.number == 8)
}

/// A buffer's length: mostly with room for the records, often just so, also
/// one byte short, less than a record, or empty.
fn buffer_length(random: &mut Random, case: &Writing) -> usize {
    let traced = trace(case.width, &case.format, &case.elements, case.count, &case.area, LARGEST_BUFFER);
    let records = traced.map_or(random.within(1..=5), |traced| traced.records as usize);
    let width = case.width.min(256) as usize;
    let needed = (records * width).min(LARGEST_BUFFER);
    match random.below(100) {
        0..=39 => needed,
        40..=83 => needed + random.below(3 * width + 1),
        84..=89 => needed.saturating_sub(1),
        90..=95 => random.below(needed + 1),
        96..=97 => random.below(width + 1),
        _ => 0,
    }
}

/// A call of reading under the format, width and kinds of a writing.
pub fn reading(random: &mut Random, written: &Writing) -> Reading {
    let (wanted, count) = wanted(random, written);
    let area = reading_area(random, &wanted, count);
    let records = records(random, written);
    Reading { width: written.width, format: written.format.clone(), wanted, count, area, records }
}

/// The kinds and lengths, with any starts and values; seldom a bad length, another kind or count.
fn wanted(random: &mut Random, written: &Writing) -> (Vec<Value>, u64) {
    let mut wanted = kinds(random, &written.elements);
    if !wanted.is_empty() && random.chance(4) {
        let at = random.below(wanted.len());
        let len = random.pick(&[0, 1, 64, 65, u64::MAX]);
        wanted[at] = if random.chance(70) { Value::Text { start: 0, len } } else { bad(random, 100) };
    }
    let other = random.pick(&[0, 1, 63, 64, 65, 1000, u64::MAX]);
    (wanted, if random.chance(3) { other } else { written.count })
}

/// The kinds and text lengths of the elements, with values and starts that reading ignores.
pub fn kinds(random: &mut Random, elements: &[Value]) -> Vec<Value> {
    let number = random.number();
    let kind = |&element: &Value| match element {
        Value::Integer(_) => Value::Integer(number as i64),
        Value::Decimal { .. } => Value::Decimal { units: number as i64, places: number },
        Value::Logical(_) => Value::Logical(number > 1 << 63),
        Value::Text { len, .. } => Value::Text { start: number, len },
    };
    elements.iter().map(kind).collect()
}

/// The length of the wanted texts end to end.
pub fn texts_length(wanted: &[Value], count: u64) -> u64 {
    let count = count.min(64) as usize;
    let lengths = wanted.iter().take(count).map(|value| match value {
        Value::Text { len, .. } => *len,
        _ => 0,
    });
    lengths.fold(0, u64::saturating_add)
}

fn reading_area(random: &mut Random, wanted: &[Value], count: u64) -> Vec<u8> {
    let needed = texts_length(wanted, count).min(5000) as usize;
    let length = match random.below(100) {
        0..=39 => needed,
        40..=84 => needed + random.below(50),
        85..=96 => needed.saturating_sub(random.within(1..=3)),
        _ => random.below(needed + 1),
    };
    random.bytes(length)
}

/// Records as written, with other fields, damaged, of noise, or of any bytes.
fn records(random: &mut Random, written: &Writing) -> Vec<u8> {
    let mut records = written.buffer.clone();
    let _ =
        reference::write(written.width, &written.format, &written.elements, written.count, &written.area, &mut records);
    match random.below(100) {
        0..=29 => records,
        30..=79 => refilled(random, written, records),
        80..=89 => damaged(random, records, NOISE),
        90..=96 => (0..records.len()).map(|_| random.pick(NOISE)).collect(),
        _ => random.bytes(records.len()),
    }
}

const NOISE: &[u8] = b"00112345678999     ++--..TTFF**tfAZ\x00\x1f\x7f\xff";

/// The records with most fields filled anew.
fn refilled(random: &mut Random, written: &Writing, mut records: Vec<u8>) -> Vec<u8> {
    let Writing { width, format, elements, count, area, .. } = written;
    let room = records.len() / (*width).max(1) as usize;
    let Ok(traced) = trace(*width, format, elements, *count, area, room) else { return records };
    let faults = if random.chance(25) { 10 } else { 0 };
    for placement in traced.placements {
        if let Content::Field { field, starred, .. } = placement.content {
            if starred || random.chance(70) {
                let filling = filling(random, field, placement.span.width, faults);
                records[placement.span.bytes(*width as usize)].copy_from_slice(&filling);
            }
        }
    }
    records
}

/// Bytes that a field of the kind may hold, with a fault in so many of a hundred.
fn filling(random: &mut Random, field: Field, w: usize, faults: usize) -> Vec<u8> {
    let mut bytes = match field {
        Field::Integer { .. } => numeral(random, w, false),
        Field::Decimal { .. } => numeral(random, w, true),
        Field::Logical { .. } => logical(random, w),
        Field::Text { .. } => random.printable(w),
    };
    if random.chance(faults) {
        let at = random.below(w);
        bytes[at] = random.pick(NOISE);
    }
    bytes
}

/// A sign or none and digits, for a decimal often with a point, and blanks anywhere.
fn numeral(random: &mut Random, w: usize, point: bool) -> Vec<u8> {
    let most = if random.chance(10) { w } else { w.min(20) };
    let least = usize::from(random.chance(98));
    let mut bytes: Vec<u8> = (0..random.within(least..=most)).map(|_| random.pick(b"00123456789")).collect();
    if bytes.len() > 18 && random.chance(90) {
        let zeros = bytes.len() - 18;
        bytes[..zeros].fill(b'0');
    }
    if point && random.chance(60) && bytes.len() < w {
        let most = if random.chance(95) { 9 } else { 11 };
        let at = bytes.len() - random.below(bytes.len().min(most) + 1);
        bytes.insert(at, b'.');
    }
    if !bytes.is_empty() && random.chance(40) && bytes.len() < w {
        bytes.insert(0, random.pick(b"+-"));
    }
    while bytes.len() < w {
        let at = if random.chance(80) { 0 } else { random.below(bytes.len() + 1) };
        bytes.insert(at, b' ');
    }
    bytes
}

fn logical(random: &mut Random, w: usize) -> Vec<u8> {
    let mut bytes = vec![b' '; random.below(w)];
    if bytes.len() + 1 < w && random.chance(30) {
        bytes.push(b'.');
    }
    bytes.push(random.pick(b"TF"));
    let rest = random.bytes(w - bytes.len());
    [bytes, rest].concat()
}

/// The list text of a writing's elements, seldom damaged, with lines repeated
/// or with an empty line at its end.
pub fn list_text(random: &mut Random, written: &Writing) -> Vec<u8> {
    let count = written.count.min(64) as usize;
    let elements = written.elements.iter().take(count);
    let mut lines: Vec<Vec<u8>> = elements.map(|&element| line(element, &written.area)).collect();
    if random.chance(3) && !lines.is_empty() {
        let length = random.within(63..=66);
        lines = lines.iter().cycle().take(length).cloned().collect();
    }
    let mut text = lines.join(&b'\n');
    if !lines.is_empty() && random.chance(50) {
        text.push(b'\n');
    }
    match random.below(100) {
        0..=9 => damaged(random, text, b"IDLATF   --+0123456789\n\n\r\x1f\x7f"),
        10 => [text, b"\n".to_vec()].concat(),
        _ => text,
    }
}

fn line(element: Value, area: &[u8]) -> Vec<u8> {
    match element {
        Value::Integer(n) => format!("I {n}").into_bytes(),
        Value::Decimal { units, places } => format!("D {units} {places}").into_bytes(),
        Value::Logical(b) => {
            if b {
                b"L T".to_vec()
            } else {
                b"L F".to_vec()
            }
        }
        Value::Text { start, len } => {
            let end = start.saturating_add(len).min(area.len() as u64);
            let text = area.get(start as usize..end as usize).unwrap_or_default();
            [b"A ", text].concat()
        }
    }
}

/// Input of program `trimsheet` whose records fill most of its buffer, or more.
pub fn tall_sheet(random: &mut Random) -> Vec<u8> {
    let width = random.within(1..=12);
    let least = 65_536 / width / 4082;
    let slashes = random.within(1..=16);
    let lines = random.within(least..=(least + 4).min(64));
    format!("{width}\n({slashes}(255/),I1)\n{}", "I 7\n".repeat(lines)).into_bytes()
}

/// Input of program `trimsheet`: a line with R, one with the format, a list text.
pub fn sheet_text(random: &mut Random, written: &Writing, list_text: &[u8]) -> Vec<u8> {
    let width = match random.below(20) {
        0 => random
            .pick(&["", "0", "000", "256", "999", "1000", "-1", "+1", " 20", "20 ", "20\r", "2O", "0020"])
            .to_string(),
        1..=3 => format!("{:03}", written.width),
        _ => format!("{}", written.width),
    };
    let mut input = [width.as_bytes(), b"\n", &written.format, b"\n", list_text].concat();
    if random.chance(3) {
        let end = random.below(input.len() + 1);
        input.truncate(end);
    }
    input
}
