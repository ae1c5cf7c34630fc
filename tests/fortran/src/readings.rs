//! Records to be read: sheets written by the library, then partly damaged.

use crate::calls;
use crate::compiler::Compiler;
use crate::format::Field;
use crate::generate::{self, Sheet};
use crate::models::{self, Foreseen};
use crate::values::Choice;
use crate::walk::{Met, Place};
use random::Random;

#[derive(Clone, Copy, Debug, PartialEq, Eq)]
pub enum Aim {
    /// To be read, or refused with 12.
    Fields,
    /// One record fewer than the walk reaches.
    RecordShort,
    /// Records cut one column short of a field.
    FieldPast,
}

#[derive(Clone, Debug)]
pub struct Reading {
    /// Format, kinds and lengths; its width and records are those of `whole`.
    pub sheet: Sheet,
    /// The records before any cut; a column cut off is blank here.
    pub whole: Vec<u8>,
    /// The records given, and their width.
    pub records: Vec<u8>,
    pub width: u64,
    /// Whether literals stay in the compiler's format.
    pub literals: bool,
    pub aim: Aim,
}

/// A reading that every compiler is foreseen to take in a known way; nine of ten as the rules do.
pub fn reading(rng: &mut Random, compiler: Compiler) -> Reading {
    let plain = !rng.one_in(10);
    loop {
        let reading = attempt(rng, compiler, plain);
        match models::read(compiler, &reading.sheet, &reading.whole) {
            Foreseen::Unsure => continue,
            Foreseen::Values(_, classes) if plain && !classes.is_empty() => continue,
            Foreseen::Refused if reading.aim != Aim::Fields => continue,
            _ => return reading,
        }
    }
}

fn attempt(rng: &mut Random, compiler: Compiler, plain: bool) -> Reading {
    let sheet = fitting(rng, compiler);
    let mut whole = vec![b' '; (sheet.width * sheet.records) as usize];
    let format = crate::format::text(&sheet.items);
    let count = sheet.elements.len() as u64;
    calls::write(sheet.width, &format, &sheet.elements, count, &sheet.area, &mut whole).expect("an accepted sheet");
    let fields = fields(&sheet);
    if !fields.is_empty() {
        for _ in 0..rng.pick(&[0, 1, 1, 2, 3, 6]) {
            let (place, field) = rng.pick(&fields);
            damage(rng, field, field_of(&mut whole, &sheet, place));
        }
        if !plain {
            let (place, field) = if rng.one_in(2) { fields[fields.len() - 1] } else { rng.pick(&fields) };
            odd(rng, field, field_of(&mut whole, &sheet, place));
        }
    }
    let literals = !plain && compiler == Compiler::Gfortran && rng.one_in(6);
    let (records, width) = (whole.clone(), sheet.width);
    let mut reading = Reading { sheet, whole, records, width, literals, aim: Aim::Fields };
    match rng.below(40) {
        0 if plain && compiler != Compiler::F2c => cut_record(&mut reading),
        1 if plain && !generate::loses_count(&reading.sheet, compiler) => cut_column(&mut reading),
        _ => {}
    }
    reading
}

/// A sheet whose numbers mostly fit, so that most readings come to their end.
fn fitting(rng: &mut Random, compiler: Compiler) -> Sheet {
    loop {
        let sheet = generate::accepted(rng, Choice { compiler, plain: true, reading: true });
        let starred = models::asked(&sheet).contains(&b'*');
        if sheet.elements.is_empty() && !rng.one_in(10) || starred && !rng.one_in(5) {
            continue;
        }
        return sheet;
    }
}

fn fields(sheet: &Sheet) -> Vec<(Place, Field)> {
    let steps = sheet.steps();
    let fields = sheet.layout().places.into_iter().filter_map(|place| match steps[place.step] {
        Met::Field { field, .. } => Some((place, field)),
        _ => None,
    });
    fields.collect()
}

fn field_of<'a>(records: &'a mut [u8], sheet: &Sheet, place: Place) -> &'a mut [u8] {
    let at = (place.record * sheet.width + place.column) as usize;
    &mut records[at..at + place.width as usize]
}

fn cut_record(reading: &mut Reading) {
    let reached = reading.sheet.layout().records;
    if reached > 1 {
        reading.records.truncate(((reached - 1) * reading.width) as usize);
        reading.aim = Aim::RecordShort;
    }
}

/// The width that the fields need, less one; the column cut off becomes blank in `whole`.
/// Not through a text, of which compilers make different things.
fn cut_column(reading: &mut Reading) {
    let width = reading.width as usize;
    let fields = fields(&reading.sheet);
    let ends = fields.iter().map(|(place, _)| place.column + place.width).max();
    let Some(end) = ends.filter(|&end| end > 1).map(|end| end as usize) else { return };
    let through = |(place, _): &&(Place, Field)| (place.column + place.width) as usize == end;
    if fields.iter().filter(through).any(|(_, field)| matches!(field, Field::Text { .. })) {
        return;
    }
    let mut cut = Vec::new();
    for record in reading.whole.chunks_mut(width) {
        record[end - 1..].fill(b' ');
        cut.extend_from_slice(&record[..end - 1]);
    }
    reading.records = cut;
    reading.width = end as u64 - 1;
    reading.aim = Aim::FieldPast;
}

/// Damage that all take alike: still a field, or refused.
fn damage(rng: &mut Random, field: Field, bytes: &mut [u8]) {
    let at = rng.below(bytes.len());
    match field {
        Field::Logical { .. } => bytes[at] = rng.pick(b"TTTFFF.. XY1*,"),
        Field::Text { .. } => bytes[at] = rng.within(32..=126),
        _ => match rng.below(9) {
            0 => move_blank(bytes, at),
            1 => zeros(bytes, b'0'),
            2 => plus(bytes),
            3 => move_point(rng, bytes),
            4 => bytes[at] = rng.pick(b"*ABCGHXZ/$"),
            5 => bytes.fill(b' '),
            6 => bytes[at] = b' ',
            _ => bytes[at] = rng.within(b'0'..=b'9'),
        },
    }
}

/// A leading blank goes to another place.
fn move_blank(bytes: &mut [u8], to: usize) {
    if bytes[0] == b' ' {
        bytes[..=to].rotate_left(1);
    }
}

/// Leading blanks become zeros, after the sign.
fn zeros(bytes: &mut [u8], zero: u8) {
    let Some(first) = bytes.iter().position(|&byte| byte != b' ') else { return };
    let sign = bytes[first];
    bytes[..first].fill(zero);
    if matches!(sign, b'-' | b'+') && first > 0 {
        bytes[first] = zero;
        bytes[0] = sign;
    }
}

fn plus(bytes: &mut [u8]) {
    if let Some(first) = bytes.iter().position(|&byte| byte != b' ') {
        if first > 0 && bytes[first] != b'-' {
            bytes[first - 1] = b'+';
        }
    }
}

fn move_point(rng: &mut Random, bytes: &mut [u8]) {
    let to = rng.below(bytes.len());
    match bytes.iter().position(|&byte| byte == b'.') {
        Some(point) => bytes.swap(point, to),
        None => bytes[to] = b'.',
    }
}

/// Contents that a compiler is known to take otherwise.
fn odd(rng: &mut Random, field: Field, bytes: &mut [u8]) {
    let width = bytes.len();
    let text: String = match field {
        Field::Logical { .. } => rng.pick(&["t", "f", ".t", ".fALSE.", "true"]).to_string(),
        Field::Integer { .. } => match rng.below(4) {
            0 => rng.pick(&["-", "+"]).to_string(),
            1 => format!("{},{}", rng.within(0..=99), rng.within(0..=9)),
            _ => format!("{}{}", rng.within(1..=9), "0".repeat(18)),
        },
        Field::Decimal { .. } => match rng.below(8) {
            0 => rng.pick(&["-", "+", ".", "-.", "+."]).to_string(),
            1 => format!("{}E{}", rng.within(0..=99), rng.within(0..=9)),
            2 => format!("{}.5{}{}", rng.within(0..=99), rng.pick(&["+", "-", "D-", "E+0", "d"]), rng.within(1..=9)),
            3 => rng.pick(&["INF", "NAN", "-INF"]).to_string(),
            4 => format!("{},5", rng.within(0..=99)),
            _ => format!(".{:010}", rng.within(1..=9_999_999_999u64)),
        },
        Field::Text { .. } => return,
    };
    if text.len() <= width {
        bytes.copy_from_slice(format!("{text:>width$}").as_bytes());
    }
}
