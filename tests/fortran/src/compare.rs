//! The comparison of one sheet or one reading, and its verdict.

use crate::calls::{self, Counts, Refusal, Value};
use crate::compiler::Compiler;
use crate::differences::{self, Class, Got};
use crate::format;
use crate::generate::{Aim, Sheet};
use crate::models::{self, File, Foreseen, FILL};
use crate::readings::{self, Reading};
use crate::run::{Values, Written};
use crate::walk::{self, Met};

#[derive(Clone, Debug, PartialEq)]
pub enum Verdict {
    /// The same records, or both refuse.
    Same,
    /// Not the same, as these rules explain to the byte.
    Known(Vec<Class>),
    Unexplained(String),
}

/// What the library wrote: its answer and the whole buffer, FILL where untouched.
#[derive(Clone, Debug)]
pub struct Expected {
    pub answer: Result<Counts, Refusal>,
    pub file: Vec<u8>,
}

pub fn library_writes(sheet: &Sheet) -> Expected {
    let mut file = vec![FILL; (sheet.records * sheet.width) as usize];
    let text = format::text(&sheet.items);
    let count = sheet.elements.len() as u64;
    let answer = calls::write(sheet.width, &text, &sheet.elements, count, &sheet.area, &mut file);
    Expected { answer, file }
}

pub fn writing(compiler: Compiler, sheet: &Sheet, expected: &Expected, got: &Written) -> Verdict {
    if expected.answer.is_err() && expected.file.iter().any(|&byte| byte != FILL) {
        return Verdict::Unexplained("the library has refused and changed the buffer".to_string());
    }
    match (&sheet.aim, expected.answer) {
        (Aim::Accepted, Ok(counts)) => accepted(compiler, sheet, expected, counts, got),
        (Aim::RecordShort, Err(Refusal { number: 9, .. })) => both_refuse(got, "a record too few"),
        (Aim::MovePast(without), Err(Refusal { number: 8, .. })) => move_past(compiler, sheet, without, got),
        (Aim::FieldPast, Err(Refusal { number: 8, .. })) => field_past(compiler, sheet, got),
        (aim, answer) => Verdict::Unexplained(format!("made for {aim:?}, the library answers {answer:?}")),
    }
}

fn both_refuse(got: &Written, why: &str) -> Verdict {
    if got.iostat != 0 {
        return Verdict::Same;
    }
    Verdict::Unexplained(format!("the library refuses {why}"))
}

fn accepted(compiler: Compiler, sheet: &Sheet, expected: &Expected, counts: Counts, got: &Written) -> Verdict {
    if let Err(why) = whole(sheet, expected, counts) {
        return Verdict::Unexplained(why);
    }
    let same = got.iostat == 0 && got.file == expected.file;
    match models::written(compiler, sheet) {
        File::Written(file, _) if same && file == expected.file => Verdict::Same,
        _ if same => Verdict::Unexplained("a known difference does not show".to_string()),
        File::Written(file, classes) if got.iostat == 0 && got.file == file && !classes.is_empty() => {
            Verdict::Known(classes)
        }
        File::Refused(classes) if got.iostat != 0 => Verdict::Known(classes),
        _ => Verdict::Unexplained("the records differ".to_string()),
    }
}

/// The library's file against its own fields one by one, and its counts against its file.
fn whole(sheet: &Sheet, expected: &Expected, counts: Counts) -> Result<(), String> {
    if expected.file != models::asked(sheet) {
        return Err("the library's records are not its fields put one by one".to_string());
    }
    let width = sheet.width as usize;
    let reached = expected.file.chunks(width).filter(|record| record[0] != FILL).count() as u64;
    if reached != counts.records {
        return Err(format!("{} records counted, {reached} reached", counts.records));
    }
    let starred = stars(sheet, &expected.file);
    if starred.is_some_and(|starred| starred != counts.starred) {
        return Err(format!("{} starred fields counted, {starred:?} in the records", counts.starred));
    }
    Ok(())
}

/// Numeric fields that are all asterisks, where no column is covered twice.
pub fn stars(sheet: &Sheet, file: &[u8]) -> Option<u64> {
    let (steps, layout) = (sheet.steps(), sheet.layout());
    if walk::covered_twice(&layout.places) {
        return None;
    }
    let starred = layout.places.iter().filter(|place| {
        let Met::Field { element, .. } = steps[place.step] else { return false };
        let numeric = matches!(sheet.elements[element], Value::Integer(_) | Value::Decimal { .. });
        let at = (place.record * sheet.width + place.column) as usize;
        numeric && file[at..at + place.width as usize].iter().all(|&byte| byte == b'*')
    });
    Some(starred.count() as u64)
}

/// The compiler's file is foreseen to be that of the format without the last item.
fn move_past(compiler: Compiler, sheet: &Sheet, without: &[format::Item], got: &Written) -> Verdict {
    let plain = Sheet { items: without.to_vec(), aim: Aim::Accepted, ..sheet.clone() };
    if got.iostat != 0 {
        return Verdict::Same;
    }
    match models::written(compiler, &plain) {
        File::Written(file, classes) if library_writes(&plain).answer.is_ok() && file == got.file => {
            Verdict::Known([classes, vec![Class::MovePast]].concat())
        }
        _ => Verdict::Unexplained("X or T past the record has changed what is put".to_string()),
    }
}

/// gfortran and flang refuse; libf2c's file is foreseen to be that of a wide enough record, cut.
fn field_past(compiler: Compiler, sheet: &Sheet, got: &Written) -> Verdict {
    if compiler != Compiler::F2c || got.iostat != 0 {
        return both_refuse(got, "what passes the record");
    }
    let wide = Sheet { width: sheet.layout().narrowest, aim: Aim::Accepted, ..sheet.clone() };
    if let File::Written(file, classes) = models::written(compiler, &wide) {
        let records = file.chunks(wide.width as usize);
        let cut: Vec<u8> = records.flat_map(|record| record[..sheet.width as usize].to_vec()).collect();
        if cut == got.file {
            return Verdict::Known([classes, vec![Class::FieldCut]].concat());
        }
    }
    Verdict::Unexplained("not cut at the record's end".to_string())
}

/// What the library reads.
pub fn library_reads(reading: &Reading) -> Result<Vec<Got>, Refusal> {
    let lengths: u64 = reading.sheet.lengths().iter().sum();
    let mut area = vec![0; lengths as usize];
    let text = format::text(&reading.sheet.items);
    let wanted = &reading.sheet.elements;
    let result = calls::read(reading.width, &text, wanted, wanted.len() as u64, &mut area, &reading.records);
    let (_, values) = result?;
    Ok(values[..wanted.len()].iter().map(|&value| differences::got(value, &area)).collect())
}

pub fn reading(compiler: Compiler, reading: &Reading, expected: &Result<Vec<Got>, Refusal>, got: &Values) -> Verdict {
    let number = match (reading.aim, expected) {
        (_, Ok(_)) => 0,
        (_, Err(refusal)) => refusal.number,
    };
    match (reading.aim, number) {
        (readings::Aim::Fields, 0 | 12) => fields(compiler, reading, expected, got),
        (readings::Aim::RecordShort, 9) => record_short(compiler, reading, expected, got),
        (readings::Aim::FieldPast, 8) => padded(compiler, reading, got),
        (aim, _) => Verdict::Unexplained(format!("made for {aim:?}, the library gives {expected:?}")),
    }
}

fn fields(compiler: Compiler, reading: &Reading, expected: &Result<Vec<Got>, Refusal>, got: &Values) -> Verdict {
    let alike = match (expected, got) {
        (Ok(values), Some(others)) => same_values(values, others),
        (Err(_), None) => true,
        _ => false,
    };
    let meets_literal = reading.sheet.steps().iter().any(|step| matches!(step, Met::Literal(_)));
    if reading.literals && meets_literal && got.is_none() {
        return if alike { Verdict::Same } else { Verdict::Known(vec![Class::LiteralRead]) };
    }
    match (models::read(compiler, &reading.sheet, &reading.whole), got) {
        (Foreseen::Values(_, classes), _) if alike && classes.is_empty() => Verdict::Same,
        (Foreseen::Refused, _) if alike => Verdict::Same,
        _ if alike => Verdict::Unexplained("a known difference does not show".to_string()),
        (Foreseen::Values(values, classes), Some(others)) if same_values(&values, others) && !classes.is_empty() => {
            explained(classes, expected)
        }
        _ => Verdict::Unexplained("the values differ".to_string()),
    }
}

/// Every known difference in reading is a field that the rules refuse.
fn explained(classes: Vec<Class>, expected: &Result<Vec<Got>, Refusal>) -> Verdict {
    if expected.is_err() {
        return Verdict::Known(classes);
    }
    Verdict::Unexplained("the library accepts what the rules refuse".to_string())
}

/// flang lets a slash go past the last record if nothing is read there.
fn record_short(compiler: Compiler, reading: &Reading, expected: &Result<Vec<Got>, Refusal>, got: &Values) -> Verdict {
    let Some(others) = got else { return Verdict::Same };
    let all_taken = matches!(expected, Err(refusal) if refusal.place == reading.sheet.elements.len() as u64);
    match models::read(compiler, &reading.sheet, &reading.whole) {
        Foreseen::Values(values, classes)
            if same_values(&values, others) && all_taken && compiler == Compiler::Flang =>
        {
            Verdict::Known([classes, vec![Class::SlashPast]].concat())
        }
        _ => Verdict::Unexplained("read with a record too few".to_string()),
    }
}

/// Compilers take columns past the record as blanks.
fn padded(compiler: Compiler, reading: &Reading, got: &Values) -> Verdict {
    match (models::read(compiler, &reading.sheet, &reading.whole), got) {
        (Foreseen::Values(values, mut classes), Some(others)) if same_values(&values, others) => {
            classes.push(Class::Padded);
            Verdict::Known(classes)
        }
        (_, None) => Verdict::Same,
        _ => Verdict::Unexplained("not read as blanks past the record".to_string()),
    }
}

fn same_values(a: &[Got], b: &[Got]) -> bool {
    a.len() == b.len() && a.iter().zip(b).all(|(a, b)| same_value(a, b))
}

/// Doubles of the same value; the sign of zero is no part of a decimal.
fn same_value(a: &Got, b: &Got) -> bool {
    match (a, b) {
        (Got::Decimal(a), Got::Decimal(b)) => a == b || a.is_nan() && b.is_nan(),
        _ => a == b,
    }
}
