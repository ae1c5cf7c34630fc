//! The comparison itself: results that are corrupted, the library's or the compiler's, must be noticed, each one.

use std::collections::BTreeMap;

use crate::calls::Refusal;
use crate::compare::{self, Expected, Verdict};
use crate::compiler::Compiler;
use crate::differences::Got;
use crate::generate::{self, Sheet};
use crate::models::FILL;
use crate::program;
use crate::readings::{self, Reading};
use crate::run::{self, Folder, Values, Written};
use crate::BATCH;
use random::Random;

/// For each corruption how often it was tried and how often noticed.
type Tally = BTreeMap<&'static str, (u64, u64)>;

pub fn run(name: &str) -> Result<(), String> {
    let compiler = Compiler::named(name).ok_or_else(|| format!("no compiler {name} here"))?;
    let seed = random::clock_seed();
    println!("self-test with {name}, seed {seed}");
    let mut rng = Random::new(seed);
    let folder = Folder::new()?;
    let mut tally = Tally::new();
    test_writing(&folder, compiler, &mut rng, &mut tally)?;
    test_reading(&folder, compiler, &mut rng, &mut tally)?;
    for (what, (tried, noticed)) in &tally {
        println!("  {what}: {noticed} of {tried} noticed");
    }
    if tally.len() < WRITING.len() * 2 + COUNTS + READING.len() * 2 {
        return Err("not every corruption was tried".to_string());
    }
    if tally.values().any(|(tried, noticed)| tried != noticed) {
        return Err("a corruption was not noticed".to_string());
    }
    Ok(())
}

fn tell(tally: &mut Tally, what: &'static str, verdict: Verdict) {
    let entry = tally.entry(what).or_default();
    entry.0 += 1;
    entry.1 += u64::from(matches!(verdict, Verdict::Unexplained(_)));
}

/// A file corrupted, if it has what is to be corrupted.
type Corrupt = fn(&[u8], usize) -> Option<Vec<u8>>;

/// Each with its name where the library's file is corrupted, and where the compiler's is.
const WRITING: [(&str, &str, Corrupt); 6] = [
    ("library: a column shifted", "compiler: a column shifted", shifted),
    ("library: a digit changed", "compiler: a digit changed", digit),
    ("library: an asterisk fewer", "compiler: an asterisk fewer", asterisk),
    ("library: a plus left out", "compiler: a plus left out", no_plus),
    ("library: a minus in place of a plus", "compiler: a minus in place of a plus", minus_for_plus),
    ("library: a record untouched", "compiler: a record untouched", untouched),
];

/// Corruptions of the library's counts and answer, and of the compiler's IOSTAT.
const COUNTS: usize = 4;

fn shifted(file: &[u8], width: usize) -> Option<Vec<u8>> {
    let mut out = file.to_vec();
    let record = out.chunks_mut(width).find(|record| record.windows(2).any(|pair| pair[0] != pair[1]))?;
    record.rotate_right(1);
    Some(out)
}

fn digit(file: &[u8], _width: usize) -> Option<Vec<u8>> {
    let mut out = file.to_vec();
    let digit = out.iter_mut().find(|byte| byte.is_ascii_digit())?;
    *digit = if *digit == b'9' { b'0' } else { *digit + 1 };
    Some(out)
}

fn asterisk(file: &[u8], _width: usize) -> Option<Vec<u8>> {
    let mut out = file.to_vec();
    *out.iter_mut().find(|byte| **byte == b'*')? = b' ';
    Some(out)
}

fn no_plus(file: &[u8], _width: usize) -> Option<Vec<u8>> {
    with_sign(file, b' ')
}

fn minus_for_plus(file: &[u8], _width: usize) -> Option<Vec<u8>> {
    with_sign(file, b'-')
}

/// Another byte in place of a number's plus.
fn with_sign(file: &[u8], byte: u8) -> Option<Vec<u8>> {
    let mut out = file.to_vec();
    let number = |pair: &[u8]| pair[0] == b'+' && (pair[1].is_ascii_digit() || pair[1] == b'.');
    let at = out.windows(2).position(number)?;
    out[at] = byte;
    Some(out)
}

fn untouched(file: &[u8], width: usize) -> Option<Vec<u8>> {
    let mut out = file.to_vec();
    let record = out.chunks_mut(width).rfind(|record| record[0] != FILL)?;
    record.fill(FILL);
    Some(out)
}

fn test_writing(folder: &Folder, compiler: Compiler, rng: &mut Random, tally: &mut Tally) -> Result<(), String> {
    let batch: Vec<_> = (0..BATCH).map(|_| generate::sheet(rng, compiler)).collect();
    let source = program::writing(compiler, &batch);
    let output = run::run(folder, compiler, &source, &program::writing_data(compiler, &batch))?;
    for (sheet, got) in batch.iter().zip(run::written(&output, &batch)?) {
        let expected = compare::library_writes(sheet);
        if expected.answer.is_ok() && got.iostat == 0 {
            corrupt_files(compiler, sheet, &expected, &got, tally);
            corrupt_answers(compiler, sheet, &expected, &got, tally);
        }
    }
    Ok(())
}

fn corrupt_files(compiler: Compiler, sheet: &Sheet, expected: &Expected, got: &Written, tally: &mut Tally) {
    let width = sheet.width as usize;
    for (of_library, of_compiler, corrupt) in WRITING {
        if let Some(file) = corrupt(&expected.file, width) {
            let wrong = Expected { file, ..expected.clone() };
            tell(tally, of_library, compare::writing(compiler, sheet, &wrong, got));
        }
        if let Some(file) = corrupt(&got.file, width) {
            let wrong = Written { file, ..got.clone() };
            tell(tally, of_compiler, compare::writing(compiler, sheet, expected, &wrong));
        }
    }
}

fn corrupt_answers(compiler: Compiler, sheet: &Sheet, expected: &Expected, got: &Written, tally: &mut Tally) {
    let Ok(counts) = expected.answer else { return };
    let mut with_answer = |what, answer| {
        let wrong = Expected { answer, ..expected.clone() };
        tell(tally, what, compare::writing(compiler, sheet, &wrong, got));
    };
    with_answer("library: a record more counted", Ok(crate::calls::Counts { records: counts.records + 1, ..counts }));
    with_answer("library: refused", Err(Refusal { number: 8, place: 0 }));
    if compare::stars(sheet, &expected.file).is_some() {
        with_answer("library: a star more counted", Ok(crate::calls::Counts { starred: counts.starred + 1, ..counts }));
    }
    let wrong = Written { iostat: 1, ..got.clone() };
    tell(tally, "compiler: refused", compare::writing(compiler, sheet, expected, &wrong));
}

/// Values, or a refusal, corrupted, if there is what is to be corrupted.
type CorruptValues = fn(&Values) -> Option<Values>;

const READING: [(&str, &str, CorruptValues); 5] = [
    ("library: a value read changed", "compiler: a value read changed", value),
    ("library: a decimal read changed in its last bit", "compiler: a decimal read changed in its last bit", last_bit),
    ("library: two values read exchanged", "compiler: two values read exchanged", exchanged),
    ("library: a field read refused", "compiler: a field read refused", refused),
    ("library: a refused field read as 0", "compiler: a refused field read as 0", accepted),
];

fn value(values: &Values) -> Option<Values> {
    let mut out = values.clone()?;
    match out.last_mut()? {
        Got::Integer(n) => *n += 1,
        Got::Decimal(x) => *x += x.abs() + 1.0,
        Got::Logical(truth) => *truth = !*truth,
        Got::Text(text) => text[0] ^= 1,
    }
    Some(Some(out))
}

fn last_bit(values: &Values) -> Option<Values> {
    let mut out = values.clone()?;
    let changed = out.iter_mut().find_map(|value| match value {
        Got::Decimal(x) if x.is_finite() && *x != 0.0 => Some(x),
        _ => None,
    });
    let x = changed?;
    *x = f64::from_bits(x.to_bits() ^ 1);
    Some(Some(out))
}

fn exchanged(values: &Values) -> Option<Values> {
    let mut out = values.clone()?;
    let at = (1..out.len()).find(|&at| out[at] != out[at - 1] && !zeros(&out[at - 1..=at]))?;
    out.swap(at - 1, at);
    Some(Some(out))
}

/// NAN or zeros of any sign, which count as equal.
fn zeros(values: &[Got]) -> bool {
    values.iter().all(|value| matches!(value, Got::Decimal(x) if *x == 0.0 || x.is_nan()))
}

fn refused(values: &Values) -> Option<Values> {
    values.as_ref().map(|_| None)
}

fn accepted(values: &Values) -> Option<Values> {
    values.is_none().then(|| Some(Vec::new()))
}

fn test_reading(folder: &Folder, compiler: Compiler, rng: &mut Random, tally: &mut Tally) -> Result<(), String> {
    let batch: Vec<_> = (0..BATCH).map(|_| readings::reading(rng, compiler)).collect();
    let source = program::reading(compiler, &batch);
    let output = run::run(folder, compiler, &source, &program::reading_data(compiler, &batch))?;
    for (reading, got) in batch.iter().zip(run::read(&output, &batch)?) {
        let expected = compare::library_reads(reading);
        let plain = compare::reading(compiler, reading, &expected, &got) == Verdict::Same;
        if reading.aim == readings::Aim::Fields && plain && !reading.literals {
            corrupt_values(compiler, reading, &expected, &got, tally);
        }
    }
    Ok(())
}

fn corrupt_values(
    compiler: Compiler,
    reading: &Reading,
    expected: &Result<Vec<Got>, Refusal>,
    got: &Values,
    tally: &mut Tally,
) {
    let zeros = || vec![Got::Integer(0); reading.sheet.elements.len()];
    let filled = |values: Values| values.map(|values| if values.is_empty() { zeros() } else { values });
    for (of_library, of_compiler, corrupt) in READING {
        if let Some(values) = corrupt(&expected.clone().ok()) {
            let wrong = filled(values).ok_or(Refusal { number: 12, place: 0 });
            tell(tally, of_library, compare::reading(compiler, reading, &wrong, got));
        }
        if let Some(values) = corrupt(got) {
            let wrong = filled(values);
            tell(tally, of_compiler, compare::reading(compiler, reading, expected, &wrong));
        }
    }
}
