//! Counts of verdicts and of what the sheets had, examples of known differences, and unexplained ones in full.

use std::collections::BTreeMap;

use crate::calls::{Refusal, Value};
use crate::compare::{Expected, Verdict};
use crate::differences::{Class, Got};
use crate::format;
use crate::generate::Sheet;
use crate::models::FILL;
use crate::readings::Reading;
use crate::run::{Values, Written};

/// The share of exactly equal sheets that is demanded, in percent.
const LEAST: u64 = 80;

/// Unexplained differences that are shown in full.
const SHOWN: u64 = 20;

#[derive(Default)]
pub struct Report {
    /// Sheets accepted by the library; readings accepted, or refused with 12.
    pub compared: u64,
    equal: u64,
    /// Those that the library refuses for columns or records.
    others: u64,
    others_refused: u64,
    traits: BTreeMap<&'static str, u64>,
    classes: BTreeMap<Class, (u64, String)>,
    unexplained: u64,
}

impl Report {
    pub fn count(&mut self, compared: bool, verdict: &Verdict, show: impl Fn() -> String) {
        let same = u64::from(*verdict == Verdict::Same);
        if compared {
            self.compared += 1;
            self.equal += same;
        } else {
            self.others += 1;
            self.others_refused += same;
        }
        match verdict {
            Verdict::Same => {}
            Verdict::Known(classes) => self.known(classes.clone(), show()),
            Verdict::Unexplained(why) => {
                self.unexplained += 1;
                if self.unexplained <= SHOWN {
                    println!("UNEXPLAINED: {why}\n{}", show());
                }
            }
        }
    }

    /// Counts each class once, and keeps the shortest example of a class alone.
    fn known(&mut self, mut classes: Vec<Class>, example: String) {
        classes.sort();
        classes.dedup();
        for &class in &classes {
            let (count, shortest) = self.classes.entry(class).or_default();
            *count += 1;
            if classes.len() == 1 && (shortest.is_empty() || example.len() < shortest.len()) {
                *shortest = example.clone();
            }
        }
    }

    pub fn have(&mut self, traits: &[(&'static str, bool)]) {
        for &(name, present) in traits {
            *self.traits.entry(name).or_default() += u64::from(present);
        }
    }

    pub fn print(&self, what: &str, examples: bool) {
        println!("{what}: {} compared, {} exactly equal", self.compared, self.equal);
        let traits: Vec<String> = self.traits.iter().map(|(name, count)| format!("{name} {count}")).collect();
        println!("  of the compared: {}", traits.join(", "));
        println!("  besides, refused for columns or records: {}, by both {}", self.others, self.others_refused);
        for (class, (count, example)) in &self.classes {
            println!("  known difference, {}: {count}", class.title());
            if examples {
                println!("{example}");
            }
        }
        println!("  unexplained: {}", self.unexplained);
    }

    pub fn finish(&self) -> Result<(), String> {
        if self.unexplained > 0 {
            return Err(format!("{} differences not explained by the rules", self.unexplained));
        }
        if self.equal * 100 < self.compared * LEAST {
            return Err(format!("only {} of {} exactly equal", self.equal, self.compared));
        }
        Ok(())
    }
}

/// A sheet in full: format, R, list, both files.
pub fn sheet(sheet: &Sheet, expected: &Expected, got: &Written) -> String {
    let mut out = head(sheet, sheet.width);
    out += &format!("  library {:?}\n", expected.answer);
    out += &records(&expected.file, sheet.width);
    out += &format!("  compiler, IOSTAT {}\n", got.iostat);
    out + &records(&got.file, sheet.width)
}

/// A reading in full.
pub fn reading(reading: &Reading, expected: &Result<Vec<Got>, Refusal>, got: &Values) -> String {
    let mut out = head(&reading.sheet, reading.width);
    out += &records(&reading.records, reading.width);
    out + &format!("  library  {expected:?}\n  compiler {got:?}\n")
}

fn head(sheet: &Sheet, width: u64) -> String {
    let text = format::text(&sheet.items);
    let mut out = format!("  R {width}, format {}, made for {:?}\n", String::from_utf8_lossy(&text), sheet.aim);
    for &value in &sheet.elements {
        let shown = match value {
            Value::Integer(n) => format!("I {n}"),
            Value::Decimal { units, places } => format!("D {units} {places}"),
            Value::Logical(truth) => format!("L {}", if truth { "T" } else { "F" }),
            Value::Text { .. } => format!("A {}", String::from_utf8_lossy(sheet.text_of(value))),
        };
        out += &format!("  {shown}\n");
    }
    out
}

/// Each record between marks; ~ for a byte that was not touched.
fn records(file: &[u8], width: u64) -> String {
    let shown: Vec<u8> = file.iter().map(|&byte| if byte == FILL { b'~' } else { byte }).collect();
    let lines = shown.chunks(width as usize).map(|record| format!("  >{}<\n", String::from_utf8_lossy(record)));
    lines.collect()
}
