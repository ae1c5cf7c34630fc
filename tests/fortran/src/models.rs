//! Whole sheets as a compiler is known to write and read them.

use crate::calls::Value;
use crate::compiler::Compiler;
use crate::differences::{self, Class, Got, Number, Read};
use crate::format::Field;
use crate::generate::Sheet;
use crate::walk::{self, Layout, Met};

/// What untouched bytes of the records hold: no character of a sheet.
pub const FILL: u8 = 1;

/// The characters of each item met, as the rules ask or as a compiler writes them, and the reasons.
fn characters(sheet: &Sheet, steps: &[Met], compiler: Option<Compiler>) -> (Vec<Vec<u8>>, Vec<Class>) {
    let lengths = sheet.lengths();
    let mut classes = Vec::new();
    let texts = steps.iter().map(|step| match step {
        Met::Field { element, field, plus } => {
            let value = sheet.elements[*element];
            if let Some((text, why)) = deviating(compiler, *field, *plus, value) {
                classes.extend(why);
                return text;
            }
            differences::alone(*field, *plus, value, &sheet.area, walk::columns(step, &lengths))
        }
        Met::Literal(characters) => characters.clone(),
        _ => Vec::new(),
    });
    let texts = texts.collect();
    (texts, classes)
}

fn deviating(compiler: Option<Compiler>, field: Field, plus: bool, value: Value) -> Option<(Vec<u8>, Vec<Class>)> {
    match (compiler, field, value) {
        (Some(compiler), Field::Decimal { w, d }, Value::Decimal { units, places }) => {
            differences::decimal_written(compiler, Number { w, d, plus, units, places })
        }
        _ => None,
    }
}

/// The internal file with these items put where the rules have them, with these characters.
fn laid(sheet: &Sheet, layout: &Layout, texts: &[Vec<u8>]) -> Vec<u8> {
    let width = sheet.width as usize;
    let mut out = vec![FILL; sheet.records as usize * width];
    out[..layout.records as usize * width].fill(b' ');
    for place in &layout.places {
        let at = place.record as usize * width + place.column as usize;
        out[at..at + place.width as usize].copy_from_slice(&texts[place.step]);
    }
    out
}

/// The internal file that the rules ask for, put together field by field.
pub fn asked(sheet: &Sheet) -> Vec<u8> {
    let steps = sheet.steps();
    laid(sheet, &sheet.layout(), &characters(sheet, &steps, None).0)
}

/// The internal file as a compiler is known to leave it.
#[derive(Debug, PartialEq)]
pub enum File {
    Written(Vec<u8>, Vec<Class>),
    Refused(Vec<Class>),
    /// Not foreseen; such sheets are not given to compilers.
    Unsure,
}

pub fn written(compiler: Compiler, sheet: &Sheet) -> File {
    let steps = sheet.steps();
    if compiler == Compiler::Flang {
        let by_flang = walk::met_by_flang(&sheet.items, sheet.elements.len());
        if by_flang.as_ref() != Some(&steps) {
            return by_flang.map_or(File::Unsure, |by_flang| returned(sheet, &by_flang));
        }
    }
    let (texts, mut classes) = characters(sheet, &steps, Some(compiler));
    let file = laid(sheet, &sheet.layout(), &texts);
    if compiler != Compiler::Gfortran || !walk::tab_after_move(&steps) {
        return File::Written(file, classes);
    }
    match laid_by_gfortran(sheet, &steps, &texts) {
        Ok(moved) => {
            if moved != file {
                classes.push(Class::Misplaced);
            }
            File::Written(moved, classes)
        }
        Err(Astray::Refused) => File::Refused(vec![Class::Misplaced]),
        Err(Astray::OtherRecord) => File::Unsure,
    }
}

/// The file after flang's return, foreseen where every element still meets a field of its kind within the records.
fn returned(sheet: &Sheet, steps: &[Met]) -> File {
    let suited = steps.iter().all(|step| match step {
        Met::Field { element, field, .. } => suits(*field, sheet.elements[*element]),
        _ => true,
    });
    let layout = walk::layout(steps, &sheet.lengths());
    if !suited || layout.records > sheet.records || layout.narrowest > sheet.width {
        return File::Unsure;
    }
    let (texts, mut classes) = characters(sheet, steps, Some(Compiler::Flang));
    classes.push(Class::Returned);
    File::Written(laid(sheet, &layout, &texts), classes)
}

fn suits(field: Field, value: Value) -> bool {
    matches!(
        (field, value),
        (Field::Integer { .. }, Value::Integer(_))
            | (Field::Decimal { .. }, Value::Decimal { .. })
            | (Field::Logical { .. }, Value::Logical(_))
            | (Field::Text { .. }, Value::Text { .. })
    )
}

/// Where gfortran's misplacing leads out of the record.
enum Astray {
    Refused,
    /// Before the record's first column, into the record before.
    OtherRecord,
}

/// gfortran keeps moves back until something is put. After an X or T it reckons a T from the wrong column.
struct Pen<'a> {
    out: &'a mut [u8],
    width: i64,
    record: i64,
    at: i64,
    skips: i64,
    pending: i64,
    farthest: i64,
}

impl Pen<'_> {
    fn skip(&mut self, n: i64) {
        self.skips += n;
        self.pending = self.at + self.skips - self.farthest;
    }

    fn tab(&mut self, n: i64) {
        let to = (n - self.pending - 1).max(0);
        self.skips += to - self.at;
        self.pending = (self.pending + to - self.farthest).max(0);
    }

    fn put(&mut self, text: &[u8]) -> Result<(), Astray> {
        if self.skips > 0 {
            self.room(self.skips)?;
            if self.pending > 0 && self.skips >= self.pending {
                self.lay(self.at + self.skips - self.pending, &vec![b' '; self.pending as usize]);
            }
        }
        self.at += self.skips;
        self.farthest = self.farthest.max(self.at);
        (self.skips, self.pending) = (0, 0);
        self.room(text.len() as i64)?;
        self.lay(self.at, text);
        self.at += text.len() as i64;
        self.farthest = self.farthest.max(self.at);
        Ok(())
    }

    fn room(&self, n: i64) -> Result<(), Astray> {
        if self.at < 0 && self.record > 0 {
            return Err(Astray::OtherRecord);
        }
        if self.at < 0 || self.at + n > self.width {
            return Err(Astray::Refused);
        }
        Ok(())
    }

    fn lay(&mut self, at: i64, text: &[u8]) {
        let start = (self.record * self.width + at) as usize;
        self.out[start..start + text.len()].copy_from_slice(text);
    }

    /// Blanks from the farthest column on; then the next record.
    fn end(&mut self) {
        let rest = vec![b' '; (self.width - self.farthest) as usize];
        self.lay(self.farthest, &rest);
        self.record += 1;
        (self.at, self.skips, self.pending, self.farthest) = (0, 0, 0, 0);
    }
}

fn laid_by_gfortran(sheet: &Sheet, steps: &[Met], texts: &[Vec<u8>]) -> Result<Vec<u8>, Astray> {
    let mut out = vec![FILL; (sheet.records * sheet.width) as usize];
    let width = sheet.width as i64;
    let mut pen = Pen { out: &mut out, width, record: 0, at: 0, skips: 0, pending: 0, farthest: 0 };
    for (step, text) in steps.iter().zip(texts) {
        match step {
            Met::Skip(n) => pen.skip(*n as i64),
            Met::Tab(n) => pen.tab(*n as i64),
            Met::Next => pen.end(),
            Met::Sign(_) => {}
            Met::Field { .. } | Met::Literal(_) => pen.put(text)?,
        }
    }
    pen.end();
    Ok(out)
}

/// What a compiler is known to read from records.
#[derive(Debug, PartialEq)]
pub enum Foreseen {
    Values(Vec<Got>, Vec<Class>),
    Refused,
    Unsure,
}

/// The fields are where the rules have them; each is read as the compiler is known to read it.
pub fn read(compiler: Compiler, sheet: &Sheet, records: &[u8]) -> Foreseen {
    let (steps, lengths) = (sheet.steps(), sheet.lengths());
    let (mut values, mut classes) = (Vec::new(), Vec::new());
    for place in sheet.layout().places {
        let Met::Field { element, field, .. } = &steps[place.step] else { continue };
        let at = (place.record * sheet.width + place.column) as usize;
        let bytes = &records[at..at + place.width as usize];
        let last = element + 1 == sheet.elements.len();
        match differences::field_read(compiler, *field, lengths[*element], bytes, last) {
            Read::Value(value) => values.push(value),
            Read::Refused => return Foreseen::Refused,
            Read::Unsure => return Foreseen::Unsure,
            Read::Known(value, class) => {
                values.push(value);
                classes.push(class);
            }
        }
    }
    Foreseen::Values(values, classes)
}
