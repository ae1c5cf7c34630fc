//! Trim sheet editing by FORTRAN format, written from the rules alone.
//!
//! `write` and `read` carry a list to records and back; `check` looks at a
//! format; `list_text`, `sheet`, `host_write` and `host_check` are the calls
//! that take the list as text. `trace` tells where an accepted writing puts
//! what, for tests.

pub mod fields;
pub mod format;
pub mod list;
pub mod sheet;
pub mod trace;
pub mod walk;

use format::Format;
use walk::{Met, Span, Visitor};

pub use list::list_text;
pub use sheet::{host_check, host_write, sheet};

/// An element of the list.
#[derive(Clone, Copy, Debug, PartialEq, Eq)]
pub enum Value {
    Integer(i64),
    Decimal { units: i64, places: u64 },
    Logical(bool),
    Text { start: u64, len: u64 },
}

/// A refusal "carries number and place".
#[derive(Clone, Copy, Debug, PartialEq, Eq)]
pub struct Refusal {
    pub number: u64,
    pub place: u64,
}

/// "The result carries the number of records and the number of starred fields."
#[derive(Clone, Copy, Debug, PartialEq, Eq)]
pub struct Counts {
    pub records: u64,
    pub starred: u64,
}

impl Refusal {
    pub(crate) fn new(number: u64, place: usize) -> Refusal {
        Refusal { number, place: place as u64 }
    }
}

/// Writes the list's records at the start of the buffer.
/// The first `count` slots of `elements` are the list; slots past the slice hold integer 0.
pub fn write(
    width: u64,
    format: &[u8],
    elements: &[Value],
    count: u64,
    area: &[u8],
    buffer: &mut [u8],
) -> Result<Counts, Refusal> {
    let (width, format) = check_call(width, format)?;
    let list = list::checked_for_writing(elements, count, area)?;
    write_list(width, &format, &list, area, buffer)
}

/// Reads the wanted values from the records; texts are laid in the area.
pub fn read(
    width: u64,
    format: &[u8],
    wanted: &[Value],
    count: u64,
    area: &mut [u8],
    records: &[u8],
) -> Result<(Counts, Vec<Value>), Refusal> {
    let (width, format) = check_call(width, format)?;
    let wanted = list::checked_for_reading(wanted, count, area.len())?;
    let mut reader = Reader { width, records, values: Vec::new(), texts: Vec::new() };
    let reached = walk::walk(&format, width, records.len() / width, &wanted, &mut reader)?;
    area[..reader.texts.len()].copy_from_slice(&reader.texts);
    Ok((Counts { records: reached as u64, starred: 0 }, reader.values))
}

/// "The format check takes the format alone and applies rows 2 to 5."
pub fn check(format: &[u8]) -> Result<(), Refusal> {
    Format::parse(format).map(|_| ())
}

/// Rows 1 to 5: the record width, then the format.
pub(crate) fn check_call(width: u64, format: &[u8]) -> Result<(usize, Format), Refusal> {
    if !(1..=255).contains(&width) {
        return Err(Refusal::new(1, 0));
    }
    Ok((width as usize, Format::parse(format)?))
}

/// Writes a list that has passed row 6. The records are made aside, so that a
/// refusal leaves the buffer as it was.
pub(crate) fn write_list(
    width: usize,
    format: &Format,
    list: &[Value],
    area: &[u8],
    buffer: &mut [u8],
) -> Result<Counts, Refusal> {
    let mut writer = Writer { width, area, records: Vec::new(), starred: 0 };
    let reached = walk::walk(format, width, buffer.len() / width, list, &mut writer)?;
    writer.reach(reached);
    buffer[..writer.records.len()].copy_from_slice(&writer.records);
    Ok(Counts { records: reached as u64, starred: writer.starred })
}

/// Puts fields and literals into records made aside.
struct Writer<'a> {
    width: usize,
    area: &'a [u8],
    records: Vec<u8>,
    starred: u64,
}

impl Writer<'_> {
    /// Each record reached "is blank apart from what was put there".
    fn reach(&mut self, reached: usize) {
        let end = reached * self.width;
        if self.records.len() < end {
            self.records.resize(end, b' ');
        }
    }

    fn put(&mut self, span: Span, characters: &[u8]) {
        self.reach(span.record + 1);
        self.records[span.bytes(self.width)].copy_from_slice(characters);
    }
}

impl Visitor for Writer<'_> {
    fn field(&mut self, Met { field, settings, element, value, span }: Met) -> Result<(), Refusal> {
        let written = fields::write(field, settings, value, self.area, span.width);
        let written = written.ok_or(Refusal::new(11, element))?;
        self.starred += u64::from(written.starred);
        self.put(span, &written.characters);
        Ok(())
    }

    fn literal(&mut self, characters: &[u8], span: Span) {
        self.put(span, characters);
    }
}

/// Takes values from the fields; literals are "passed over uncompared".
struct Reader<'a> {
    width: usize,
    records: &'a [u8],
    values: Vec<Value>,
    texts: Vec<u8>,
}

impl Visitor for Reader<'_> {
    /// "Reading ignores the setting."
    fn field(&mut self, Met { field, element, value, span, .. }: Met) -> Result<(), Refusal> {
        let bytes = &self.records[span.bytes(self.width)];
        let value = fields::read(field, value, bytes, &mut self.texts).ok_or(Refusal::new(12, element))?;
        self.values.push(value);
        Ok(())
    }

    fn literal(&mut self, _characters: &[u8], _span: Span) {}
}
