//! What an accepted writing puts where, for tests.

use crate::fields;
use crate::format::{has_field, Field, Format, Item};
use crate::walk::{walk, Met, Settings, Span, Visitor};
use crate::{check_call, list, Refusal, Value};
use std::collections::BTreeSet;

/// A covering item that the walk met.
#[derive(Clone, Debug, PartialEq, Eq)]
pub struct Placement {
    pub span: Span,
    pub content: Content,
}

#[derive(Clone, Debug, PartialEq, Eq)]
pub enum Content {
    Literal,
    Field { field: Field, settings: Settings, element: usize, value: Value, shown: Shown, starred: bool },
}

/// The shown value; a text is compared by its bytes.
#[derive(Clone, Debug, PartialEq, Eq)]
pub enum Shown {
    Value(Value),
    Text(Vec<u8>),
}

/// An accepted writing's placements, in the order met, and its records.
#[derive(Clone, Debug, PartialEq, Eq)]
pub struct Trace {
    pub placements: Vec<Placement>,
    pub records: u64,
}

impl Trace {
    /// "A column is covered twice where two items met, or one met twice, cover
    /// it in the same record."
    pub fn covers_twice(&self) -> bool {
        let mut covered = BTreeSet::new();
        let mut columns = self.placements.iter().flat_map(|Placement { span, .. }| {
            (span.column..span.column + span.width).map(move |column| (span.record, column))
        });
        columns.any(|column| !covered.insert(column))
    }
}

/// Traces the writing of a list with room for so many records.
pub fn trace(
    width: u64,
    format: &[u8],
    elements: &[Value],
    count: u64,
    area: &[u8],
    room: usize,
) -> Result<Trace, Refusal> {
    let (width, format) = check_call(width, format)?;
    let list = list::checked_for_writing(elements, count, area)?;
    let mut tracer = Tracer { area, placements: Vec::new() };
    let records = walk(&format, width, room, &list, &mut tracer)? as u64;
    Ok(Trace { placements: tracer.placements, records })
}

struct Tracer<'a> {
    area: &'a [u8],
    placements: Vec<Placement>,
}

impl Visitor for Tracer<'_> {
    fn field(&mut self, Met { field, settings, element, value, span }: Met) -> Result<(), Refusal> {
        let written = fields::write(field, settings, value, self.area, span.width);
        let starred = written.ok_or(Refusal::new(11, element))?.starred;
        let shown = shown(field, value, self.area, span.width);
        let content = Content::Field { field, settings, element, value, shown, starred };
        self.placements.push(Placement { span, content });
        Ok(())
    }

    fn literal(&mut self, _characters: &[u8], span: Span) {
        self.placements.push(Placement { span, content: Content::Literal });
    }
}

/// "Integer and logical unchanged; decimal as rounded, with d places; text ...
/// unchanged, or its first w characters and blanks up to its length."
fn shown(field: Field, value: Value, area: &[u8], w: usize) -> Shown {
    match (field, value) {
        (Field::Decimal { d, .. }, Value::Decimal { units, places }) => {
            let units = fields::rounded(units, places, d).expect("refusal 11 came before");
            Shown::Value(Value::Decimal { units, places: d })
        }
        (_, Value::Text { start, len }) => {
            let mut text = area[start as usize..][..len as usize].to_vec();
            text.truncate(w);
            text.resize(len as usize, b' ');
            Shown::Text(text)
        }
        _ => Shown::Value(value),
    }
}

/// The first fields, so many at most, that a walk with enough elements meets;
/// none for a format that is refused.
pub fn fields_met(format: &[u8], most: usize) -> Vec<Field> {
    let mut fields = Vec::new();
    let Ok(format) = Format::parse(format) else { return fields };
    meet(&format.items, most, &mut fields);
    while fields.len() < most && has_field(format.part()) {
        meet(format.part(), most, &mut fields);
    }
    fields
}

fn meet(items: &[Item], most: usize, fields: &mut Vec<Field>) {
    for item in items {
        if fields.len() == most {
            return;
        }
        match item {
            Item::Field { repeat, field } => {
                let room = most - fields.len();
                fields.extend(std::iter::repeat_n(*field, room.min(*repeat as usize)));
            }
            Item::Group { repeat, items } => (0..*repeat).for_each(|_| meet(items, most, fields)),
            _ => {}
        }
    }
}
