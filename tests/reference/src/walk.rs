//! The walk over a format's items, with its columns, records and elements.

use crate::format::{has_field, Field, Format, Item, Sign};
use crate::{Refusal, Value};
use std::ops::Range;

/// Columns that an item covers: `width` of them from `column` on, counted from 1.
#[derive(Clone, Copy, Debug, PartialEq, Eq)]
pub struct Span {
    pub record: usize,
    pub column: usize,
    pub width: usize,
}

impl Span {
    /// The span's bytes in records of the given width.
    pub fn bytes(&self, record_width: usize) -> Range<usize> {
        let start = self.record * record_width + self.column - 1;
        start..start + self.width
    }
}

/// What the items met so far set for the fields that follow. "The walk ...
/// starts with SS."
#[derive(Clone, Copy, Debug, Default, PartialEq, Eq)]
pub struct Settings {
    /// "After SP, a numeral for a value of zero or more must carry +."
    pub plus: bool,
}

impl Settings {
    /// The settings after such an item: "after SS or S the rule above holds".
    pub fn after(self, sign: Sign) -> Settings {
        Settings { plus: sign == Sign::SP }
    }
}

/// What is done at the covering items that the walk meets.
pub trait Visitor {
    fn field(&mut self, met: Met) -> Result<(), Refusal>;
    fn literal(&mut self, characters: &[u8], span: Span);
}

/// A field that the walk meets, with the element that it takes.
#[derive(Clone, Copy, Debug, PartialEq, Eq)]
pub struct Met {
    pub field: Field,
    pub settings: Settings,
    pub element: usize,
    pub value: Value,
    pub span: Span,
}

/// Walks the format for a list, with room for so many records of the given
/// width; gives the number of records reached.
pub fn walk(
    format: &Format,
    width: usize,
    room: usize,
    list: &[Value],
    visitor: &mut impl Visitor,
) -> Result<usize, Refusal> {
    if room == 0 {
        return Err(Refusal::new(9, 0));
    }
    let settings = Settings::default();
    let mut walk = Walk { width, room, record: 0, column: 1, settings, list, taken: 0, visitor };
    match walk.format(format) {
        Ok(()) | Err(Stop::End) => Ok(walk.record + 1),
        Err(Stop::Refused(refusal)) => Err(refusal),
    }
}

/// Why the walk stops in the middle of the format.
enum Stop {
    /// "When a field is met and no element remains, the walk ends."
    End,
    Refused(Refusal),
}

impl From<Refusal> for Stop {
    fn from(refusal: Refusal) -> Stop {
        Stop::Refused(refusal)
    }
}

struct Walk<'a, V> {
    width: usize,
    room: usize,
    record: usize,
    column: usize,
    settings: Settings,
    list: &'a [Value],
    taken: usize,
    visitor: &'a mut V,
}

impl<V: Visitor> Walk<'_, V> {
    fn format(&mut self, format: &Format) -> Result<(), Stop> {
        self.items(&format.items)?;
        while self.taken < self.list.len() {
            if !has_field(format.part()) {
                return Err(self.refuse(10).into());
            }
            self.next_record()?;
            self.items(format.part())?;
        }
        Ok(())
    }

    fn items(&mut self, items: &[Item]) -> Result<(), Stop> {
        items.iter().try_for_each(|item| self.item(item))
    }

    fn item(&mut self, item: &Item) -> Result<(), Stop> {
        match item {
            Item::Field { repeat, field } => (0..*repeat).try_for_each(|_| self.field(*field)),
            Item::Group { repeat, items } => (0..*repeat).try_for_each(|_| self.items(items)),
            Item::Skip(n) => Ok(self.move_on(*n as usize).map(|_| ())?),
            Item::Tab(n) => Ok(self.move_to(*n as usize)?),
            Item::Slash { repeat } => Ok((0..*repeat).try_for_each(|_| self.next_record())?),
            Item::Literal(characters) => Ok(self.literal(characters)?),
            Item::Sign(sign) => {
                self.settings = self.settings.after(*sign);
                Ok(())
            }
        }
    }

    /// "At one field the order is 7, 8, then 11 or 12."
    fn field(&mut self, field: Field) -> Result<(), Stop> {
        let Some(&value) = self.list.get(self.taken) else {
            return Err(Stop::End);
        };
        let Some(width) = covered(field, value) else {
            return Err(self.refuse(7).into());
        };
        let span = self.move_on(width)?;
        self.visitor.field(Met { field, settings: self.settings, element: self.taken, value, span })?;
        self.taken += 1;
        Ok(())
    }

    fn literal(&mut self, characters: &[u8]) -> Result<(), Refusal> {
        let span = self.move_on(characters.len())?;
        self.visitor.literal(characters, span);
        Ok(())
    }

    /// "After X or a covering item the column is at most R + 1."
    fn move_on(&mut self, columns: usize) -> Result<Span, Refusal> {
        let span = Span { record: self.record, column: self.column, width: columns };
        if self.column + columns > self.width + 1 {
            return Err(self.refuse(8));
        }
        self.column += columns;
        Ok(span)
    }

    /// "Tn needs n ≤ R."
    fn move_to(&mut self, column: usize) -> Result<(), Refusal> {
        if column > self.width {
            return Err(self.refuse(8));
        }
        self.column = column;
        Ok(())
    }

    fn next_record(&mut self) -> Result<(), Refusal> {
        if self.record + 1 == self.room {
            return Err(self.refuse(9));
        }
        self.record += 1;
        self.column = 1;
        Ok(())
    }

    /// A refusal here: its place is the number of elements taken, which at a
    /// field is the element.
    fn refuse(&self, number: u64) -> Refusal {
        Refusal::new(number, self.taken)
    }
}

/// The columns that the field covers for the element, if its kind suits:
/// "Integer suits I, decimal F, logical L, text A."
fn covered(field: Field, value: Value) -> Option<usize> {
    let columns = match (field, value) {
        (Field::Integer { w }, Value::Integer(_)) => w,
        (Field::Decimal { w, .. }, Value::Decimal { .. }) => w,
        (Field::Logical { w }, Value::Logical(_)) => w,
        (Field::Text { w }, Value::Text { len, .. }) => w.unwrap_or(len),
        _ => return None,
    };
    Some(columns as usize)
}
