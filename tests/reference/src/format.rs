//! The format: its grammar, the ranges of its numbers and its size.

use crate::Refusal;
use std::ops::RangeInclusive;

/// "At most 1,024 bytes."
const LONGEST: usize = 1024;
/// "The format's size ... is at most 4,096."
pub const LARGEST: u64 = 4096;
/// "A group of level 4 holds no group."
const DEEPEST: usize = 4;

const REPEAT: RangeInclusive<u64> = 1..=255;
const WIDTH: RangeInclusive<u64> = 1..=64;
const PLACES: RangeInclusive<u64> = 0..=9;

/// A field: Iw, Fw.d, Lw, A or Aw.
#[derive(Clone, Copy, Debug, PartialEq, Eq)]
pub enum Field {
    Integer { w: u64 },
    Decimal { w: u64, d: u64 },
    Logical { w: u64 },
    Text { w: Option<u64> },
}

/// The items that set which sign a numeral carries.
#[derive(Clone, Copy, Debug, PartialEq, Eq)]
pub enum Sign {
    SP,
    SS,
    S,
}

#[derive(Clone, Debug, PartialEq, Eq)]
pub enum Item {
    Field {
        repeat: u64,
        field: Field,
    },
    Group {
        repeat: u64,
        items: Vec<Item>,
    },
    /// nX
    Skip(u64),
    /// Tn
    Tab(u64),
    Slash {
        repeat: u64,
    },
    Literal(Vec<u8>),
    Sign(Sign),
}

impl Item {
    /// "A field or slash has size r, other items size 1."
    fn size(&self) -> u64 {
        match self {
            Item::Field { repeat, .. } | Item::Slash { repeat } => *repeat,
            Item::Group { repeat, items } => repeat * size(items),
            Item::Skip(_) | Item::Tab(_) | Item::Literal(_) | Item::Sign(_) => 1,
        }
    }

    fn has_field(&self) -> bool {
        match self {
            Item::Field { .. } => true,
            Item::Group { items, .. } => has_field(items),
            _ => false,
        }
    }
}

fn size(items: &[Item]) -> u64 {
    items.iter().map(Item::size).sum()
}

pub fn has_field(items: &[Item]) -> bool {
    items.iter().any(Item::has_field)
}

/// A format that has passed rows 2 to 5.
#[derive(Clone, Debug, PartialEq, Eq)]
pub struct Format {
    pub items: Vec<Item>,
}

impl Format {
    pub fn parse(text: &[u8]) -> Result<Format, Refusal> {
        let format = Format::read(text)?;
        if format.size() > LARGEST {
            return Err(Refusal::new(5, 0));
        }
        Ok(format)
    }

    /// A format of any size: rows 2 to 4.
    pub fn read(text: &[u8]) -> Result<Format, Refusal> {
        if text.len() > LONGEST {
            return Err(Refusal::new(2, LONGEST));
        }
        let mut reader = Reader { text, at: 0, out_of_range: None };
        let Ok(items) = reader.format() else {
            return Err(Refusal::new(3, reader.at));
        };
        if let Some(offset) = reader.out_of_range {
            return Err(Refusal::new(4, offset));
        }
        Ok(Format { items })
    }

    pub fn size(&self) -> u64 {
        size(&self.items)
    }

    /// The part that the walk returns to: "the rightmost group of level 1 with
    /// its repeat, through the end of the format; with no such group, ... the
    /// whole format".
    pub fn part(&self) -> &[Item] {
        let group = self.items.iter().rposition(|item| matches!(item, Item::Group { .. }));
        &self.items[group.unwrap_or(0)..]
    }
}

struct Ungrammatical;

/// Reads the grammar from left to right. It moves past a byte only if some
/// grammatical text begins with all bytes up to and with that one; so where it
/// halts is the place of refusal 3.
struct Reader<'a> {
    text: &'a [u8],
    at: usize,
    /// Offset of the first number out of range.
    out_of_range: Option<usize>,
}

impl Reader<'_> {
    fn format(&mut self) -> Result<Vec<Item>, Ungrammatical> {
        self.expect(b'(')?;
        let items = self.items(0)?;
        if self.at < self.text.len() {
            return Err(Ungrammatical);
        }
        Ok(items)
    }

    /// The items of a format (level 0) or group, with the closing bracket.
    fn items(&mut self, level: usize) -> Result<Vec<Item>, Ungrammatical> {
        let mut items = vec![self.item(level)?];
        while self.take(b',') {
            items.push(self.item(level)?);
        }
        self.expect(b')')?;
        Ok(items)
    }

    fn item(&mut self, level: usize) -> Result<Item, Ungrammatical> {
        match self.next() {
            Some(b'0'..=b'9') => self.numbered(level),
            Some(b'T') => self.tab(),
            Some(b'S') => self.sign(),
            Some(mark @ (b'\'' | b'"')) => self.literal(mark),
            _ => self.repeatable(1, level),
        }
    }

    /// An item that begins with a number: nX or a repeat.
    fn numbered(&mut self, level: usize) -> Result<Item, Ungrammatical> {
        let number = self.number(REPEAT)?;
        if self.take(b'X') {
            return Ok(Item::Skip(number));
        }
        self.repeatable(number, level)
    }

    fn repeatable(&mut self, repeat: u64, level: usize) -> Result<Item, Ungrammatical> {
        if self.take(b'/') {
            return Ok(Item::Slash { repeat });
        }
        if level < DEEPEST && self.take(b'(') {
            let items = self.items(level + 1)?;
            return Ok(Item::Group { repeat, items });
        }
        let field = self.field()?;
        Ok(Item::Field { repeat, field })
    }

    fn field(&mut self) -> Result<Field, Ungrammatical> {
        if self.take(b'I') {
            return Ok(Field::Integer { w: self.number(WIDTH)? });
        }
        if self.take(b'F') {
            let w = self.number(WIDTH)?;
            self.expect(b'.')?;
            return Ok(Field::Decimal { w, d: self.number(PLACES)? });
        }
        if self.take(b'L') {
            return Ok(Field::Logical { w: self.number(WIDTH)? });
        }
        self.expect(b'A')?;
        let w = if self.digit().is_some() { Some(self.number(WIDTH)?) } else { None };
        Ok(Field::Text { w })
    }

    fn tab(&mut self) -> Result<Item, Ungrammatical> {
        self.expect(b'T')?;
        Ok(Item::Tab(self.number(REPEAT)?))
    }

    /// "SP, SS and S ... are items without repeat." After S alone only a comma or
    /// a bracket follows, so a P or S there belongs to the item.
    fn sign(&mut self) -> Result<Item, Ungrammatical> {
        self.expect(b'S')?;
        let sign = if self.take(b'P') {
            Sign::SP
        } else if self.take(b'S') {
            Sign::SS
        } else {
            Sign::S
        };
        Ok(Item::Sign(sign))
    }

    /// "One or more characters, bytes 32 to 126, ...; the enclosing mark is
    /// doubled inside." After the opening mark a second one can only be the
    /// first half of a doubled one.
    fn literal(&mut self, mark: u8) -> Result<Item, Ungrammatical> {
        self.expect(mark)?;
        let mut characters = Vec::new();
        while let Some(byte @ 32..=126) = self.next() {
            self.at += 1;
            if byte != mark || self.take(mark) {
                characters.push(byte);
            } else if characters.is_empty() {
                return Err(Ungrammatical);
            } else {
                return Ok(Item::Literal(characters));
            }
        }
        Err(Ungrammatical)
    }

    /// "r, w, d, n are one to three digits." A fourth one is left to fail
    /// where the next byte is looked at.
    fn number(&mut self, range: RangeInclusive<u64>) -> Result<u64, Ungrammatical> {
        let offset = self.at;
        let mut number = self.digit().ok_or(Ungrammatical)?;
        self.at += 1;
        for _ in 0..2 {
            let Some(digit) = self.digit() else { break };
            number = number * 10 + digit;
            self.at += 1;
        }
        if !range.contains(&number) {
            self.out_of_range.get_or_insert(offset);
        }
        Ok(number)
    }

    fn next(&self) -> Option<u8> {
        self.text.get(self.at).copied()
    }

    fn digit(&self) -> Option<u64> {
        let byte = self.next()?;
        byte.is_ascii_digit().then(|| u64::from(byte - b'0'))
    }

    fn take(&mut self, byte: u8) -> bool {
        let found = self.next() == Some(byte);
        self.at += usize::from(found);
        found
    }

    fn expect(&mut self, byte: u8) -> Result<(), Ungrammatical> {
        if self.take(byte) {
            Ok(())
        } else {
            Err(Ungrammatical)
        }
    }
}
