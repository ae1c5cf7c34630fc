//! The sheets and formats measured.

use reference::Value;

#[derive(Clone, Copy, Debug, PartialEq, Eq)]
pub enum Act {
    Write,
    Read,
    Check,
}

/// A sheet, or a format to be checked.
pub struct Case {
    pub name: &'static str,
    pub width: usize,
    pub format: Vec<u8>,
    pub elements: Vec<Value>,
    /// Each text in it once, in list order, so that reading lays them so too.
    pub area: Vec<u8>,
    /// What writing gives and reading takes; empty for a format check.
    pub records: Vec<u8>,
    /// What reading gives.
    pub read: Vec<Value>,
    /// The FORTRAN subroutine's name behind its first letter.
    pub subroutine: &'static str,
}

impl Case {
    pub fn acts(&self) -> &'static [Act] {
        if self.records.is_empty() {
            &[Act::Check]
        } else {
            &[Act::Write, Act::Read]
        }
    }
}

pub fn all() -> Vec<Case> {
    vec![
        small(),
        full(),
        integers(),
        plus(),
        texts(),
        mixed(),
        nests(),
        check("check short", short_format()),
        check("check long", long_format()),
    ]
}

/// The sample sheet but for its decimal: -1255/1000 is none that binary holds exactly, this is.
fn small() -> Case {
    let mut list = Elements::new();
    list.integer(7);
    list.decimal(-128_125, 5);
    list.logical(true);
    list.text(b"FOH");
    sheet("small", "SMALL", 20, "(I4,2X,F6.2,1X,L1,1X,A3)", list)
}

fn full() -> Case {
    let mut list = Elements::new();
    for index in 0..64 {
        list.decimal(thirty_seconds(index, 99_000), 5);
    }
    sheet("full", "FULL", 80, "(8F10.3)", list)
}

/// Integers of 1 to 9 digits by turns, of either sign.
fn integers() -> Case {
    sheet("integers", "INTS", 80, "(8I10)", of_either_sign())
}

/// The same, those of zero or more with a plus.
fn plus() -> Case {
    sheet("plus", "INTS", 80, "(SP,8I10)", of_either_sign())
}

fn of_either_sign() -> Elements {
    let mut list = Elements::new();
    for index in 0..64 {
        list.integer(of_digits(1 + index as u32 % 9, index));
    }
    list
}

/// An integer of so many digits, negative at every second index. Nine digits are within INTEGER*4, and with a sign fill 10 columns.
fn of_digits(digits: u32, index: i64) -> i64 {
    let least = 10i64.pow(digits - 1);
    let n = least + index * 7_368_787 % (9 * least);
    if index % 2 == 1 {
        -n
    } else {
        n
    }
}

/// Logicals and texts by turns, the texts as long as CHARACTER*4.
fn texts() -> Case {
    let mut list = Elements::new();
    for index in 0..32u8 {
        list.logical(index % 3 == 0);
        list.text(&[b'A' + index % 26, b'N', b'0' + index % 10, b'S']);
    }
    sheet("texts", "TEXTS", 80, "(8(L4,A6))", list)
}

fn mixed() -> Case {
    let mut list = Elements::new();
    for row in 0..8 {
        list.integer(row * 1237 % 90_000 - 4_000);
        list.integer(row * 53 % 9_000);
        for index in 0..3 {
            list.decimal(thirty_seconds(row * 3 + index, 9_000), 5);
        }
        list.logical(row % 2 == 0);
        list.logical(row % 3 == 0);
        list.text(&[b'A' + row as u8, b'B', b'C', b'D']);
    }
    sheet("mixed", "MIXED", 80, "(2I6,3F9.2,2L2,A4)", list)
}

fn nests() -> Case {
    let mut list = Elements::new();
    list.integer(12);
    for index in 0..9 {
        list.decimal(thirty_seconds(index, 900), 5);
        list.integer(index * 7 % 100);
        list.logical(index % 2 == 0);
        list.text(b"OK");
        list.decimal(thirty_seconds(index + 9, 90), 5);
        list.text(b"NO");
        list.decimal(thirty_seconds(index + 18, 90), 5);
    }
    let format = "(I5,2(1X,F7.2,(I3,(L2,2(A2,F5.1)))))";
    sheet("nests", "NESTS", 60, format, list)
}

/// An odd number of thirty-seconds, in units of 10^-5: exact in binary, at
/// least 1, never halfway between two numbers of fewer than five places, and
/// of either sign.
fn thirty_seconds(index: i64, below: i64) -> i64 {
    let whole = 1 + (index * 7919 + 13) % (below - 2);
    let part = 1 + 2 * (index * 5 % 16);
    let units = whole * 100_000 + part * 3125;
    if index % 4 == 3 {
        -units
    } else {
        units
    }
}

fn short_format() -> Vec<u8> {
    b"(I4,2X,F6.2,1X,L1,1X,A3)".to_vec()
}

fn long_format() -> Vec<u8> {
    let part = "I5,2(3X,F8.2),4X,(I6,2(L2,1X,(A4,(F10.3)))),T12,'IT''S',/";
    format!("({})", [part; 8].join(",")).into_bytes()
}

fn check(name: &'static str, format: Vec<u8>) -> Case {
    Case {
        name,
        width: 20,
        format,
        elements: Vec::new(),
        area: Vec::new(),
        records: Vec::new(),
        read: Vec::new(),
        subroutine: "CHECKS",
    }
}

/// A list in the making, with the texts' area.
struct Elements {
    list: Vec<Value>,
    area: Vec<u8>,
}

impl Elements {
    fn new() -> Elements {
        Elements { list: Vec::new(), area: Vec::new() }
    }

    fn integer(&mut self, n: i64) {
        self.list.push(Value::Integer(n));
    }

    fn decimal(&mut self, units: i64, places: u64) {
        self.list.push(Value::Decimal { units, places });
    }

    fn logical(&mut self, b: bool) {
        self.list.push(Value::Logical(b));
    }

    fn text(&mut self, bytes: &[u8]) {
        self.list.push(Value::Text { start: self.area.len() as u64, len: bytes.len() as u64 });
        self.area.extend_from_slice(bytes);
    }
}

/// The independent implementation gives the records and what is read back.
fn sheet(name: &'static str, subroutine: &'static str, width: usize, format: &str, list: Elements) -> Case {
    let Elements { list: elements, mut area } = list;
    let format = format.as_bytes().to_vec();
    let count = elements.len() as u64;
    let mut records = vec![0; width * 64];
    let counts = reference::write(width as u64, &format, &elements, count, &area, &mut records).expect("a good sheet");
    assert_eq!(counts.starred, 0);
    records.truncate(counts.records as usize * width);
    let (_, read) =
        reference::read(width as u64, &format, &elements, count, &mut area, &records).expect("what was written");
    Case { name, width, format, elements, area, records, read, subroutine }
}
