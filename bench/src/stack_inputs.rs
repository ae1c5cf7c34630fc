//! What the stack of the proved library is measured on: small formats, the largest ones, and each number of a refusal.

use crate::cases::Case;
use reference::Value;

pub struct Input {
    pub case: Case,
    /// The case's list as list text.
    pub text: Vec<u8>,
    /// The refusal's number, of writing or of reading; 0 where both are accepted.
    pub number: u64,
}

pub fn all() -> Vec<Input> {
    [lengths(), largest(), refused_before_the_walk(), refused_on_the_walk()].into_iter().flatten().collect()
}

/// A list text under a format, and a buffer of so many records.
struct Sheet {
    width: usize,
    records: usize,
    format: String,
    text: String,
}

impl Sheet {
    fn input(self, name: &'static str, number: u64) -> Input {
        let Sheet { width, records, format, text } = self;
        let (format, text) = (format.into_bytes(), text.into_bytes());
        let elements = elements(&text);
        let count = elements.len() as u64;
        let mut records = vec![b' '; width * records];
        // Where this is refused, reading gets blank records.
        let _ = reference::write(width as u64, &format, &elements, count, &text, &mut records);
        let (read, area) = (elements.clone(), text.clone());
        let case = Case { name, width, format, elements, area, records, read, subroutine: "" };
        Input { case, text, number }
    }
}

/// The elements of a list text; where it is refused, those before the place, and one outside its limits.
fn elements(text: &[u8]) -> Vec<Value> {
    reference::list_text(text).unwrap_or_else(|refusal| {
        let lines: Vec<&[u8]> = text.split_inclusive(|&byte| byte == b'\n').take(refusal.place as usize).collect();
        let mut elements = reference::list_text(&lines.concat()).expect("the lines before the first bad one");
        elements.push(Value::Integer(i64::MAX));
        elements
    })
}

fn small() -> Sheet {
    let format = "(I4,2X,F6.2,1X,L1,1X,A3)".to_string();
    Sheet { width: 20, records: 1, format, text: "I 7\nD -1255 3\nL T\nA FOH\n".to_string() }
}

/// A format of this even length, all its items but the last of one byte; 64 texts.
fn one_byte_items(length: usize) -> Sheet {
    let format = format!("({}A1)", "A,".repeat(length / 2 - 2));
    Sheet { width: 64, records: 64, format, text: "A X\n".repeat(64) }
}

/// Formats of at most 64 bytes that meet at most 64 items have small arrays, all others the largest; in the format check those of at
/// most 256 bytes have arrays of their own too.
fn lengths() -> Vec<Input> {
    vec![
        small().input("small format", 0),
        Sheet { format: "(((((I1)))))".to_string(), text: "I 7\n".to_string(), ..small() }
            .input("small format, groups to level 4", 0),
        one_byte_items(64).input("64 bytes of one-byte items", 0),
        one_byte_items(66).input("66 bytes of one-byte items", 0),
        one_byte_items(256).input("256 bytes of one-byte items", 0),
        one_byte_items(258).input("258 bytes of one-byte items", 0),
        one_byte_items(1024).input("1,024 bytes of one-byte items", 0),
        Sheet { format: "(8(I1,7(T1)))".to_string(), ..records() }.input("64 items by repeats", 0),
        Sheet { format: "(8(I1,7(T1)),T1)".to_string(), ..records() }.input("65 items by repeats", 0),
        slashes().input("1,023 bytes of slashes", 0),
        short_literals().input("1,024 bytes of literals of one character", 0),
        long_literals().input("1,024 bytes of literals of 251 characters", 0),
        groups().input("1,024 bytes of groups to level 4", 0),
    ]
}

fn slashes() -> Sheet {
    Sheet { width: 1, records: 512, format: format!("({}/)", "/,".repeat(510)), text: String::new() }
}

/// They cover 255 columns; three are doubled apostrophes.
fn short_literals() -> Sheet {
    let format = format!("({}'''','''','''')", "'X',".repeat(252));
    Sheet { width: 255, records: 1, format, text: String::new() }
}

fn long_literals() -> Sheet {
    let long = "X".repeat(251);
    let format = format!("('{long}',/,'{long}',/,'{long}',/,'{long}X')");
    Sheet { width: 255, records: 4, format, text: String::new() }
}

fn groups() -> Sheet {
    let format = format!("({}((((A001)))))", "((((A)))),".repeat(101));
    Sheet { width: 64, records: 64, format, text: "A X\n".repeat(64) }
}

fn largest() -> Vec<Input> {
    vec![
        all_kinds().input("4,096 items by repeats: 64 elements of all kinds, as large as may be", 0),
        after_sp().input("4,096 items by repeats: the same with a plus", 0),
        returns().input("4,096 items by repeats, met for each of 64 elements", 0),
        records().input("4,096 items by repeats, 4,033 records", 0),
        long_and_large().input("4,096 items by repeats, 1,024 bytes", 0),
    ]
}

fn all_kinds() -> Sheet {
    let format = "(16(I64,F64.9,L64,A63,4(3(21(T1)))))".to_string();
    let most = "9".repeat(18);
    let lines = format!("I -{most}\nD -{most} 9\nL T\nA {}\n", "X".repeat(64));
    Sheet { width: 255, records: 1, format, text: lines.repeat(16) }
}

fn after_sp() -> Sheet {
    let format = "(SP,15(I64,F64.9,L64,A63,4(3(21(T1)))),I64,F64.9,L64,A63,4(3(20(T1))),11(T1))".to_string();
    let all_kinds = all_kinds();
    Sheet { format, text: all_kinds.text.replace('-', ""), ..all_kinds }
}

fn returns() -> Sheet {
    let format = "((16(255(T1)),15(T1),I1))".to_string();
    Sheet { width: 1, records: 64, format, text: "I 7\n".repeat(64) }
}

fn records() -> Sheet {
    Sheet { width: 1, records: 4033, format: "(64(I1,63/))".to_string(), text: "I 7\n".repeat(64) }
}

fn long_and_large() -> Sheet {
    let format = format!("(14(255(T1)),25(T1),{}A01)", "A,".repeat(500));
    Sheet { width: 64, records: 1, format, text: "A X\n".repeat(64) }
}

/// A list text of integers, its last line this one.
fn sixty_four(last: &str) -> String {
    "I 7\n".repeat(63) + last
}

fn refused_before_the_walk() -> Vec<Input> {
    let mut without_area = all_kinds().input("no room for the texts to be read, 4,096 items", 13);
    without_area.case.area.clear();
    let not_closed = one_byte_items(1024).format.replace(')', ",");
    let number_0 = one_byte_items(1024).format.replace('1', "0");
    let nineteen = format!("I {}\n", "9".repeat(19));
    vec![
        Sheet { width: 256, ..all_kinds() }.input("record width 256, 4,096 items", 1),
        Sheet { format: one_byte_items(1026).format, ..small() }.input("1,026 bytes", 2),
        Sheet { format: not_closed, ..small() }.input("1,024 bytes, not closed", 3),
        Sheet { format: number_0, ..small() }.input("1,024 bytes, the last number 0", 4),
        Sheet { format: "(64(I1,63(T1)),T1)".to_string(), ..small() }.input("4,097 items by repeats", 5),
        Sheet { text: sixty_four("I x\n"), ..records() }.input("a malformed line, 4,096 items", 6),
        Sheet { text: sixty_four(&nineteen), ..records() }.input("an integer outside the limits, 4,096 items", 6),
        Sheet { text: "I 7\n".repeat(65), ..records() }.input("65 elements, 4,096 items", 6),
        without_area,
        Sheet { records: 0, ..all_kinds() }.input("no record, 4,096 items", 9),
    ]
}

fn refused_on_the_walk() -> Vec<Input> {
    let mut bad_field = records().input("a field, 4,096 items", 12);
    bad_field.case.records[63 * 63] = b'X';
    let no_field = "(I1,15(T1),16(255(T1)))".to_string();
    let too_large = format!("{}D {} 0\n", "D 7 0\n".repeat(63), "9".repeat(18));
    let literal = format!("('{}')", "X".repeat(1020));
    vec![
        Sheet { text: sixty_four("L T\n"), ..records() }.input("another kind, 4,096 items", 7),
        Sheet { width: 17, ..small() }.input("a column, small format", 8),
        Sheet { width: 254, ..all_kinds() }.input("a column, 4,096 items", 8),
        Sheet { format: literal, ..short_literals() }.input("a column, a literal of 1,020 characters", 8),
        Sheet { records: 4032, ..records() }.input("the next record, 4,096 items", 9),
        Sheet { format: no_field, ..records() }.input("a return, 4,096 items", 10),
        Sheet { format: "(64(F9.9,63(T1)))".to_string(), width: 9, records: 1, text: too_large }
            .input("rounded units, 4,096 items", 11),
        bad_field,
    ]
}
