//! The rules' examples, and corners.

use reference::trace::{fields_met, trace, Content, Shown};
use reference::Value::{Decimal, Integer, Logical, Text};
use reference::*;

fn refusal<T>(number: u64, place: u64) -> Result<T, Refusal> {
    Err(Refusal { number, place })
}

fn decimal(units: i64, places: u64) -> Value {
    Decimal { units, places }
}

/// The records written, all in one string, and the starred fields.
fn written(width: u64, format: &str, elements: &[Value], area: &str) -> (String, u64) {
    let mut buffer = vec![b'#'; 10_000];
    let counts =
        write(width, format.as_bytes(), elements, elements.len() as u64, area.as_bytes(), &mut buffer).unwrap();
    let end = (counts.records * width) as usize;
    assert!(buffer[end..].iter().all(|&byte| byte == b'#'));
    (String::from_utf8(buffer[..end].to_vec()).unwrap(), counts.starred)
}

/// One field in a record of its width.
fn field(width: u64, descriptor: &str, value: Value) -> String {
    written(width, &format!("({descriptor})"), &[value], "").0
}

/// The answer of a writing with so many bytes of buffer, which a refusal must not change.
fn answer(width: u64, format: &str, elements: &[Value], bytes: usize) -> Result<Counts, Refusal> {
    let mut buffer = vec![b'#'; bytes];
    let answer = write(width, format.as_bytes(), elements, elements.len() as u64, b"", &mut buffer);
    assert!(answer.is_ok() || buffer.iter().all(|&byte| byte == b'#'));
    answer
}

fn read_one(descriptor: &str, wanted: Value, bytes: &[u8]) -> Result<Value, Refusal> {
    let mut area = [b'#'; 64];
    let format = format!("({descriptor})");
    let (counts, values) = read(bytes.len() as u64, format.as_bytes(), &[wanted], 1, &mut area, bytes)?;
    assert_eq!((counts, values.len()), (Counts { records: 1, starred: 0 }, 1));
    Ok(values[0])
}

fn read_text(descriptor: &str, len: u64, bytes: &[u8]) -> Result<String, Refusal> {
    let mut area = [b'#'; 70];
    let format = format!("({descriptor})");
    read(bytes.len() as u64, format.as_bytes(), &[Text { start: 9, len }], 1, &mut area, bytes)?;
    assert!(area[len as usize..].iter().all(|&byte| byte == b'#'));
    Ok(String::from_utf8(area[..len as usize].to_vec()).unwrap())
}

fn place(format: &str) -> Result<(), Refusal> {
    check(format.as_bytes())
}

#[test]
fn integers_of_the_sheet() {
    assert_eq!(field(3, "I3", Integer(999)), "999");
    assert_eq!(field(3, "I3", Integer(-99)), "-99");
    assert_eq!(field(3, "I3", Integer(1000)), "***");
    assert_eq!(field(3, "I3", Integer(-100)), "***");
    assert_eq!(field(3, "I3", Integer(0)), "  0");
}

#[test]
fn decimals_of_the_sheet() {
    assert_eq!(field(4, "F4.1", decimal(-3, 1)), "-0.3");
    assert_eq!(field(3, "F3.1", decimal(-3, 1)), "-.3");
    assert_eq!(field(2, "F2.1", decimal(-3, 1)), "**");
    assert_eq!(field(3, "F3.1", decimal(-4, 2)), "0.0");
    assert_eq!(field(2, "F2.1", decimal(-4, 2)), ".0");
    assert_eq!(field(3, "F3.1", decimal(995, 2)), "***");
    assert_eq!(field(2, "F2.0", decimal(4, 1)), "0.");
    assert_eq!(field(2, "F2.0", decimal(5, 1)), "1.");
    assert_eq!(field(1, "F1.0", decimal(0, 0)), "*");
    assert_eq!(field(4, "F4.2", decimal(1234, 2)), "****");
}

#[test]
fn decimals_read_in_the_sheet() {
    let wanted = decimal(7, 77);
    assert_eq!(read_one("F4.2", wanted, b"1234"), Ok(decimal(1234, 2)));
    assert_eq!(read_one("F4.2", wanted, b"12.3"), Ok(decimal(123, 1)));
    assert_eq!(read_one("F4.2", wanted, b"    "), Ok(decimal(0, 2)));
    assert_eq!(read_one("F4.2", wanted, b"- .5"), Ok(decimal(-5, 1)));
    assert_eq!(read_one("F4.2", wanted, b"1 2."), Ok(decimal(12, 0)));
    assert_eq!(read_one("F4.2", wanted, b" -. "), refusal(12, 0));
    assert_eq!(read_one("F4.2", wanted, b"1.2."), refusal(12, 0));
    assert_eq!(read_one("F12.2", wanted, b"1.123456789 "), Ok(decimal(1123456789, 9)));
    assert_eq!(read_one("F12.2", wanted, b"1.1234567890"), refusal(12, 0));
}

#[test]
fn integers_read() {
    assert_eq!(read_one("I4", Integer(5), b" +1 "), Ok(Integer(1)));
    assert_eq!(read_one("I4", Integer(5), b"    "), Ok(Integer(0)));
    assert_eq!(read_one("I4", Integer(5), b" -0 "), Ok(Integer(0)));
    assert_eq!(read_one("I4", Integer(5), b"  - "), refusal(12, 0));
    assert_eq!(read_one("I4", Integer(5), b"1\t 2"), refusal(12, 0));
    let largest = 999_999_999_999_999_999;
    assert_eq!(read_one("I20", Integer(5), b"-0999999999999999999"), Ok(Integer(-largest)));
    assert_eq!(read_one("I20", Integer(5), b" 1000000000000000000"), refusal(12, 0));
    assert_eq!(read_one("I64", Integer(5), &[b'9'; 64]), refusal(12, 0));
}

#[test]
fn plus_signs() {
    let after_sp = |w, descriptor: &str, value| field(w, &format!("SP,{descriptor}"), value);
    let integers = [
        (3, 5, " +5"),
        (3, 0, " +0"),
        (3, -5, " -5"),
        (2, 9, "+9"),
        (2, 10, "**"),
        (2, -1, "-1"),
        (2, -10, "**"),
        (1, 0, "*"),
    ];
    for (w, n, expected) in integers {
        assert_eq!(after_sp(w, &format!("I{w}"), Integer(n)), expected, "{n}");
    }
    assert_eq!(after_sp(5, "F5.1", decimal(3, 1)), " +0.3");
    assert_eq!(after_sp(4, "F4.1", decimal(3, 1)), "+0.3");
    assert_eq!(after_sp(3, "F3.1", decimal(3, 1)), "+.3");
    assert_eq!(after_sp(2, "F2.1", decimal(3, 1)), "**");
    assert_eq!(after_sp(4, "F4.1", decimal(-4, 2)), "+0.0");
    assert_eq!(after_sp(4, "F4.1", decimal(-5, 2)), "-0.1");
    assert_eq!(after_sp(4, "F4.1", decimal(995, 2)), "****");
    assert_eq!(after_sp(5, "F5.1", decimal(995, 2)), "+10.0");
    assert_eq!(after_sp(2, "F2.0", decimal(0, 0)), "**");
    assert_eq!(after_sp(3, "F3.0", decimal(0, 0)), "+0.");
    assert_eq!(after_sp(2, "L2", Logical(true)), " T");
}

#[test]
fn a_sign_setting_holds_until_the_next() {
    let numbers: Vec<Value> = (1..=5).map(Integer).collect();
    assert_eq!(written(9, "(SP,I3,SS,I3,SP,I3,S,I3)", &numbers[..2], "").0, " +1  2   ");
    assert_eq!(written(12, "(SP,I3,SS,I3,SP,I3,S,I3)", &numbers[..4], "").0, " +1  2 +3  4");
    assert_eq!(written(9, "(I3,(I3,SP,I3))", &numbers, "").0, "  1  2 +3 +4 +5   ");
    assert_eq!(written(3, "(I3,SP)", &numbers[..2], "").0, "  1 +2");
    assert_eq!(written(3, "(SP,/,I3,2/,I3)", &numbers[..2], "").0, "    +1    +2");
    assert_eq!(written(6, "(2(I3,SP))", &numbers[..3], "").0, "  1 +2 +3   ");
    assert_eq!(written(3, "(SP)", &[], "").0, "   ");
    assert_eq!(written(3, "(I3,SP,I9)", &numbers[..1], "").0, "  1");
    assert_eq!(answer(9, "(I3,(SP,2(SS)),S)", &numbers[..2], 90), refusal(10, 1));
    let met = trace(9, b"(I3,SP,I3)", &numbers, 2, b"", 1).unwrap().placements;
    let plus = |content: &Content| matches!(content, Content::Field { settings, .. } if settings.plus);
    assert_eq!(met.iter().map(|placement| plus(&placement.content)).collect::<Vec<_>>(), [false, true]);
}

#[test]
fn reading_ignores_the_sign_setting() {
    for bytes in [b"+5", b"05", b" 5", b"5 "] {
        assert_eq!(read_one("SP,I2", Integer(0), bytes), Ok(Integer(5)));
    }
    assert_eq!(read_one("SP,I2", Integer(0), b"-0"), Ok(Integer(0)));
    assert_eq!(read_one("SP,F4.1", decimal(0, 0), b" 5.0"), Ok(decimal(50, 1)));
}

#[test]
fn logicals_and_texts_read() {
    assert_eq!(read_one("L4", Logical(false), b" .Tx"), Ok(Logical(true)));
    assert_eq!(read_one("L4", Logical(false), b"F\x00\xff "), Ok(Logical(false)));
    assert_eq!(read_one("L4", Logical(false), b"   ."), refusal(12, 0));
    assert_eq!(read_one("L4", Logical(false), b". T "), refusal(12, 0));
    assert_eq!(read_one("L4", Logical(false), b"true"), refusal(12, 0));
    assert_eq!(read_one("L4", Logical(false), b"    "), refusal(12, 0));
    assert_eq!(read_text("A", 3, b"FOH").unwrap(), "FOH");
    assert_eq!(read_text("A5", 3, b"12FOH").unwrap(), "FOH");
    assert_eq!(read_text("A2", 5, b"FO").unwrap(), "FO   ");
    assert_eq!(read_text("A5", 3, b"\x1f2FOH"), refusal(12, 0));
    assert_eq!(read_text("A5", 3, b"12FO\x7f"), refusal(12, 0));
}

#[test]
fn logicals_and_texts_written() {
    assert_eq!(field(3, "L3", Logical(true)), "  T");
    assert_eq!(field(1, "L1", Logical(false)), "F");
    let text = Text { start: 1, len: 3 };
    assert_eq!(written(5, "(A5)", &[text], "xFOHx").0, "  FOH");
    assert_eq!(written(5, "(A2)", &[text], "xFOHx").0, "FO   ");
    assert_eq!(written(5, "(A)", &[text], "xFOHx").0, "FOH  ");
}

#[test]
fn the_rightmost_group_is_returned_to() {
    let decimals = decimal(125, 2);
    let elements = [Integer(1), decimals, decimals, Integer(2), Integer(3), Integer(4)];
    let (records, starred) = written(40, "(I5,2(3X,F8.2),4X,(I6))", &elements, "");
    let lines: Vec<&str> = [&records[..40], &records[40..80], &records[80..]].map(str::trim_end).to_vec();
    assert_eq!(lines, ["    1       1.25       1.25         2", "     3", "     4"]);
    assert_eq!(starred, 0);
    assert_eq!(written(2, "((1X),I1)", &[Integer(1), Integer(2)], "").0, " 1 2");
    assert_eq!(written(3, "(2(I1),'x')", &[Integer(1), Integer(2), Integer(3)], "").0, "12x3  ");
}

#[test]
fn no_elements() {
    assert_eq!(written(6, "('TRIM')", &[], ""), ("TRIM  ".into(), 0));
    assert_eq!(written(6, "(I4)", &[], ""), ("      ".into(), 0));
    assert_eq!(written(2, "('a',I9,'b')", &[], ""), ("a ".into(), 0));
}

#[test]
fn a_closing_slash_counts_one_record_more() {
    assert_eq!(written(3, "(I3,/)", &[Integer(7)], "").0, "  7   ");
    assert_eq!(answer(3, "(I3,/)", &[Integer(7)], 5), refusal(9, 1));
    assert_eq!(answer(3, "(I3,2/,I3)", &[Integer(7)], 8), refusal(9, 1));
    assert_eq!(answer(3, "(I3,2/,I3)", &[Integer(7)], 9), Ok(Counts { records: 3, starred: 0 }));
}

#[test]
fn later_items_overwrite_and_stars_stay_counted() {
    assert_eq!(written(4, "(I3,T1,'ab')", &[Integer(1000)], ""), ("ab* ".into(), 1));
    let traced = trace(4, b"(I3,T1,'ab')", &[Integer(1000)], 1, b"", 9).unwrap();
    assert!(traced.covers_twice());
    assert!(!trace(4, b"(I3,/,'ab')", &[Integer(1000)], 1, b"", 9).unwrap().covers_twice());
}

#[test]
fn the_columns() {
    assert_eq!(answer(3, "(I3)", &[Integer(1)], 9), Ok(Counts { records: 1, starred: 0 }));
    assert_eq!(answer(3, "(I4)", &[Integer(1)], 9), refusal(8, 0));
    assert_eq!(answer(3, "(I3,1X)", &[Integer(1)], 9), refusal(8, 1));
    assert_eq!(answer(3, "(I3,T3,1X)", &[Integer(1)], 9), Ok(Counts { records: 1, starred: 0 }));
    assert_eq!(answer(3, "(I3,T4)", &[Integer(1)], 9), refusal(8, 1));
    assert_eq!(answer(3, "(I3,'x')", &[Integer(1)], 9), refusal(8, 1));
    assert_eq!(answer(3, "(3X,I1)", &[Integer(1)], 9), refusal(8, 0));
    assert_eq!(answer(3, "(I3,I9)", &[Integer(1)], 9), Ok(Counts { records: 1, starred: 0 }));
}

#[test]
fn the_order_of_refusals() {
    let large = decimal(999_999_999_999_999_999, 0);
    assert_eq!(answer(0, "(", &[], 0), refusal(1, 0));
    assert_eq!(answer(256, "(", &[], 0), refusal(1, 0));
    assert_eq!(answer(u64::MAX, "(", &[], 0), refusal(1, 0));
    assert_eq!(answer(5, "(I0", &[], 0), refusal(3, 3));
    assert_eq!(answer(5, "(I0)", &[Integer(i64::MIN)], 0), refusal(4, 2));
    assert_eq!(answer(5, "(I1)", &[Integer(1), Integer(i64::MIN)], 0), refusal(6, 1));
    assert_eq!(answer(5, "(I1)", &[Logical(true)], 4), refusal(9, 0));
    assert_eq!(answer(5, "(I9)", &[Logical(true)], 5), refusal(7, 0));
    assert_eq!(answer(5, "(F9.1)", &[large], 5), refusal(8, 0));
    assert_eq!(answer(5, "(F5.1)", &[large], 5), refusal(11, 0));
    assert_eq!(answer(5, "(F5.0)", &[large], 5), Ok(Counts { records: 1, starred: 1 }));
    assert_eq!(answer(5, "(I1,(1X))", &[Integer(1), Integer(1)], 5), refusal(10, 1));
    assert_eq!(answer(5, "(1X)", &[Integer(1)], 5), refusal(10, 0));
    assert_eq!(answer(5, "(I1)", &[Integer(1), Integer(1)], 5), refusal(9, 1));
}

#[test]
fn rounding() {
    assert_eq!(field(5, "F5.1", decimal(25, 2)), "  0.3");
    assert_eq!(field(5, "F5.1", decimal(-25, 2)), " -0.3");
    assert_eq!(field(5, "F5.1", decimal(249_999_999, 9)), "  0.2");
    assert_eq!(field(5, "F5.2", decimal(5, 0)), " 5.00");
    assert_eq!(field(5, "F5.0", decimal(-5, 1)), "  -1.");
    assert_eq!(field(12, "F12.9", decimal(-1, 9)), "-0.000000001");
    assert_eq!(field(11, "F11.9", decimal(-1, 9)), "-.000000001");
}

#[test]
fn the_place_of_refusal_3() {
    let places = [
        ("", 0),
        ("I", 0),
        ("(", 1),
        ("()", 1),
        ("(,", 1),
        ("(I4,)", 4),
        ("(I4", 3),
        ("(I4)x", 4),
        ("(I4)(I4)", 4),
        ("('')", 3),
        ("(''')", 5),
        ("(''", 3),
        ("(''''", 5),
        ("('a'", 4),
        ("('a'b", 4),
        ("('a\n')", 3),
        ("(\"'\"'", 4),
        ("(\"\")", 3),
        ("(I1234)", 5),
        ("(I)", 2),
        ("(F4)", 3),
        ("(F4.)", 4),
        ("(F4.1234)", 7),
        ("(A1234)", 5),
        ("(1234X)", 4),
        ("(X)", 1),
        ("(3T5)", 2),
        ("(3'a')", 2),
        ("(T)", 2),
        ("(T1234)", 5),
        ("(3,I4)", 2),
        ("( I4)", 1),
        ("(i4)", 1),
        ("(I4 )", 3),
        ("(((((I1)))))", 99),
        ("((((((I1))))))", 5),
        ("(((((2(I1))))))", 6),
        ("(I4 /)", 3),
        ("(I4/)", 3),
        ("(3/)", 99),
        ("(/3)", 2),
        ("(A,3A,3A4)", 99),
        ("(I-4)", 2),
        ("(S", 2),
        ("(SP", 3),
        ("(S,", 3),
        ("(S)", 99),
        ("(S,I3)", 99),
        ("(SP,SS,S,2(SP))", 99),
        ("(SX)", 2),
        ("(SPX)", 3),
        ("(SPP)", 3),
        ("(SSS)", 3),
        ("(SSP)", 3),
        ("(3SP)", 2),
        ("(3S)", 2),
        ("(SP3)", 3),
        ("(S3)", 2),
        ("(SPI3)", 3),
        ("(S/)", 2),
        ("(I3SP)", 3),
        ("(sp)", 1),
        ("(Sp)", 2),
        ("(S P)", 2),
        ("(P)", 1),
        ("(\u{7f})", 1),
        ("('\u{7f}')", 2),
    ];
    for (format, at) in places {
        let expected = if at == 99 { Ok(()) } else { refusal(3, at) };
        assert_eq!(place(format), expected, "{format}");
    }
}

#[test]
fn ranges_sizes_and_lengths() {
    assert_eq!(place("(I65)"), refusal(4, 2));
    assert_eq!(place("(I064,F64.009,255X,T255,255/)"), Ok(()));
    assert_eq!(place("(I4,0I4)"), refusal(4, 4));
    assert_eq!(place("(F65.10)"), refusal(4, 2));
    assert_eq!(place("(F64.10)"), refusal(4, 5));
    assert_eq!(place("(256X)"), refusal(4, 1));
    assert_eq!(place("(T256)"), refusal(4, 2));
    assert_eq!(place("(000(I1))"), refusal(4, 1));
    assert_eq!(place("(I0,X)"), refusal(3, 4));
    assert_eq!(place("(16(255I1,I1))"), Ok(()));
    assert_eq!(place("(16(255I1,I1),'x')"), refusal(5, 0));
    assert_eq!(place("(255(255(255(255(255I1)))))"), refusal(5, 0));
    assert_eq!(place("(16(255(SP)),16(SP))"), Ok(()));
    assert_eq!(place("(16(255(SP)),17(SP))"), refusal(5, 0));
    assert_eq!(place("(16(255(SS)),15(S),I1)"), Ok(()));
    assert_eq!(place("(16(255(SS)),15(S),I1,S)"), refusal(5, 0));
    let long = |n: usize| format!("('{}')", "x".repeat(n - 4));
    assert_eq!(place(&long(1024)), Ok(()));
    assert_eq!(place(&long(1025)), refusal(2, 1024));
    assert_eq!(place(&"(".repeat(1025)), refusal(2, 1024));
}

#[test]
fn the_list_in_writing() {
    let mut buffer = [0; 100];
    let mut six = |elements: &[Value], count, area: &[u8]| write(100, b"(A)", elements, count, area, &mut buffer);
    let bad = [
        Integer(1_000_000_000_000_000_000),
        Integer(i64::MIN),
        decimal(i64::MIN, 0),
        decimal(0, 10),
        decimal(0, u64::MAX),
        Text { start: 0, len: 0 },
        Text { start: 0, len: 65 },
        Text { start: 67, len: 1 },
        Text { start: u64::MAX, len: 1 },
        Text { start: 66, len: 2 },
        Text { start: 65, len: 1 },
        Text { start: 64, len: 2 },
        Text { start: 1, len: u64::MAX },
    ];
    let area = [[b'a'; 65].as_slice(), &[31, b'a']].concat();
    for value in bad {
        assert_eq!(six(&[Logical(true), value], 2, &area), refusal(6, 1), "{value:?}");
        assert_eq!(six(&[Logical(true), value], 1, &area), refusal(7, 0), "{value:?}");
        assert_eq!(six(&[Logical(true), value], 65, &area), refusal(6, 1), "{value:?}");
    }
    assert_eq!(six(&[], 65, &area), refusal(6, 64));
    assert_eq!(six(&[], u64::MAX, &area), refusal(6, 64));
    assert_eq!(six(&[], 64, &area), refusal(7, 0));
    assert!(six(&[Text { start: 1, len: 64 }], 1, &area).is_ok());
    assert!(six(&[Text { start: 66, len: 1 }], 1, &area).is_ok());
}

#[test]
fn the_list_in_reading() {
    let mut area = [b'#'; 64];
    let mut answer =
        |wanted: &[Value], count, room: usize| read(70, b"(A)", wanted, count, &mut area[..room], &[b'x'; 700]);
    let text = |len| Text { start: u64::MAX, len };
    assert_eq!(answer(&[text(0)], 1, 64), refusal(6, 0));
    assert_eq!(answer(&[text(1), text(65)], 2, 64), refusal(6, 1));
    assert_eq!(answer(&[text(1), text(65)], 65, 64), refusal(6, 1));
    assert_eq!(answer(&[text(1)], 65, 64), refusal(6, 64));
    assert_eq!(answer(&[text(64), text(1)], 2, 64), refusal(13, 0));
    assert_eq!(answer(&[text(64)], 1, 63), refusal(13, 0));
    assert_eq!(answer(&[Integer(i64::MIN)], 1, 63), refusal(7, 0));
    let (counts, values) = answer(&[text(3), text(61)], 2, 64).unwrap();
    assert_eq!(counts, Counts { records: 2, starred: 0 });
    assert_eq!(values, [Text { start: 0, len: 3 }, Text { start: 3, len: 61 }]);
}

#[test]
fn a_refused_reading_leaves_the_area() {
    let mut area = *b"######";
    let wanted = [Text { start: 0, len: 3 }, Integer(0)];
    assert_eq!(read(6, b"(A3,I3)", &wanted, 2, &mut area, b"FOH 1x"), refusal(12, 1));
    assert_eq!(&area, b"######");
    assert!(read(6, b"(A3,I3)", &wanted, 2, &mut area, b"FOH 1 ").is_ok());
    assert_eq!(&area, b"FOH###");
}

#[test]
fn the_list_text() {
    let text = b"I -7\nD 12 9\nL F\nA F H ";
    let elements = vec![Integer(-7), decimal(12, 9), Logical(false), Text { start: 18, len: 4 }];
    assert_eq!(list_text(text), Ok(elements));
    assert_eq!(list_text(b""), Ok(vec![]));
    assert_eq!(list_text(b"I 999999999999999999\nI -0\n"), Ok(vec![Integer(999_999_999_999_999_999), Integer(0)]));
    let malformed = [
        "I",
        "I ",
        "I -",
        "I +1",
        "I 1000000000000000000",
        "I  1",
        "I 1 ",
        "i 1",
        "D 5",
        "D 5 -0",
        "D 5 10",
        "D 5  1",
        "D  1",
        "D 5 1 ",
        "L",
        "L T ",
        "L t",
        "LT",
        "A",
        "A ",
        "A \u{1f}",
        "A\tb",
        "",
        "X",
        "I 1\r",
        "I 1-",
        "I --1",
    ];
    for line in malformed {
        assert_eq!(list_text(format!("L T\n{line}\n").as_bytes()), refusal(6, 1), "{line}");
    }
    let lines = |n: usize| "L T\n".repeat(n);
    assert_eq!(list_text(lines(64).as_bytes()).unwrap().len(), 64);
    assert_eq!(list_text(lines(65).as_bytes()), refusal(6, 64));
    assert_eq!(list_text((lines(64) + "\n").as_bytes()), refusal(6, 64));
    assert_eq!(list_text((lines(64) + "?").as_bytes()), refusal(6, 64));
    assert_eq!(list_text((lines(63) + "?\n" + &lines(9)).as_bytes()), refusal(6, 63));
    assert!(list_text(format!("A {}", "x".repeat(64)).as_bytes()).is_ok());
    assert_eq!(list_text(format!("A {}", "x".repeat(65)).as_bytes()), refusal(6, 0));
}

#[test]
fn the_program() {
    let printed = |input: &str| String::from_utf8(sheet(input.as_bytes())).unwrap();
    let input = "20\n(I4,2X,F6.2,1X,L1,1X,A3)\nI 7\nD -1255 3\nL T\nA FOH\n";
    let output = "   7   -1.26 T FOH  \nrecords 1 starred 0\n";
    assert_eq!(printed(input), output);
    assert_eq!(printed(input.trim_end()), output);
    assert_eq!(printed(&format!("0{input}")), output);
    assert_eq!(printed(&format!("{input}\n")), "refused 6 4\n");
    assert_eq!(printed(""), "refused 1 0\n");
    assert_eq!(printed("\n(I4)\n"), "refused 1 0\n");
    assert_eq!(printed("0020\n(I4)\n"), "refused 1 0\n");
    assert_eq!(printed("20\r\n(I4)\n"), "refused 1 0\n");
    assert_eq!(printed("256\n(I4)\n"), "refused 1 0\n");
    assert_eq!(printed("20"), "refused 3 0\n");
    assert_eq!(printed("20\n"), "refused 3 0\n");
    assert_eq!(printed("20\n(I4)\r\n"), "refused 3 4\n");
    assert_eq!(printed("20\n(I4,\n?"), "refused 3 4\n");
    assert_eq!(printed("2\n('ab')"), "ab\nrecords 1 starred 0\n");
    let many = |format, n| printed(&format!("1\n{format}\n{}", "I 1\n".repeat(n)));
    assert!(many("(16(255/),I1)", 16).ends_with("\n1\nrecords 65296 starred 0\n"));
    assert_eq!(many("(16(255/),I1)", 17), "refused 9 16\n");
}

#[test]
fn the_host() {
    let mut buffer = *b"##########";
    assert_eq!(host_write(3, b"(I3)", b"I 5\nI 1000\n", &mut buffer), 2);
    assert_eq!(&buffer, b"  5***####");
    assert_eq!(host_write(3, b"(I3)", b"I 5\nL T", &mut buffer), -7);
    assert_eq!(host_write(3, b"(I3,)", b"?", &mut buffer), -3);
    assert_eq!(host_write(3, b"(I3)", b"?", &mut buffer), -6);
    assert_eq!(host_write(0, b"", b"", &mut buffer), -1);
    assert_eq!(&buffer, b"  5***####");
    assert_eq!((host_check(b"(I3)"), host_check(b"(I3"), host_check(b"(I0)")), (0, -3, -4));
}

#[test]
fn traces() {
    let traced = trace(9, b"(A2,F3.1)", &[Text { start: 0, len: 3 }, decimal(25, 2)], 2, b"FOH", 1).unwrap();
    let shown: Vec<_> = traced.placements.into_iter().map(|placement| placement.content).collect();
    assert!(matches!(&shown[0], trace::Content::Field { shown: Shown::Text(text), .. } if text == b"FO "));
    assert!(matches!(&shown[1], trace::Content::Field { shown: Shown::Value(Decimal { units: 3, places: 1 }), .. }));
    assert_eq!(fields_met(b"(2I3,(L1))", 5).len(), 5);
    assert_eq!(fields_met(b"(2I3,(1X))", 5).len(), 2);
    assert_eq!(fields_met(b"(2I3,(SP))", 5).len(), 2);
}

/// Endings that complete every beginning of a grammatical text.
fn endings() -> Vec<Vec<u8>> {
    let items = ["", "1", "I1", "1.1", ".1", "(I1", "'", "x'", "\"", "x\"", "''", "\"\"", "1X"];
    let ending = |brackets: usize| items.map(|item| format!("{item}{}", ")".repeat(brackets)).into_bytes());
    let mut endings: Vec<_> = (0..=5).flat_map(ending).collect();
    endings.push(b"(I1)".to_vec());
    endings
}

fn is_beginning(text: &[u8], endings: &[Vec<u8>]) -> bool {
    let grammatical = |ending: &Vec<u8>| match check(&[text, ending].concat()) {
        Ok(()) => true,
        Err(refusal) => refusal.number != 3,
    };
    endings.iter().any(grammatical)
}

/// The place of refusal 3 by its words: the bytes before it begin some
/// grammatical text, and with one byte more they do not.
#[test]
fn the_place_of_refusal_3_by_trial() {
    let endings = endings();
    let alphabet = b"(1I.F',)X/AT\"SP";
    let texts = |length: u32| (0..alphabet.len().pow(length)).map(move |number| (number, length));
    for start in ["", "(", "(I1", "(((((", "('", "(12", "(F1", "(\"'", "(S"] {
        for (mut number, length) in (0..=3).flat_map(texts) {
            let mut text = start.as_bytes().to_vec();
            for _ in 0..length {
                text.push(alphabet[number % alphabet.len()]);
                number /= alphabet.len();
            }
            if let Err(Refusal { number: 3, place }) = check(&text) {
                let place = place as usize;
                assert!(is_beginning(&text[..place], &endings), "{}", text.escape_ascii());
                assert!(place == text.len() || !is_beginning(&text[..=place], &endings), "{}", text.escape_ascii());
            }
        }
    }
}
