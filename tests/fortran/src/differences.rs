//! The known differences: each by its rule, and what the compiler does instead, to the byte.

use crate::calls::{self, Value};
use crate::compiler::Compiler;
use crate::exact;
use crate::format::{self, Field};

#[derive(Clone, Copy, Debug, PartialEq, Eq, PartialOrd, Ord)]
pub enum Class {
    MinusZero,
    NoZero,
    HalfToEven,
    RoundedTwice,
    Misplaced,
    Returned,
    MovePast,
    FieldCut,
    LoneMark,
    Exponent,
    NotFinite,
    SmallLetter,
    Comma,
    BeyondLimits,
    Padded,
    SlashPast,
    LiteralRead,
}

impl Class {
    pub fn title(self) -> &'static str {
        match self {
            Class::MinusZero => "minus on a zero left by rounding",
            Class::NoZero => "no zero before the point though a column is free",
            Class::HalfToEven => "halves to even",
            Class::RoundedTwice => "a little less than half of the last place rounded up",
            Class::Misplaced => "T after X or T with nothing put between: misplaced",
            Class::Returned => "return to a first group without repeat: what follows it is not met",
            Class::MovePast => "X or T past the record where nothing is put",
            Class::FieldCut => "field or literal past the record: cut",
            Class::LoneMark => "lone sign or point read as 0",
            Class::Exponent => "exponent read",
            Class::NotFinite => "INF or NAN read",
            Class::SmallLetter => "small t or f read as a logical",
            Class::Comma => "comma ends a field",
            Class::BeyondLimits => "number beyond the list's limits read",
            Class::Padded => "field past the record read as blanks",
            Class::SlashPast => "slash past the last record where nothing is read",
            Class::LiteralRead => "literal in a format for reading",
        }
    }
}

/// A field's characters, written by the library alone in a record of its width, after SP where there is to be a plus.
pub fn alone(field: Field, plus: bool, value: Value, area: &[u8], width: u64) -> Vec<u8> {
    let mut record = vec![b' '; width as usize];
    let text = format!("({}{})", if plus { "SP," } else { "" }, format::field_text(field));
    calls::write(width, text.as_bytes(), &[value], 1, area, &mut record).expect("a field alone");
    record
}

/// A decimal under Fw.d, after SP where there is to be a plus.
#[derive(Clone, Copy)]
pub struct Number {
    pub w: u64,
    pub d: u64,
    pub plus: bool,
    pub units: i64,
    pub places: u64,
}

impl Number {
    /// The field that the library writes for it.
    fn field(self) -> Vec<u8> {
        let Number { w, d, plus, units, places } = self;
        alone(Field::Decimal { w, d }, plus, Value::Decimal { units, places }, b"", w)
    }

    /// The units at d places, halves away from zero.
    fn at_places(self) -> Option<i64> {
        exact::at_places(self.units, self.places, self.d)
    }
}

/// What a compiler is known to write for a decimal, and why, where it is not what the rules ask.
pub fn decimal_written(compiler: Compiler, number: Number) -> Option<(Vec<u8>, Vec<Class>)> {
    match compiler {
        Compiler::Gfortran => None,
        Compiler::Flang if number.at_places() == Some(0) => by_flang(number),
        Compiler::Flang => None,
        Compiler::F2c => by_f2c(number),
    }
}

/// What rounds to zero: flang rounds to d digits first, at least one, so that a little less than a half becomes one,
/// and keeps the minus of a zero.
fn by_flang(number: Number) -> Option<(Vec<u8>, Vec<Class>)> {
    let Number { w, d, units, places, .. } = number;
    let digits = d.max(1);
    if exact::double_at_places(units, places, d + digits) == 5 * 10u128.pow(digits as u32 - 1) {
        let last = Number { units: units.signum(), places: d, ..number };
        return Some((last.field(), vec![Class::RoundedTwice]));
    }
    (units < 0).then(|| (minus_zero(w, d), vec![Class::MinusZero]))
}

/// -0.00, without the zero before the point where no column is free, or asterisks.
fn minus_zero(w: u64, d: u64) -> Vec<u8> {
    let zeros = "0".repeat(d as usize);
    let numeral = if w >= d + 3 {
        format!("-0.{zeros}")
    } else if w == d + 2 && d > 0 {
        format!("-.{zeros}")
    } else {
        "*".repeat(w as usize)
    };
    format!("{numeral:>width$}", width = w as usize).into_bytes()
}

/// libf2c rounds halves to even, and leaves out the zero before the point if d is not 0.
fn by_f2c(number: Number) -> Option<(Vec<u8>, Vec<Class>)> {
    let Number { d, units, places, .. } = number;
    let mut classes = Vec::new();
    let asked = number.field();
    let mut written = asked.clone();
    if let Some(even) = exact::half_to_even(units, places, d) {
        written = Number { units: even, places: d, ..number }.field();
        if written != asked {
            classes.push(Class::HalfToEven);
        }
    }
    if let (true, Some(without)) = (d > 0, without_zero(&written)) {
        written = without;
        classes.push(Class::NoZero);
    }
    (written != asked).then_some((written, classes))
}

fn without_zero(field: &[u8]) -> Option<Vec<u8>> {
    let first = field.iter().position(|&byte| byte != b' ')?;
    let zero = first + usize::from(b"+-".contains(&field[first]));
    if field.get(zero..zero + 2) != Some(b"0.") {
        return None;
    }
    let mut without = field.to_vec();
    without.remove(zero);
    without.insert(0, b' ');
    Some(without)
}

/// What a compiler makes of a field that it reads.
#[derive(Clone, Debug, PartialEq)]
pub enum Read {
    /// As the rules: this value, or refused.
    Value(Got),
    Refused,
    /// Otherwise than the rules, for this reason.
    Known(Got, Class),
    /// Not foreseen; such fields are not given to compilers.
    Unsure,
}

#[derive(Clone, Debug, PartialEq)]
pub enum Got {
    Integer(i64),
    /// The double nearest to the decimal.
    Decimal(f64),
    Logical(bool),
    Text(Vec<u8>),
}

/// A field read by the library alone, from a record of its width.
fn read_alone(field: Field, length: u64, bytes: &[u8]) -> Option<Got> {
    let wanted = wanted(field, length);
    let mut area = vec![0; length as usize];
    let text = format!(
        "({})",
        format::field_text(match field {
            Field::Text { .. } => Field::Text { w: Some(bytes.len() as u64) },
            other => other,
        })
    );
    let (_, values) = calls::read(bytes.len() as u64, text.as_bytes(), &[wanted], 1, &mut area, bytes).ok()?;
    Some(got(values[0], &area))
}

pub fn wanted(field: Field, length: u64) -> Value {
    match field {
        Field::Integer { .. } => Value::Integer(0),
        Field::Decimal { .. } => Value::Decimal { units: 0, places: 0 },
        Field::Logical { .. } => Value::Logical(false),
        Field::Text { .. } => Value::Text { start: 0, len: length },
    }
}

/// A value as the compilers can show it.
pub fn got(value: Value, area: &[u8]) -> Got {
    match value {
        Value::Integer(n) => Got::Integer(n),
        Value::Decimal { units, places } => Got::Decimal(exact::nearest(units, places)),
        Value::Logical(truth) => Got::Logical(truth),
        Value::Text { start, len } => Got::Text(area[start as usize..(start + len) as usize].to_vec()),
    }
}

/// What a compiler is known to make of a field; `last` where no field follows.
pub fn field_read(compiler: Compiler, field: Field, length: u64, bytes: &[u8], last: bool) -> Read {
    let value = read_alone(field, length, bytes);
    match (field, value) {
        (_, Some(Got::Integer(n))) if !compiler.holds(n) => Read::Unsure,
        (Field::Decimal { .. }, Some(_)) if compiler == Compiler::F2c && digits_in(bytes) > 15 => Read::Unsure,
        (Field::Logical { .. }, _) if ends_early(compiler, bytes) && !last => Read::Unsure,
        (_, Some(value)) => Read::Value(value),
        (Field::Text { .. }, None) => Read::Unsure,
        (Field::Logical { .. }, None) => logical_refused(bytes),
        (_, None) if ends_early(compiler, bytes) => comma(field, bytes, last),
        (Field::Integer { .. }, None) => integer_refused(compiler, bytes),
        (Field::Decimal { d, .. }, None) => decimal_refused(compiler, d, bytes),
    }
}

/// flang and libf2c end a field at a comma.
fn ends_early(compiler: Compiler, bytes: &[u8]) -> bool {
    compiler != Compiler::Gfortran && bytes.contains(&b',')
}

fn digits_in(bytes: &[u8]) -> usize {
    bytes.iter().filter(|byte| byte.is_ascii_digit()).count()
}

fn dropped(bytes: &[u8]) -> Vec<u8> {
    bytes.iter().copied().filter(|&byte| byte != b' ').collect()
}

/// What the rules refuse under L: compilers read small letters too.
fn logical_refused(bytes: &[u8]) -> Read {
    let rest: Vec<u8> = bytes.iter().copied().skip_while(|&byte| byte == b' ').collect();
    let letter = if rest.first() == Some(&b'.') { rest.get(1) } else { rest.first() };
    match letter {
        Some(b't') => Read::Known(Got::Logical(true), Class::SmallLetter),
        Some(b'f') => Read::Known(Got::Logical(false), Class::SmallLetter),
        _ => Read::Refused,
    }
}

/// flang and libf2c read up to the comma and go on after it, which is foreseen for the last field only.
fn comma(field: Field, bytes: &[u8], last: bool) -> Read {
    let end = bytes.iter().position(|&byte| byte == b',').expect("a comma");
    let before: &[u8] = if end == 0 { b" " } else { &bytes[..end] };
    let narrow = match field {
        Field::Decimal { d, .. } => Field::Decimal { w: before.len() as u64, d },
        _ => Field::Integer { w: before.len() as u64 },
    };
    match read_alone(narrow, 0, before) {
        Some(value) if last && digits_in(before) < 10 => Read::Known(value, Class::Comma),
        _ => Read::Unsure,
    }
}

/// What the rules refuse under I. gfortran reads a lone sign only where a blank follows.
fn integer_refused(compiler: Compiler, bytes: &[u8]) -> Read {
    let left = dropped(bytes);
    let digits = left.strip_prefix(b"-").or(left.strip_prefix(b"+")).unwrap_or(&left);
    if digits.is_empty() && (compiler != Compiler::Gfortran || bytes.ends_with(b" ")) {
        return Read::Known(Got::Integer(0), Class::LoneMark);
    }
    if digits.is_empty() || !digits.iter().all(u8::is_ascii_digit) {
        return Read::Refused;
    }
    match std::str::from_utf8(&left).expect("digits").parse::<i64>() {
        Ok(n) if compiler != Compiler::F2c => Read::Known(Got::Integer(n), Class::BeyondLimits),
        _ => Read::Unsure,
    }
}

/// What the rules refuse under F.
fn decimal_refused(compiler: Compiler, d: u64, bytes: &[u8]) -> Read {
    let left = String::from_utf8(dropped(bytes)).expect("ASCII");
    let (sign, rest) = match left.chars().next() {
        Some(mark @ ('+' | '-')) => (mark, &left[1..]),
        _ => ('+', &left[..]),
    };
    if rest.is_empty() || rest == "." {
        return Read::Known(Got::Decimal(0.0), Class::LoneMark);
    }
    if let Some(value) = not_finite(compiler, bytes, rest) {
        return Read::Known(Got::Decimal(value), Class::NotFinite);
    }
    let end = rest.find(|c: char| !c.is_ascii_digit() && c != '.').unwrap_or(rest.len());
    let (mantissa, tail) = rest.split_at(end);
    if !is_mantissa(mantissa) {
        return if mantissa.is_empty() || tail.is_empty() { without_digits(rest) } else { Read::Unsure };
    }
    if tail.is_empty() {
        return number(sign, mantissa, d, 0, Class::BeyondLimits, compiler);
    }
    match exponent(tail) {
        Some(power) if !blank_inside(bytes) => number(sign, mantissa, d, power, Class::Exponent, compiler),
        Some(_) => Read::Unsure,
        None if !tail.contains(OPEN) && !tail[..1].contains(MARKS) => Read::Refused,
        None => Read::Unsure,
    }
}

/// Letters and marks that some compiler gives a meaning in a numeral.
const OPEN: &[char] = &['E', 'D', 'Q', 'e', 'd', 'q', ',', ';', '(', ')', 'I', 'N', 'i', 'n'];
const MARKS: &[char] = &['+', '-'];

/// No digits where they should begin, or two points: refused by all if nothing in it may have a meaning.
fn without_digits(rest: &str) -> Read {
    if rest.contains(OPEN) || rest.contains(MARKS) {
        return Read::Unsure;
    }
    Read::Refused
}

fn not_finite(compiler: Compiler, bytes: &[u8], rest: &str) -> Option<f64> {
    if compiler == Compiler::F2c || blank_inside(bytes) {
        return None;
    }
    match rest {
        "INF" => Some(if bytes.contains(&b'-') { f64::NEG_INFINITY } else { f64::INFINITY }),
        "NAN" if !bytes.contains(&b'-') => Some(f64::NAN),
        _ => None,
    }
}

fn blank_inside(bytes: &[u8]) -> bool {
    std::str::from_utf8(bytes).expect("ASCII").trim_matches(' ').contains(' ')
}

fn is_mantissa(text: &str) -> bool {
    text.bytes().any(|byte| byte.is_ascii_digit()) && text.matches('.').count() <= 1
}

/// E or D with one or two digits, signed or not, or a sign with them.
fn exponent(tail: &str) -> Option<i64> {
    let rest = tail.strip_prefix(['E', 'D', 'e', 'd']).unwrap_or(tail);
    if rest.len() == tail.len() && !tail.starts_with(MARKS) {
        return None;
    }
    let digits = rest.strip_prefix(MARKS).unwrap_or(rest);
    let short = (1..=2).contains(&digits.len()) && digits.bytes().all(|byte| byte.is_ascii_digit());
    if short {
        rest.parse().ok()
    } else {
        None
    }
}

/// The double nearest to a mantissa, without a point over 10^d, times a power of ten.
fn number(sign: char, mantissa: &str, d: u64, power: i64, class: Class, compiler: Compiler) -> Read {
    if compiler == Compiler::F2c && digits_in(mantissa.as_bytes()) > 15 {
        return Read::Unsure;
    }
    let power = if mantissa.contains('.') { power } else { power - d as i64 };
    let value = format!("{sign}{mantissa}e{power}").parse().expect("a number");
    Read::Known(Got::Decimal(value), class)
}
