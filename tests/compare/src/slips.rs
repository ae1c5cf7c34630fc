//! Wrong variants of the reference, each with one slip, which the comparison
//! must notice.

use crate::calls::{Answer, Calls, List, Reference, SHEET_OUTPUT};
use crate::cases::{texts_length, Reading, Writing};
use crate::readback::traced;
use reference::format::Field;
use reference::list::LARGEST;
use reference::trace::{fields_met, Content, Placement, Shown};
use reference::Value;

/// The calls, of which those with the slip are replaced.
pub struct Slip {
    pub name: &'static str,
    pub write: fn(&Writing, &mut [u8]) -> Answer,
    pub read: fn(&Reading, &mut [u8]) -> (Answer, List),
    pub check: fn(&[u8]) -> Answer,
    pub list_text: fn(&[u8]) -> (Answer, List),
    pub sheet: fn(&[u8], &mut [u8; SHEET_OUTPUT]) -> u64,
    pub host_write: fn(u64, &[u8], &[u8], &mut [u8]) -> i64,
    pub host_check: fn(&[u8]) -> i64,
}

impl Calls for Slip {
    fn write(&self, case: &Writing, buffer: &mut [u8]) -> Answer {
        (self.write)(case, buffer)
    }
    fn read(&self, case: &Reading, area: &mut [u8]) -> (Answer, List) {
        (self.read)(case, area)
    }
    fn check(&self, format: &[u8]) -> Answer {
        (self.check)(format)
    }
    fn list_text(&self, text: &[u8]) -> (Answer, List) {
        (self.list_text)(text)
    }
    fn sheet(&self, input: &[u8], output: &mut [u8; SHEET_OUTPUT]) -> u64 {
        (self.sheet)(input, output)
    }
    fn host_write(&self, width: u64, format: &[u8], list_text: &[u8], buffer: &mut [u8]) -> i64 {
        (self.host_write)(width, format, list_text, buffer)
    }
    fn host_check(&self, format: &[u8]) -> i64 {
        (self.host_check)(format)
    }
}

/// No slip at all.
pub const RIGHT: Slip = Slip {
    name: "right",
    write: |case, buffer| Reference.write(case, buffer),
    read: |case, area| Reference.read(case, area),
    check: |format| Reference.check(format),
    list_text: |text| Reference.list_text(text),
    sheet: |input, output| Reference.sheet(input, output),
    host_write: |width, format, text, buffer| Reference.host_write(width, format, text, buffer),
    host_check: |format| Reference.host_check(format),
};

pub const SLIPS: &[Slip] = &[
    Slip { name: "halves toward zero", write: halves_toward_zero, ..RIGHT },
    Slip { name: "stars chosen before rounding", write: stars_before_rounding, ..RIGHT },
    Slip { name: "minus on a zero left by rounding", write: minus_on_zero, ..RIGHT },
    Slip { name: "stars for want of a zero's column", write: stars_for_zero, ..RIGHT },
    Slip { name: "text justified left", write: text_left, ..RIGHT },
    Slip { name: "return to the whole format", write: whole_format, ..RIGHT },
    Slip { name: "overwritten starred fields not counted", write: overwritten_not_counted, ..RIGHT },
    Slip { name: "every number starred", write: all_starred, ..RIGHT },
    Slip { name: "stars in place of refusal 11", write: stars_for_11, ..RIGHT },
    Slip { name: "first record laid down, then refused", write: first_record_laid, ..RIGHT },
    Slip { name: "a refusal with a record", write: refusal_with_record, ..RIGHT },
    Slip { name: "place of refusal 8 off by one", write: place_of_8, ..RIGHT },
    Slip { name: "refusal 9 before 10", write: nine_before_ten, ..RIGHT },
    Slip { name: "place 64 for every list over 64", write: over_64, ..RIGHT },
    Slip { name: "closing slash not counted", write: closing_slash, ..RIGHT },
    Slip { name: "width 255 refused", write: width_255, ..RIGHT },
    Slip { name: "largest magnitude refused", write: largest_refused, ..RIGHT },
    Slip { name: "byte after the records blanked", write: byte_after, ..RIGHT },
    Slip { name: "17th item blank", write: |case, buffer| item_blank(case, buffer, 16), ..RIGHT },
    Slip { name: "81st item blank", write: |case, buffer| item_blank(case, buffer, 80), ..RIGHT },
    Slip { name: "given slots past the count kept", read: slots_kept, ..RIGHT },
    Slip { name: "area blanked after the texts", read: area_blanked, ..RIGHT },
    Slip { name: "just enough area refused", read: just_enough_area, ..RIGHT },
    Slip { name: "small letters read", read: small_letters, ..RIGHT },
    Slip { name: "asterisks read as zeros", read: asterisks_as_zeros, ..RIGHT },
    Slip { name: "places of a decimal lost", read: places_lost, ..RIGHT },
    Slip { name: "place of refusal 3 at an empty literal", check: empty_literal, ..RIGHT },
    Slip { name: "place of refusal 4 after the number", check: after_number, ..RIGHT },
    Slip { name: "size 4,096 refused", check: size_refused, ..RIGHT },
    Slip { name: "1,025 bytes taken", check: one_byte_more, ..RIGHT },
    Slip { name: "plus in list text", list_text: plus_taken, ..RIGHT },
    Slip { name: "empty last line passed over", list_text: empty_last_line, ..RIGHT },
    Slip { name: "last line feed missing", sheet: last_line_feed, ..RIGHT },
    Slip { name: "host's number not negated", host_write: not_negated, ..RIGHT },
    Slip { name: "host's check gives 1", host_check: |format| Reference.host_check(format).max(-1), ..RIGHT },
];

/// Writes other values for some elements, if the writing is accepted.
fn with_values(case: &Writing, buffer: &mut [u8], other: impl Fn(&Content) -> Option<Value>) -> Answer {
    let mut changed = case.clone();
    for placement in traced(case).map_or(Vec::new(), |traced| traced.placements) {
        if let (Content::Field { element, .. }, Some(value)) = (&placement.content, other(&placement.content)) {
            if let Some(slot) = changed.elements.get_mut(*element) {
                *slot = value;
            }
        }
    }
    Reference.write(&changed, buffer)
}

/// Writes, then changes the bytes of some placements.
pub fn patched(case: &Writing, buffer: &mut [u8], patch: impl Fn(&Placement, &mut [u8]) -> bool) -> Answer {
    let mut answer = Reference.write(case, buffer);
    for placement in traced(case).map_or(Vec::new(), |traced| traced.placements) {
        let starred = patch(&placement, &mut buffer[placement.span.bytes(case.width as usize)]);
        answer.starred += u64::from(starred);
    }
    answer
}

/// Writes, then blanks the columns of one item.
fn item_blank(case: &Writing, buffer: &mut [u8], item: usize) -> Answer {
    let answer = Reference.write(case, buffer);
    if let Some(placement) = traced(case).ok().and_then(|traced| traced.placements.get(item).cloned()) {
        buffer[placement.span.bytes(case.width as usize)].fill(b' ');
    }
    answer
}

fn halves_toward_zero(case: &Writing, buffer: &mut [u8]) -> Answer {
    with_values(case, buffer, |content| match content {
        Content::Field { field: Field::Decimal { d, .. }, value: Value::Decimal { units, places }, .. }
            if d < places =>
        {
            let power = 10_i64.pow((places - d) as u32);
            let half = units % power == power / 2 * units.signum();
            half.then_some(Value::Decimal { units: units - units.signum(), places: *places })
        }
        _ => None,
    })
}

fn stars_before_rounding(case: &Writing, buffer: &mut [u8]) -> Answer {
    with_values(case, buffer, |content| match content {
        Content::Field {
            field: Field::Decimal { d, .. },
            value: Value::Decimal { units, places },
            starred: true,
            ..
        } if d < places => {
            let power = 10_i64.pow((places - d) as u32);
            Some(Value::Decimal { units: units / power, places: *d })
        }
        _ => None,
    })
}

fn minus_on_zero(case: &Writing, buffer: &mut [u8]) -> Answer {
    patched(case, buffer, |placement, bytes| {
        if let Content::Field { value: Value::Decimal { units, .. }, shown: Shown::Value(shown), .. } =
            &placement.content
        {
            let zero = matches!(shown, Value::Decimal { units: 0, .. });
            let free = bytes.iter().rposition(|&byte| byte == b' ');
            if let (true, true, Some(at)) = (*units < 0, zero, free) {
                bytes[at] = b'-';
            }
        }
        false
    })
}

fn stars_for_zero(case: &Writing, buffer: &mut [u8]) -> Answer {
    patched(case, buffer, |_, bytes| {
        let no_zero = bytes.starts_with(b".") || bytes.starts_with(b"-.");
        if no_zero {
            bytes.fill(b'*');
        }
        no_zero
    })
}

fn text_left(case: &Writing, buffer: &mut [u8]) -> Answer {
    patched(case, buffer, |placement, bytes| {
        if let Content::Field { value: Value::Text { len, .. }, .. } = placement.content {
            let blanks = bytes.len().saturating_sub(len as usize);
            bytes.rotate_left(blanks);
        }
        false
    })
}

/// A group around all items is the rightmost one of level 1.
fn whole_format(case: &Writing, buffer: &mut [u8]) -> Answer {
    let whole = [b"(", case.format.as_slice(), b")"].concat();
    let format = if reference::check(&whole).is_ok() { whole } else { case.format.clone() };
    Reference.write(&Writing { format, ..case.clone() }, buffer)
}

fn overwritten_not_counted(case: &Writing, buffer: &mut [u8]) -> Answer {
    let mut answer = Reference.write(case, buffer);
    for placement in traced(case).map_or(Vec::new(), |traced| traced.placements) {
        let starred = matches!(placement.content, Content::Field { starred: true, .. });
        let left = &buffer[placement.span.bytes(case.width as usize)];
        if starred && left.iter().any(|&byte| byte != b'*') {
            answer.starred -= 1;
        }
    }
    answer
}

fn all_starred(case: &Writing, buffer: &mut [u8]) -> Answer {
    patched(case, buffer, |placement, bytes| match placement.content {
        Content::Field { field: Field::Integer { .. } | Field::Decimal { .. }, starred, .. } => {
            bytes.fill(b'*');
            !starred
        }
        _ => false,
    })
}

fn stars_for_11(case: &Writing, buffer: &mut [u8]) -> Answer {
    let answer = Reference.write(case, buffer);
    let element = answer.place as usize;
    let fields = fields_met(&case.format, element + 1);
    match (answer.number, fields.get(element)) {
        (11, Some(Field::Decimal { d, .. })) => {
            let mut changed = case.clone();
            changed.elements[element] = Value::Decimal { units: LARGEST, places: *d };
            Reference.write(&changed, buffer)
        }
        _ => answer,
    }
}

fn first_record_laid(case: &Writing, buffer: &mut [u8]) -> Answer {
    let answer = Reference.write(case, buffer);
    let width = case.width as usize;
    if answer.number == 9 && answer.place > 0 && buffer.len() >= width {
        buffer[..width].fill(b' ');
    }
    answer
}

fn refusal_with_record(case: &Writing, buffer: &mut [u8]) -> Answer {
    let answer = Reference.write(case, buffer);
    Answer { records: answer.records.max(u64::from(answer.number == 9)), ..answer }
}

fn place_of_8(case: &Writing, buffer: &mut [u8]) -> Answer {
    let answer = Reference.write(case, buffer);
    Answer { place: answer.place + u64::from(answer.number == 8), ..answer }
}

fn nine_before_ten(case: &Writing, buffer: &mut [u8]) -> Answer {
    let answer = Reference.write(case, buffer);
    if answer.number != 10 {
        return answer;
    }
    let before = Writing { count: answer.place, ..case.clone() };
    let reached = Reference.write(&before, &mut buffer.to_vec()).records;
    let full = reached == buffer.len() as u64 / case.width;
    Answer { number: if full { 9 } else { 10 }, ..answer }
}

fn over_64(case: &Writing, buffer: &mut [u8]) -> Answer {
    let answer = Reference.write(case, buffer);
    let over = answer.number == 6 && case.count > 64;
    Answer { place: if over { 64 } else { answer.place }, ..answer }
}

fn closing_slash(case: &Writing, buffer: &mut [u8]) -> Answer {
    let answer = Reference.write(case, buffer);
    let closing = answer.records > 1 && case.format.ends_with(b"/)");
    Answer { records: answer.records - u64::from(closing), ..answer }
}

fn width_255(case: &Writing, buffer: &mut [u8]) -> Answer {
    let width = if case.width == 255 { 256 } else { case.width };
    Reference.write(&Writing { width, ..case.clone() }, buffer)
}

fn largest_refused(case: &Writing, buffer: &mut [u8]) -> Answer {
    let mut changed = case.clone();
    for element in &mut changed.elements {
        match element {
            Value::Integer(n) | Value::Decimal { units: n, .. } if n.unsigned_abs() == LARGEST as u64 => *n *= 2,
            _ => {}
        }
    }
    Reference.write(&changed, buffer)
}

fn byte_after(case: &Writing, buffer: &mut [u8]) -> Answer {
    let answer = Reference.write(case, buffer);
    let end = (answer.records * case.width.min(255)) as usize;
    if answer.number == 0 && end < buffer.len() {
        buffer[end] = b' ';
    }
    answer
}

fn slots_kept(case: &Reading, area: &mut [u8]) -> (Answer, List) {
    let (answer, mut list) = Reference.read(case, area);
    for slot in list.count as usize..case.wanted.len() {
        list.slots[slot] = case.wanted[slot];
    }
    (answer, list)
}

fn area_blanked(case: &Reading, area: &mut [u8]) -> (Answer, List) {
    let answer = Reference.read(case, area);
    if answer.0.number == 0 {
        area[texts_length(&case.wanted, case.count) as usize..].fill(b' ');
    }
    answer
}

fn just_enough_area(case: &Reading, area: &mut [u8]) -> (Answer, List) {
    let (answer, list) = Reference.read(case, area);
    let length = texts_length(&case.wanted, case.count);
    if answer.number != 0 || length == 0 || length < area.len() as u64 {
        return (answer, list);
    }
    area.copy_from_slice(&case.area);
    (Answer { number: 13, place: 0, records: 0, starred: 0 }, List::of(&[]))
}

/// Reads records in which some bytes stand for others.
fn with_bytes(case: &Reading, area: &mut [u8], other: impl Fn(u8) -> u8) -> (Answer, List) {
    let records = case.records.iter().map(|&byte| other(byte)).collect();
    Reference.read(&Reading { records, ..case.clone() }, area)
}

fn small_letters(case: &Reading, area: &mut [u8]) -> (Answer, List) {
    with_bytes(case, area, |byte| if b"tf".contains(&byte) { byte.to_ascii_uppercase() } else { byte })
}

fn asterisks_as_zeros(case: &Reading, area: &mut [u8]) -> (Answer, List) {
    with_bytes(case, area, |byte| if byte == b'*' { b'0' } else { byte })
}

fn places_lost(case: &Reading, area: &mut [u8]) -> (Answer, List) {
    let (answer, mut list) = Reference.read(case, area);
    for slot in &mut list.slots {
        if let Value::Decimal { units: 0, places } = slot {
            *places = 0;
        }
    }
    (answer, list)
}

fn empty_literal(format: &[u8]) -> Answer {
    let answer = Reference.check(format);
    let before = &format[..(answer.place as usize).min(format.len())];
    let marks = before.ends_with(b"''") || before.ends_with(b"\"\"");
    Answer { place: answer.place - u64::from(answer.number == 3 && marks), ..answer }
}

fn after_number(format: &[u8]) -> Answer {
    let answer = Reference.check(format);
    Answer { place: answer.place + u64::from(answer.number == 4), ..answer }
}

fn size_refused(format: &[u8]) -> Answer {
    let answer = Reference.check(format);
    let larger = [&format[..format.len().saturating_sub(1)], b",T1)"].concat();
    if answer.number == 0 && larger.len() <= 1024 {
        Reference.check(&larger)
    } else {
        answer
    }
}

fn one_byte_more(format: &[u8]) -> Answer {
    if format.len() == 1025 {
        Reference.check(&format[1..])
    } else {
        Reference.check(format)
    }
}

fn plus_taken(text: &[u8]) -> (Answer, List) {
    let without: Vec<u8> = text.iter().copied().filter(|&byte| byte != b'+').collect();
    let (answer, list) = Reference.list_text(text);
    if answer.number == 6 {
        Reference.list_text(&without)
    } else {
        (answer, list)
    }
}

fn empty_last_line(text: &[u8]) -> (Answer, List) {
    let shorter = if text.ends_with(b"\n\n") { &text[..text.len() - 1] } else { text };
    Reference.list_text(shorter)
}

fn last_line_feed(input: &[u8], output: &mut [u8; SHEET_OUTPUT]) -> u64 {
    Reference.sheet(input, output) - 1
}

fn not_negated(width: u64, format: &[u8], text: &[u8], buffer: &mut [u8]) -> i64 {
    Reference.host_write(width, format, text, buffer).abs()
}
