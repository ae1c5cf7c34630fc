//! Wrong variants of the sign settings, which the comparison must notice.

use crate::calls::{Answer, Calls, List, Reference};
use crate::cases::{Reading, Writing};
use crate::readback::traced;
use crate::signs::{after_sp, at_fields, below_zero, events, is_numeric, is_zero, placed, Event};
use crate::slips::{patched, Slip, RIGHT};
use reference::fields;
use reference::format::{Format, Item, Sign, LARGEST};
use reference::trace::{Content, Placement};
use reference::walk::Settings;
use std::ops::Range;

pub const SLIPS: &[Slip] = &[
    Slip { name: "a return resets the setting", write: |c, b| reset_at(c, b, &[Event::Return]), ..RIGHT },
    Slip { name: "a slash resets the setting", write: |c, b| reset_at(c, b, &[Event::Slash]), ..RIGHT },
    Slip { name: "a new record resets the setting", write: new_record, ..RIGHT },
    Slip { name: "a literal resets the setting", write: |c, b| reset_at(c, b, &[Event::Literal]), ..RIGHT },
    Slip { name: "a group's end resets the setting", write: |c, b| reset_at(c, b, &[Event::GroupEnd]), ..RIGHT },
    Slip { name: "a field resets the setting", write: |c, b| reset_at(c, b, &[Event::Field]), ..RIGHT },
    Slip { name: "the setting starts as after SP", write: |c, b| with_rule(c, b, true, right), ..RIGHT },
    Slip { name: "SP ignored", write: |c, b| ignored(c, b, Sign::SP), ..RIGHT },
    Slip { name: "SS ignored", write: |c, b| ignored(c, b, Sign::SS), ..RIGHT },
    Slip { name: "S ignored", write: |c, b| ignored(c, b, Sign::S), ..RIGHT },
    Slip { name: "S as SP", write: s_as_sp, ..RIGHT },
    Slip { name: "the last setting for the whole format", write: last_for_all, ..RIGHT },
    Slip { name: "zero without a plus after SP", write: zero_without, ..RIGHT },
    Slip { name: "plus only for what is above zero before rounding", write: plus_before_rounding, ..RIGHT },
    Slip { name: "minus on a zero left by rounding after SP", write: minus_on_zero, ..RIGHT },
    Slip { name: "negative with a plus", write: negative_with_plus, ..RIGHT },
    Slip { name: "stars without the plus column", write: stars_without_plus, ..RIGHT },
    Slip { name: "stars for a negative as if it had a plus too", write: stars_for_two_signs, ..RIGHT },
    Slip { name: "starred for want of the plus not counted", write: want_not_counted, ..RIGHT },
    Slip { name: "no zero before the point after SP", write: zero_left_out, ..RIGHT },
    Slip { name: "stars for want of a zero's column after SP", write: stars_for_zero, ..RIGHT },
    Slip { name: "plus in the first column", write: plus_first, ..RIGHT },
    Slip { name: "plus before logicals and texts", write: plus_on_others, ..RIGHT },
    Slip { name: "a setting behind the last element ends the walk", write: ends_at_setting, ..RIGHT },
    Slip { name: "a part of settings has a field", write: part_of_settings, ..RIGHT },
    Slip { name: "a plus wanted in reading after SP", read: plus_wanted, ..RIGHT },
    Slip { name: "a plus in reading only after SP", read: plus_unwanted, ..RIGHT },
    Slip { name: "settings of size 0", check: size_0, ..RIGHT },
    Slip { name: "settings of size 2", check: size_2, ..RIGHT },
    Slip { name: "X after S passed over", check: |format| passed_over(format, b"X"), ..RIGHT },
    Slip { name: "a width after a setting", check: |format| passed_over(format, b"0123456789"), ..RIGHT },
    Slip { name: "no comma needed after a setting", check: no_comma, ..RIGHT },
    Slip { name: "a setting with a repeat", check: repeat_taken, ..RIGHT },
    Slip { name: "place of refusal 3 at the setting", check: place_at_setting, ..RIGHT },
    Slip { name: "small letters for settings", check: small_letters, ..RIGHT },
];

/// The setting that the rules have after an event.
fn right(plus: bool, event: Event) -> bool {
    match event {
        Event::Setting(sign) => sign == Sign::SP,
        _ => plus,
    }
}

/// Writes, then writes the fields anew for which other settings are told.
fn with_settings(case: &Writing, buffer: &mut [u8], other: impl Fn(&Placement) -> Option<Settings>) -> Answer {
    let mut answer = Reference.write(case, buffer);
    for placement in traced(case).map_or(Vec::new(), |traced| traced.placements) {
        let Content::Field { field, settings, value, starred, .. } = placement.content else { continue };
        let Some(changed) = other(&placement).filter(|&changed| changed != settings) else { continue };
        let written = fields::write(field, changed, value, &case.area, placement.span.width).expect("written before");
        buffer[placement.span.bytes(case.width as usize)].copy_from_slice(&written.characters);
        answer.starred = answer.starred + u64::from(written.starred) - u64::from(starred);
    }
    answer
}

/// Writes with the settings that the events give by another rule.
fn with_rule(case: &Writing, buffer: &mut [u8], start: bool, after: impl Fn(bool, Event) -> bool) -> Answer {
    let pluses = at_fields(&events(&case.format, case.count), start, after);
    with_settings(case, buffer, |placement| match placement.content {
        Content::Field { element, .. } => Some(Settings { plus: pluses[element] }),
        Content::Literal => None,
    })
}

fn reset_at(case: &Writing, buffer: &mut [u8], at: &[Event]) -> Answer {
    with_rule(case, buffer, false, |plus, event| right(plus, event) && !at.contains(&event))
}

fn new_record(case: &Writing, buffer: &mut [u8]) -> Answer {
    reset_at(case, buffer, &[Event::Slash, Event::Return])
}

fn ignored(case: &Writing, buffer: &mut [u8], sign: Sign) -> Answer {
    with_rule(case, buffer, false, |plus, event| if event == Event::Setting(sign) { plus } else { right(plus, event) })
}

fn s_as_sp(case: &Writing, buffer: &mut [u8]) -> Answer {
    with_rule(case, buffer, false, |plus, event| event == Event::Setting(Sign::S) || right(plus, event))
}

fn last_for_all(case: &Writing, buffer: &mut [u8]) -> Answer {
    let last = events(&case.format, case.count).into_iter().fold(false, right);
    with_rule(case, buffer, last, |plus, _| plus)
}

/// Writes without the plus where the placement, met after SP, is of a kind.
fn without_plus(case: &Writing, buffer: &mut [u8], of_kind: impl Fn(&Placement) -> bool) -> Answer {
    with_settings(case, buffer, |placement| {
        (after_sp(placement) && of_kind(placement)).then_some(Settings { plus: false })
    })
}

fn zero_without(case: &Writing, buffer: &mut [u8]) -> Answer {
    without_plus(case, buffer, is_zero)
}

fn plus_before_rounding(case: &Writing, buffer: &mut [u8]) -> Answer {
    without_plus(case, buffer, |placement| is_zero(placement) && below_zero(placement))
}

fn stars_without_plus(case: &Writing, buffer: &mut [u8]) -> Answer {
    without_plus(case, buffer, |placement| matches!(placement.content, Content::Field { starred: true, .. }))
}

/// Writes, then changes the bytes of numeric fields met after SP; where the patch says so the field is starred.
fn patched_after_sp(case: &Writing, buffer: &mut [u8], patch: impl Fn(&Placement, &mut [u8]) -> bool) -> Answer {
    patched(case, buffer, |placement, bytes| after_sp(placement) && patch(placement, bytes))
}

fn exchange(bytes: &mut [u8], from: u8, to: u8) {
    bytes.iter_mut().filter(|byte| **byte == from).for_each(|byte| *byte = to);
}

fn minus_on_zero(case: &Writing, buffer: &mut [u8]) -> Answer {
    patched_after_sp(case, buffer, |placement, bytes| {
        if is_zero(placement) && below_zero(placement) {
            exchange(bytes, b'+', b'-');
        }
        false
    })
}

fn negative_with_plus(case: &Writing, buffer: &mut [u8]) -> Answer {
    patched_after_sp(case, buffer, |_, bytes| {
        exchange(bytes, b'-', b'+');
        false
    })
}

fn stars_for_two_signs(case: &Writing, buffer: &mut [u8]) -> Answer {
    patched_after_sp(case, buffer, |_, bytes| {
        let full = bytes.starts_with(b"-");
        if full {
            bytes.fill(b'*');
        }
        full
    })
}

fn want_not_counted(case: &Writing, buffer: &mut [u8]) -> Answer {
    let answer = Reference.write(case, buffer);
    let starred = stars_without_plus(case, &mut buffer.to_vec()).starred;
    Answer { starred, ..answer }
}

fn zero_left_out(case: &Writing, buffer: &mut [u8]) -> Answer {
    patched_after_sp(case, buffer, |_, bytes| {
        let zero = bytes.windows(3).position(|window| window == b"+0.");
        if let Some(at) = zero.filter(|&at| at + 3 < bytes.len()) {
            bytes[at] = b' ';
            bytes[at + 1] = b'+';
        }
        false
    })
}

fn stars_for_zero(case: &Writing, buffer: &mut [u8]) -> Answer {
    patched_after_sp(case, buffer, |_, bytes| {
        let no_zero = bytes.starts_with(b"+.");
        if no_zero {
            bytes.fill(b'*');
        }
        no_zero
    })
}

fn plus_first(case: &Writing, buffer: &mut [u8]) -> Answer {
    patched_after_sp(case, buffer, |_, bytes| {
        if let Some(at) = bytes.iter().position(|&byte| byte == b'+') {
            bytes.swap(0, at);
        }
        false
    })
}

fn plus_on_others(case: &Writing, buffer: &mut [u8]) -> Answer {
    patched(case, buffer, |placement, bytes| {
        let plus = matches!(&placement.content, Content::Field { settings, .. } if settings.plus);
        let blank = bytes.iter().position(|&byte| byte != b' ').unwrap_or(0);
        if plus && !after_sp(placement) && blank > 0 {
            bytes[blank - 1] = b'+';
        }
        false
    })
}

/// The records that slashes behind such a setting reach are not counted.
fn ends_at_setting(case: &Writing, buffer: &mut [u8]) -> Answer {
    let answer = Reference.write(case, buffer);
    if answer.number != 0 {
        return answer;
    }
    let events = events(&case.format, case.count);
    let last = events.iter().rposition(|&event| event == Event::Field).map_or(0, |last| last + 1);
    let behind = events[last..].iter().skip_while(|event| !matches!(event, Event::Setting(_)));
    let slashes = behind.filter(|&&event| event == Event::Slash).count() as u64;
    Answer { records: answer.records - slashes, ..answer }
}

/// The walk would go on without taking an element, to the last record.
fn part_of_settings(case: &Writing, buffer: &mut [u8]) -> Answer {
    let answer = Reference.write(case, buffer);
    let settings = |format: Format| format.part().iter().any(has_setting);
    if answer.number == 10 && Format::parse(&case.format).is_ok_and(settings) {
        return Answer { number: 9, ..answer };
    }
    answer
}

fn has_setting(item: &Item) -> bool {
    match item {
        Item::Sign(_) => true,
        Item::Group { items, .. } => items.iter().any(has_setting),
        _ => false,
    }
}

/// Reads, and refuses with 12 the first field of a kind.
fn refused_where(case: &Reading, area: &mut [u8], of_kind: impl Fn(&Placement, &[u8]) -> bool) -> (Answer, List) {
    let (answer, list) = Reference.read(case, area);
    if answer.number != 0 {
        return (answer, list);
    }
    for placement in placed(case) {
        let bytes = &case.records[placement.span.bytes(case.width as usize)];
        if let (Content::Field { element, .. }, true) = (&placement.content, of_kind(&placement, bytes)) {
            area.copy_from_slice(&case.area);
            let place = *element as u64;
            return (Answer { number: 12, place, records: 0, starred: 0 }, List::of(&[]));
        }
    }
    (answer, list)
}

fn plus_wanted(case: &Reading, area: &mut [u8]) -> (Answer, List) {
    let unsigned = |bytes: &[u8]| !bytes.iter().any(|byte| b"+-".contains(byte));
    refused_where(case, area, |placement, bytes| after_sp(placement) && unsigned(bytes))
}

fn plus_unwanted(case: &Reading, area: &mut [u8]) -> (Answer, List) {
    refused_where(case, area, |placement, bytes| is_numeric(placement) && !after_sp(placement) && bytes.contains(&b'+'))
}

/// How often settings are met in the items, repeats included.
pub fn settings_met(items: &[Item]) -> u64 {
    let met = items.iter().map(|item| match item {
        Item::Sign(_) => 1,
        Item::Group { repeat, items } => repeat * settings_met(items),
        _ => 0,
    });
    met.sum()
}

fn size_0(format: &[u8]) -> Answer {
    let answer = Reference.check(format);
    let size = |format: Format| format.size() - settings_met(&format.items);
    let small = answer.number == 5 && Format::read(format).is_ok_and(|format| size(format) <= LARGEST);
    Answer { number: if small { 0 } else { answer.number }, ..answer }
}

fn size_2(format: &[u8]) -> Answer {
    let answer = Reference.check(format);
    let size = |format: Format| format.size() + settings_met(&format.items);
    let large = answer.number == 0 && Format::read(format).is_ok_and(|format| size(format) > LARGEST);
    Answer { number: if large { 5 } else { answer.number }, ..answer }
}

/// Where a refusal 3 lies directly behind a setting, its place.
fn behind_setting(format: &[u8], answer: Answer) -> Option<usize> {
    let before = &format[..(answer.place as usize).min(format.len())];
    let behind = answer.number == 3 && (before.ends_with(b"S") || before.ends_with(b"SP"));
    behind.then_some(before.len())
}

/// The check of a format without some of its bytes, with places as they are in the format.
fn check_without(format: &[u8], bytes: Range<usize>) -> Answer {
    let answer = Reference.check(&[&format[..bytes.start], &format[bytes.end..]].concat());
    let behind = answer.number != 0 && answer.place >= bytes.start as u64;
    Answer { place: answer.place + if behind { bytes.len() as u64 } else { 0 }, ..answer }
}

fn passed_over(format: &[u8], bytes: &[u8]) -> Answer {
    let answer = Reference.check(format);
    match behind_setting(format, answer) {
        Some(at) if format.get(at).is_some_and(|byte| bytes.contains(byte)) => check_without(format, at..at + 1),
        _ => answer,
    }
}

fn no_comma(format: &[u8]) -> Answer {
    let answer = Reference.check(format);
    let Some(at) = behind_setting(format, answer).filter(|&at| at < format.len()) else { return answer };
    let with = Reference.check(&[&format[..at], b",", &format[at..]].concat());
    Answer { place: with.place - u64::from(with.place > at as u64), ..with }
}

fn repeat_taken(format: &[u8]) -> Answer {
    let answer = Reference.check(format);
    let at = answer.place as usize;
    if answer.number != 3 || format.get(at) != Some(&b'S') {
        return answer;
    }
    let digits = format[..at].iter().rev().take_while(|byte| byte.is_ascii_digit()).count();
    check_without(format, at - digits..at)
}

fn place_at_setting(format: &[u8]) -> Answer {
    let answer = Reference.check(format);
    Answer { place: answer.place - u64::from(behind_setting(format, answer).is_some()), ..answer }
}

fn small_letters(format: &[u8]) -> Answer {
    let large = |&byte: &u8| if b"sp".contains(&byte) { byte.to_ascii_uppercase() } else { byte };
    Reference.check(&format.iter().map(large).collect::<Vec<u8>>())
}

#[cfg(test)]
mod tests {
    use super::*;
    use crate::harness::Harness;

    /// Without a slip the same functions give what the reference gives.
    #[test]
    fn nothing_noticed() {
        let rule = Slip { write: |c, b| with_rule(c, b, false, right), ..RIGHT };
        let placed = Slip { read: |c, a| refused_where(c, a, |_, _| false), ..RIGHT };
        for slip in [rule, placed] {
            if let Err(difference) = Harness::new(&slip, 17).run(2000) {
                panic!("{difference}");
            }
        }
    }
}
