//! What walks meet of the sign settings, for the counts and for wrong variants.

use crate::calls::{Answer, SLOTS};
use crate::cases::{Reading, Writing};
use crate::sign_slips::settings_met;
use crate::tally::ENOUGH;
use reference::format::{has_field, Field, Format, Item, Sign};
use reference::trace::{trace, Content, Placement, Shown, Trace};
use reference::Value;
use std::fmt;

/// What a walk meets, as far as settings and the items that they could touch go.
#[derive(Clone, Copy, Debug, PartialEq, Eq)]
pub enum Event {
    Setting(Sign),
    Slash,
    Literal,
    /// The end of a group, at each of its repeats.
    GroupEnd,
    /// The return to a part of the format.
    Return,
    /// A field that takes an element.
    Field,
}

/// The events of a walk with so many elements, at most the 64 of a list, up to its end or its return to a part without
/// a field; none where the format is refused.
pub fn events(format: &[u8], count: u64) -> Vec<Event> {
    let mut walk = Walk { left: count.min(SLOTS as u64), events: Vec::new() };
    let Ok(format) = Format::parse(format) else { return walk.events };
    let mut goes_on = walk.items(&format.items);
    while goes_on && walk.left > 0 && has_field(format.part()) {
        walk.events.push(Event::Return);
        goes_on = walk.items(format.part());
    }
    walk.events
}

struct Walk {
    left: u64,
    events: Vec<Event>,
}

impl Walk {
    /// Whether the walk goes on after the items.
    fn items(&mut self, items: &[Item]) -> bool {
        items.iter().all(|item| self.item(item))
    }

    fn item(&mut self, item: &Item) -> bool {
        match item {
            Item::Field { repeat, .. } => (0..*repeat).all(|_| self.field()),
            Item::Group { repeat, items } => (0..*repeat).all(|_| self.items(items) && self.met(Event::GroupEnd)),
            Item::Slash { repeat } => (0..*repeat).all(|_| self.met(Event::Slash)),
            Item::Literal(_) => self.met(Event::Literal),
            Item::Sign(sign) => self.met(Event::Setting(*sign)),
            Item::Skip(_) | Item::Tab(_) => true,
        }
    }

    fn met(&mut self, event: Event) -> bool {
        self.events.push(event);
        true
    }

    fn field(&mut self) -> bool {
        if self.left == 0 {
            return false;
        }
        self.left -= 1;
        self.met(Event::Field)
    }
}

/// For each element what holds where its field is met: `start` at first, and what `after` makes of it at each event.
pub fn at_fields<T: Copy>(events: &[Event], start: T, after: impl Fn(T, Event) -> T) -> Vec<T> {
    let mut state = start;
    let mut states = Vec::new();
    for &event in events {
        if event == Event::Field {
            states.push(state);
        }
        state = after(state, event);
    }
    states
}

/// Where the fields of an accepted reading are: those of a list of the same kinds and lengths.
pub fn placed(case: &Reading) -> Vec<Placement> {
    let slot = |value: &Value| match *value {
        Value::Integer(_) => Value::Integer(0),
        Value::Decimal { .. } => Value::Decimal { units: 0, places: 0 },
        Value::Logical(_) => Value::Logical(false),
        Value::Text { len, .. } => Value::Text { start: 0, len },
    };
    let elements: Vec<Value> = case.wanted.iter().map(slot).collect();
    let room = case.records.len() / case.width.max(1) as usize;
    let traced = trace(case.width, &case.format, &elements, case.count, &[b' '; 64], room);
    traced.map_or(Vec::new(), |traced| traced.placements)
}

pub fn is_numeric(placement: &Placement) -> bool {
    matches!(placement.content, Content::Field { field: Field::Integer { .. } | Field::Decimal { .. }, .. })
}

/// Whether the placement is a numeric field met after SP.
pub fn after_sp(placement: &Placement) -> bool {
    is_numeric(placement) && matches!(&placement.content, Content::Field { settings, .. } if settings.plus)
}

/// What a run has to reach often enough of the settings.
#[derive(Clone, Copy, Debug, PartialEq, Eq)]
pub enum Reached {
    MetSP,
    MetSS,
    MetS,
    BehindLast,
    Plus,
    PlusZero,
    PlusFromBelow,
    PlusPoint,
    Negative,
    WantOfPlus,
    OverSlash,
    OverReturn,
    OutOfGroup,
    TurnedOff,
    NotNumeric,
    Opening,
    ReadPlus,
    ReadWithout,
    NoFieldInPart,
    TooLarge,
    Ungrammatical,
}

const REACHED: [(Reached, &str); 21] = [
    (Reached::MetSP, "SP"),
    (Reached::MetSS, "SS"),
    (Reached::MetS, "S"),
    (Reached::BehindLast, "a setting behind the last element"),
    (Reached::Plus, "a plus"),
    (Reached::PlusZero, "a zero with a plus"),
    (Reached::PlusFromBelow, "rounded up to zero, with a plus"),
    (Reached::PlusPoint, "a plus before the point"),
    (Reached::Negative, "a minus after SP"),
    (Reached::WantOfPlus, "starred for want of the plus"),
    (Reached::OverSlash, "a plus after SP and a slash"),
    (Reached::OverReturn, "a plus after SP and a return"),
    (Reached::OutOfGroup, "a plus after SP and its group's end"),
    (Reached::TurnedOff, "no plus after SP and then SS or S"),
    (Reached::NotNumeric, "a logical or text after SP"),
    (Reached::Opening, "no plus where the first setting follows"),
    (Reached::ReadPlus, "a plus read after SP"),
    (Reached::ReadWithout, "no sign read after SP"),
    (Reached::NoFieldInPart, "refusal 10, a part of settings"),
    (Reached::TooLarge, "refusal 5, with settings"),
    (Reached::Ungrammatical, "refusal 3 behind a setting"),
];

/// Writings, readings and formats by what they reached, each counted once.
#[derive(Default)]
pub struct SignTally {
    counts: [usize; REACHED.len()],
}

impl SignTally {
    fn count(&mut self, what: Reached, reached: bool) {
        self.counts[what as usize] += usize::from(reached);
    }

    /// Counts an accepted writing.
    pub fn count_writing(&mut self, case: &Writing, traced: &Trace, buffer: &[u8]) {
        let events = events(&case.format, case.count);
        let settings = [(Reached::MetSP, Sign::SP), (Reached::MetSS, Sign::SS), (Reached::MetS, Sign::S)];
        for (what, sign) in settings {
            self.count(what, events.contains(&Event::Setting(sign)));
        }
        let behind = events.iter().rev().take_while(|&&event| event != Event::Field);
        let behind = behind.filter(|event| matches!(event, Event::Setting(_))).count();
        self.count(Reached::BehindLast, behind > 0 && case.count > 0);
        if !traced.covers_twice() {
            self.count_fields(traced, case.width as usize, buffer);
            self.count_carried(&events, &signs(traced, case.width as usize, buffer));
        }
    }

    /// Counts by the fields written, each in columns of its own.
    fn count_fields(&mut self, traced: &Trace, width: usize, buffer: &[u8]) {
        let any = |test: &dyn Fn(&Placement, &[u8]) -> bool| {
            let mut placements = traced.placements.iter();
            placements.any(|placement| test(placement, &buffer[placement.span.bytes(width)]))
        };
        let holds = |bytes: &[u8], part: &[u8]| bytes.windows(part.len()).any(|window| window == part);
        self.count(Reached::Plus, any(&|placement, bytes| after_sp(placement) && bytes.contains(&b'+')));
        self.count(Reached::PlusZero, any(&|placement, bytes| is_zero(placement) && bytes.contains(&b'+')));
        self.count(
            Reached::PlusFromBelow,
            any(&|placement, bytes| is_zero(placement) && below_zero(placement) && bytes.contains(&b'+')),
        );
        self.count(Reached::PlusPoint, any(&|placement, bytes| after_sp(placement) && holds(bytes, b"+.")));
        self.count(Reached::Negative, any(&|placement, bytes| after_sp(placement) && bytes.contains(&b'-')));
        self.count(Reached::WantOfPlus, any(&|placement, _| wants_plus(placement)));
        let other = |placement: &Placement| {
            matches!(&placement.content, Content::Field { settings, .. } if settings.plus) && !after_sp(placement)
        };
        self.count(Reached::NotNumeric, any(&|placement, _| other(placement)));
    }

    /// Counts by what is met before a field; `signs` are the signs of the elements' numerals.
    fn count_carried(&mut self, events: &[Event], signs: &[u8]) {
        let with = |sign: u8, flags: Vec<bool>| flags.iter().zip(signs).any(|(&flag, &found)| flag && found == sign);
        self.count(Reached::OverSlash, with(b'+', carried(events, Event::Slash)));
        self.count(Reached::OverReturn, with(b'+', carried(events, Event::Return)));
        self.count(Reached::OutOfGroup, with(b'+', carried(events, Event::GroupEnd)));
        self.count(Reached::TurnedOff, with(NO_SIGN, turned_off(events)));
        self.count(Reached::Opening, with(NO_SIGN, opening(events)));
    }

    /// Counts an accepted reading.
    pub fn count_reading(&mut self, case: &Reading) {
        let (mut plus, mut without) = (false, false);
        for placement in placed(case).iter().filter(|placement| after_sp(placement)) {
            let bytes = &case.records[placement.span.bytes(case.width as usize)];
            let digits = bytes.iter().any(u8::is_ascii_digit);
            plus |= digits && bytes.contains(&b'+');
            without |= digits && !bytes.contains(&b'+') && !bytes.contains(&b'-');
        }
        self.count(Reached::ReadPlus, plus);
        self.count(Reached::ReadWithout, without);
    }

    /// Counts a writing by the refusal that says that the part to return to has no field.
    pub fn count_no_field(&mut self, format: &[u8], number: u64) {
        let part = || Format::parse(format).is_ok_and(|format| settings_only(format.part()));
        self.count(Reached::NoFieldInPart, number == 10 && part());
    }

    /// Counts a format by its refusal.
    pub fn count_format(&mut self, format: &[u8], Answer { number, place, .. }: Answer) {
        let some = || Format::read(format).is_ok_and(|format| settings_met(&format.items) > 0);
        let literal = |text: &[u8]| text.contains(&b'\'') || text.contains(&b'"');
        let setting = |text: &[u8]| (text.ends_with(b"S") || text.ends_with(b"SP")) && !literal(text);
        self.count(Reached::TooLarge, number == 5 && some());
        self.count(Reached::Ungrammatical, number == 3 && setting(&format[..place as usize]));
    }

    /// What was reached too seldom.
    pub fn shortcomings(&self) -> Vec<String> {
        let seldom = REACHED.iter().filter(|&&(what, _)| self.counts[what as usize] < ENOUGH);
        let told = |&(what, name): &(Reached, &str)| {
            format!("{name}: reached {} times, fewer than {ENOUGH}", self.counts[what as usize])
        };
        seldom.map(told).collect()
    }
}

impl fmt::Display for SignTally {
    fn fmt(&self, f: &mut fmt::Formatter) -> fmt::Result {
        write!(f, "sign settings:")?;
        REACHED.iter().try_for_each(|&(what, name)| write!(f, " {name} {};", self.counts[what as usize]))
    }
}

/// For each element whether its field is met after SP with the event between the two.
fn carried(events: &[Event], between: Event) -> Vec<bool> {
    let states = at_fields(events, (false, false), |(plus, met), event| match event {
        Event::Setting(sign) => (sign == Sign::SP, false),
        _ => (plus, met || event == between),
    });
    states.iter().map(|&(plus, met)| plus && met).collect()
}

/// For each element whether its field is met after SP and then SS or S.
fn turned_off(events: &[Event]) -> Vec<bool> {
    let states = at_fields(events, (false, false), |(plus, seen), event| match event {
        Event::Setting(sign) => (sign == Sign::SP, seen || sign == Sign::SP),
        _ => (plus, seen),
    });
    states.iter().map(|&(plus, seen)| seen && !plus).collect()
}

/// For each element whether its field is met before all settings, of which there are some.
fn opening(events: &[Event]) -> Vec<bool> {
    let setting = |event: Event| matches!(event, Event::Setting(_));
    let some = events.iter().any(|&event| setting(event));
    at_fields(events, some, |before, event| before && !setting(event))
}

/// Stands for no sign among signs.
const NO_SIGN: u8 = b'0';

/// For each element the sign of its numeral, or NO_SIGN; for other fields and asterisks a blank.
fn signs(traced: &Trace, width: usize, buffer: &[u8]) -> Vec<u8> {
    let sign = |placement: &Placement| {
        let Content::Field { field, starred, .. } = placement.content else { return None };
        let bytes = &buffer[placement.span.bytes(width)];
        Some(match field {
            Field::Integer { .. } | Field::Decimal { .. } if !starred => {
                bytes.iter().copied().find(|byte| b"+-".contains(byte)).unwrap_or(NO_SIGN)
            }
            _ => b' ',
        })
    };
    traced.placements.iter().filter_map(sign).collect()
}

/// Whether the shown value is zero.
pub fn is_zero(placement: &Placement) -> bool {
    let zero = |shown: &Value| matches!(shown, Value::Integer(0) | Value::Decimal { units: 0, .. });
    matches!(&placement.content, Content::Field { shown: Shown::Value(shown), .. } if zero(shown))
}

/// Whether the element's value is below zero.
pub fn below_zero(placement: &Placement) -> bool {
    let below = |value| matches!(value, Value::Integer(n) | Value::Decimal { units: n, .. } if n < 0);
    matches!(placement.content, Content::Field { value, .. } if below(value))
}

/// Whether the field is starred, and would not be without the plus.
fn wants_plus(placement: &Placement) -> bool {
    let Content::Field { field, shown: Shown::Value(shown), starred: true, .. } = &placement.content else {
        return false;
    };
    let without = reference::fields::write(*field, Default::default(), *shown, b"", placement.span.width);
    after_sp(placement) && without.is_some_and(|written| !written.starred)
}

fn settings_only(items: &[Item]) -> bool {
    items.iter().all(|item| match item {
        Item::Sign(_) => true,
        Item::Group { items, .. } => settings_only(items),
        _ => false,
    })
}

#[cfg(test)]
mod tests {
    use super::*;
    use crate::cases::writing;
    use crate::readback::traced;
    use random::Random;

    /// The settings by events are those under which the walk meets the fields.
    #[test]
    fn settings_by_events() {
        let right = |plus: bool, event| match event {
            Event::Setting(sign) => sign == Sign::SP,
            _ => plus,
        };
        let mut random = Random::new(17);
        let mut after_sp = 0;
        for _ in 0..3000 {
            let case = writing(&mut random);
            let Ok(traced) = traced(&case) else { continue };
            let met = traced.placements.iter().filter_map(|placement| match placement.content {
                Content::Field { settings, .. } => Some(settings.plus),
                Content::Literal => None,
            });
            let met: Vec<bool> = met.collect();
            after_sp += usize::from(met.contains(&true));
            assert_eq!(at_fields(&events(&case.format, case.count), false, right), met, "{case:?}");
        }
        assert!(after_sp > 100, "{after_sp}");
    }
}
