//! Random formats, and sheets that suit them.

use crate::calls::Value;
use crate::compiler::Compiler;
use crate::format::{self, Field, Item, Sign};
use crate::models::{self, File};
use crate::values::{self, Choice};
use crate::walk::{self, Layout, Met};
use random::Random;

/// The longest format, in bytes; libf2c takes some 300 items.
const LONGEST: usize = 512;

/// What a sheet is made for.
#[derive(Clone, Debug)]
pub enum Aim {
    /// To be accepted.
    Accepted,
    /// One record fewer than the walk reaches.
    RecordShort,
    /// Accepted without its last item, an X or T past the record where nothing is put; these are the items without.
    MovePast(Vec<Item>),
    /// A record one column too narrow for what is put.
    FieldPast,
}

#[derive(Clone, Debug)]
pub struct Sheet {
    pub items: Vec<Item>,
    pub width: u64,
    /// Records of the internal file.
    pub records: u64,
    pub elements: Vec<Value>,
    pub area: Vec<u8>,
    pub aim: Aim,
}

impl Sheet {
    pub fn lengths(&self) -> Vec<u64> {
        self.elements.iter().map(|&value| length(value)).collect()
    }

    pub fn steps(&self) -> Vec<Met> {
        walk::met(&self.items, self.elements.len()).expect("a field to return to")
    }

    pub fn layout(&self) -> Layout {
        walk::layout(&self.steps(), &self.lengths())
    }

    pub fn text_of(&self, value: Value) -> &[u8] {
        match value {
            Value::Text { start, len } => &self.area[start as usize..(start + len) as usize],
            _ => b"",
        }
    }
}

fn length(value: Value) -> u64 {
    match value {
        Value::Text { len, .. } => len,
        _ => 0,
    }
}

/// A sheet for writing: most to be accepted, nine of ten plain.
pub fn sheet(rng: &mut Random, compiler: Compiler) -> Sheet {
    let plain = !rng.one_in(10);
    let base = accepted(rng, Choice { compiler, plain, reading: false });
    if !plain {
        return base;
    }
    match rng.below(30) {
        0 if compiler != Compiler::F2c => record_short(base.clone()).unwrap_or(base),
        1..=4 => move_past(rng, base.clone()).unwrap_or(base),
        5 => field_past(base.clone(), compiler).unwrap_or(base),
        _ => base,
    }
}

/// A sheet that the library is to accept.
pub fn accepted(rng: &mut Random, choice: Choice) -> Sheet {
    loop {
        let items = random_format(rng, choice);
        let text = format::text_in(&items, choice.compiler.dialect(false));
        if walk::size(&items) > 400 || text.len() > LONGEST {
            continue;
        }
        let count = if rng.one_in(12) { rng.within(0..=64) } else { rng.within(0..=16) };
        let Some(steps) = walk::met(&items, count) else { continue };
        if choice.plain && known_in_walk(choice, &items, &steps) {
            continue;
        }
        let lengths = lengths(rng, &steps, count);
        let layout = walk::layout(&steps, &lengths);
        if layout.narrowest > 255 || layout.records > 40 {
            continue;
        }
        let slack = if rng.one_in(2) { 0 } else { rng.within(0..=20) };
        let width = (layout.narrowest + slack).min(255);
        let records = layout.records + if rng.one_in(2) { 0 } else { rng.within(1..=3) };
        let mut area = Vec::new();
        let elements = elements(rng, &steps, &lengths, choice, &mut area);
        let sheet = Sheet { items, width, records, elements, area, aim: Aim::Accepted };
        if choice.plain || models::written(choice.compiler, &sheet) != File::Unsure {
            return sheet;
        }
    }
}

/// Whether the walk shows a known difference of the compiler.
fn known_in_walk(choice: Choice, items: &[Item], steps: &[Met]) -> bool {
    match choice.compiler {
        Compiler::Gfortran => walk::tab_after_move(steps) && !choice.reading,
        Compiler::Flang => {
            let count = steps.iter().filter(|step| matches!(step, Met::Field { .. })).count();
            walk::met_by_flang(items, count).as_deref() != Some(steps)
        }
        Compiler::F2c => false,
    }
}

/// A format; one that is not plain often has what the compiler is known to take otherwise.
fn random_format(rng: &mut Random, choice: Choice) -> Vec<Item> {
    let most = rng.pick(&[3, 4, 6, 9, 12]);
    let mut items = items(rng, 0, most);
    if rng.one_in(5) {
        items.insert(0, Item::Sign(Sign::SP));
    }
    if choice.plain || rng.one_in(2) {
        return items;
    }
    match choice.compiler {
        Compiler::Gfortran => {
            let at = rng.below(items.len() + 1);
            let first = if rng.one_in(2) { Item::Skip(small(rng, 9)) } else { Item::Tab(small(rng, 20)) };
            items.splice(at..at, [first, Item::Tab(small(rng, 20))]);
        }
        Compiler::Flang => {
            let mut inner = self::items(rng, 1, 4);
            inner.push(Item::Field { repeat: None, field: field(rng) });
            items = vec![Item::Group { repeat: None, items: inner }, literal(rng)];
        }
        Compiler::F2c => {}
    }
    items
}

fn lengths(rng: &mut Random, steps: &[Met], count: usize) -> Vec<u64> {
    let mut lengths = vec![0; count];
    for step in steps {
        if let Met::Field { element, field: Field::Text { w }, .. } = step {
            lengths[*element] = values::text_length(rng, *w);
        }
    }
    lengths
}

fn elements(rng: &mut Random, steps: &[Met], lengths: &[u64], choice: Choice, area: &mut Vec<u8>) -> Vec<Value> {
    let mut elements = Vec::new();
    for step in steps {
        if let Met::Field { element, field, plus } = step {
            elements.push(values::element(rng, (*field, *plus), lengths[*element], choice, area));
        }
    }
    elements
}

fn record_short(mut sheet: Sheet) -> Option<Sheet> {
    sheet.records = sheet.layout().records - 1;
    sheet.aim = Aim::RecordShort;
    (sheet.records > 0).then_some(sheet)
}

/// The same with a last item that goes past the record, where the walk meets it once, at its end.
fn move_past(rng: &mut Random, mut sheet: Sheet) -> Option<Sheet> {
    let without = sheet.items.clone();
    let far = sheet.width + rng.within(2..=30);
    sheet.items.push(if rng.one_in(2) { Item::Tab(far) } else { Item::Skip(far) });
    let steps = sheet.steps();
    let past = |step: &Met| matches!(step, Met::Tab(n) | Met::Skip(n) if *n == far);
    let met_once = steps.iter().filter(|step| past(step)).count() == 1 && steps.last().is_some_and(past);
    sheet.aim = Aim::MovePast(without);
    (met_once && far <= 255).then_some(sheet)
}

fn field_past(mut sheet: Sheet, compiler: Compiler) -> Option<Sheet> {
    if loses_count(&sheet, compiler) {
        return None;
    }
    let covered = sheet.layout().places.iter().map(|place| place.column + place.width).max()?;
    sheet.width = covered - 1;
    sheet.aim = Aim::FieldPast;
    (sheet.width > 0).then_some(sheet)
}

/// libf2c loses count of the columns where a T follows what has passed the record.
pub fn loses_count(sheet: &Sheet, compiler: Compiler) -> bool {
    compiler == Compiler::F2c && sheet.steps().iter().any(|step| matches!(step, Met::Tab(_)))
}

fn items(rng: &mut Random, level: u64, most: u64) -> Vec<Item> {
    let count = rng.within(1..=most);
    (0..count).map(|_| item(rng, level, most)).collect()
}

fn item(rng: &mut Random, level: u64, most: u64) -> Item {
    match rng.below(100) {
        0..=14 if level < 4 => Item::Group { repeat: repeat(rng), items: items(rng, level + 1, most.min(4)) },
        15..=23 => Item::Skip(small(rng, 6)),
        24..=30 => Item::Tab(small(rng, 40)),
        31..=37 => Item::Slash(repeat(rng)),
        38..=46 => literal(rng),
        47..=56 => Item::Sign(rng.pick(&[Sign::SP, Sign::SP, Sign::SP, Sign::SS, Sign::S])),
        _ => Item::Field { repeat: repeat(rng), field: field(rng) },
    }
}

fn repeat(rng: &mut Random) -> Option<u64> {
    match rng.below(10) {
        0..=6 => None,
        7 => Some(1),
        _ if rng.one_in(10) => Some(rng.within(5..=64)),
        _ => Some(rng.within(2..=4)),
    }
}

/// Mostly up to `usual`, sometimes far more.
fn small(rng: &mut Random, usual: u64) -> u64 {
    let most = if rng.one_in(15) { usual * 5 } else { usual };
    rng.within(1..=most)
}

fn field(rng: &mut Random) -> Field {
    let w = if rng.one_in(15) { rng.within(1..=64) } else { rng.within(1..=12) };
    match rng.below(10) {
        0..=2 => Field::Integer { w },
        3..=6 => {
            let d = if rng.one_in(20) { rng.within(0..=9) } else { rng.within(0..=w.saturating_sub(1).min(9)) };
            Field::Decimal { w, d }
        }
        7 => Field::Logical { w: w.min(10) },
        8 => Field::Text { w: None },
        _ => Field::Text { w: Some(w) },
    }
}

fn literal(rng: &mut Random) -> Item {
    let mark = rng.pick(b"'\"");
    let count = small(rng, 6);
    let characters = (0..count).map(|_| if rng.one_in(8) { mark } else { rng.within(32..=126) }).collect();
    Item::Literal { mark, characters }
}
