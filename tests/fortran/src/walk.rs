//! The items that a walk meets, in order, and where the rules put them.
//! The order does not depend on columns, so it holds for every compiler.

use crate::format::{Field, Item, Sign};

#[derive(Clone, Debug, PartialEq, Eq)]
pub enum Met {
    Field {
        element: usize,
        field: Field,
        /// Whether it is met after SP: a number of zero or more carries a plus.
        plus: bool,
    },
    Sign(Sign),
    Literal(Vec<u8>),
    Skip(u64),
    Tab(u64),
    /// A slash, or the return at the end of the format.
    Next,
}

/// The items met with `count` elements, or None where the part returned to has no field.
pub fn met(items: &[Item], count: usize) -> Option<Vec<Met>> {
    met_returning(items, count, &items[group(items).unwrap_or(0)..])
}

/// The same as flang meets them: it returns to a group without repeat that is the first item, and to no more.
pub fn met_by_flang(items: &[Item], count: usize) -> Option<Vec<Met>> {
    match (group(items), &items[0]) {
        (Some(0), Item::Group { repeat: None, items: inner }) => met_returning(items, count, inner),
        _ => met(items, count),
    }
}

/// The index of the rightmost group.
fn group(items: &[Item]) -> Option<usize> {
    items.iter().rposition(|item| matches!(item, Item::Group { .. }))
}

fn met_returning(items: &[Item], count: usize, part: &[Item]) -> Option<Vec<Met>> {
    let part = unrolled(part);
    let has_field = part.iter().any(|step| matches!(step, Met::Field { .. }));
    let (mut run, mut steps, mut taken, mut plus) = (unrolled(items), Vec::new(), 0, false);
    loop {
        for step in run {
            match step {
                Met::Field { .. } if taken == count => return Some(steps),
                Met::Field { field, .. } => {
                    steps.push(Met::Field { element: taken, field, plus });
                    taken += 1;
                }
                Met::Sign(sign) => {
                    steps.push(step);
                    plus = sign == Sign::SP;
                }
                other => steps.push(other),
            }
        }
        if taken == count {
            return Some(steps);
        }
        if !has_field {
            return None;
        }
        steps.push(Met::Next);
        run = part.clone();
    }
}

/// The items with repeats unrolled.
fn unrolled(items: &[Item]) -> Vec<Met> {
    let mut run = Vec::new();
    items.iter().for_each(|item| unroll(&mut run, item));
    run
}

fn unroll(run: &mut Vec<Met>, item: &Item) {
    match item {
        Item::Field { repeat, field } => {
            for _ in 0..repeat.unwrap_or(1) {
                run.push(Met::Field { element: 0, field: *field, plus: false });
            }
        }
        Item::Group { repeat, items } => {
            for _ in 0..repeat.unwrap_or(1) {
                items.iter().for_each(|item| unroll(run, item));
            }
        }
        Item::Skip(n) => run.push(Met::Skip(*n)),
        Item::Tab(n) => run.push(Met::Tab(*n)),
        Item::Slash(repeat) => run.extend((0..repeat.unwrap_or(1)).map(|_| Met::Next)),
        Item::Literal { characters, .. } => run.push(Met::Literal(characters.clone())),
        Item::Sign(sign) => run.push(Met::Sign(*sign)),
    }
}

/// How many items the whole format has with its repeats unrolled.
pub fn size(items: &[Item]) -> usize {
    unrolled(items).len()
}

/// How many fields it has so.
pub fn fields(items: &[Item]) -> usize {
    unrolled(items).iter().filter(|step| matches!(step, Met::Field { .. })).count()
}

/// Columns that an item met covers; `lengths` are those of the texts.
pub fn columns(step: &Met, lengths: &[u64]) -> u64 {
    match step {
        Met::Field { element, field, .. } => match *field {
            Field::Integer { w } | Field::Decimal { w, .. } | Field::Logical { w } => w,
            Field::Text { w } => w.unwrap_or(lengths[*element]),
        },
        Met::Literal(characters) => characters.len() as u64,
        _ => 0,
    }
}

/// Where an item met is put: `step` is its index, record and column count from 0.
#[derive(Clone, Copy, Debug)]
pub struct Place {
    pub step: usize,
    pub record: u64,
    pub column: u64,
    pub width: u64,
}

/// Where fields and literals go, the records reached, and the smallest R that all column rules allow.
pub struct Layout {
    pub places: Vec<Place>,
    pub records: u64,
    pub narrowest: u64,
}

pub fn layout(steps: &[Met], lengths: &[u64]) -> Layout {
    let mut out = Layout { places: Vec::new(), records: 1, narrowest: 1 };
    let mut column = 0;
    for (step, item) in steps.iter().enumerate() {
        match item {
            Met::Skip(n) => column += n,
            Met::Tab(n) => {
                column = n - 1;
                out.narrowest = out.narrowest.max(*n);
            }
            Met::Next => {
                out.records += 1;
                column = 0;
            }
            Met::Sign(_) => {}
            Met::Field { .. } | Met::Literal(_) => {
                let width = columns(item, lengths);
                out.places.push(Place { step, record: out.records - 1, column, width });
                column += width;
            }
        }
        out.narrowest = out.narrowest.max(column);
    }
    out
}

/// Whether some column is covered twice.
pub fn covered_twice(places: &[Place]) -> bool {
    places.iter().enumerate().any(|(index, a)| {
        places[..index]
            .iter()
            .any(|b| a.record == b.record && a.column < b.column + b.width && b.column < a.column + a.width)
    })
}

/// Whether a T is met after an X or T in the same record with nothing put between.
pub fn tab_after_move(steps: &[Met]) -> bool {
    let mut moved = false;
    for step in steps {
        match step {
            Met::Tab(_) if moved => return true,
            Met::Tab(_) | Met::Skip(_) => moved = true,
            Met::Sign(_) => {}
            Met::Field { .. } | Met::Literal(_) | Met::Next => moved = false,
        }
    }
    false
}
