//! What a sheet has, so that a run can say what it has covered.

use crate::format::{Field, Item, Sign};
use crate::generate::Sheet;
use crate::walk::{self, Met};

pub fn of(sheet: &Sheet) -> Vec<(&'static str, bool)> {
    let (steps, layout) = (sheet.steps(), sheet.layout());
    let meets = |test: fn(&Met) -> bool| steps.iter().any(test);
    let depth = depth(&sheet.items);
    let returns = returns(sheet);
    vec![
        ("X", meets(|step| matches!(step, Met::Skip(_)))),
        ("T", meets(|step| matches!(step, Met::Tab(_)))),
        ("literals", meets(|step| matches!(step, Met::Literal(_)))),
        ("SP", meets(|step| matches!(step, Met::Sign(Sign::SP)))),
        ("SS", meets(|step| matches!(step, Met::Sign(Sign::SS)))),
        ("S", meets(|step| matches!(step, Met::Sign(Sign::S)))),
        ("numbers after SP", meets(number_after_sp)),
        ("numbers after SP in a later record", kept_over_records(&steps)),
        ("numbers after SP and then SS or S", turned_off(&steps)),
        ("several records", layout.records > 1),
        ("groups", depth > 0),
        ("groups of level 3 or 4", depth > 2),
        ("returns to a group", returns && depth > 0),
        ("returns to the whole format", returns && depth == 0),
        ("columns covered twice", walk::covered_twice(&layout.places)),
        ("over 32 elements", sheet.elements.len() > 32),
    ]
}

fn number_after_sp(step: &Met) -> bool {
    matches!(step, Met::Field { field: Field::Integer { .. } | Field::Decimal { .. }, plus: true, .. })
}

/// Whether a number is written after SP in a record that follows SP's own.
fn kept_over_records(steps: &[Met]) -> bool {
    let mut later = false;
    steps.iter().any(|step| {
        match step {
            Met::Sign(_) => later = false,
            Met::Next => later = true,
            _ => {}
        }
        later && number_after_sp(step)
    })
}

fn turned_off(steps: &[Met]) -> bool {
    let mut rest = steps.iter().skip_while(|step| !number_after_sp(step));
    rest.any(|step| {
        matches!(step, Met::Field { field: Field::Integer { .. } | Field::Decimal { .. }, plus: false, .. })
    })
}

fn depth(items: &[Item]) -> u64 {
    let depths = items.iter().map(|item| match item {
        Item::Group { items, .. } => 1 + depth(items),
        _ => 0,
    });
    depths.max().unwrap_or(0)
}

/// Whether there are more elements than the format has fields.
fn returns(sheet: &Sheet) -> bool {
    walk::fields(&sheet.items) < sheet.elements.len()
}
