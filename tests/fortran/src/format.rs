//! Formats as items, and their texts.

#[derive(Clone, Copy, Debug, PartialEq, Eq)]
pub enum Field {
    Integer { w: u64 },
    Decimal { w: u64, d: u64 },
    Logical { w: u64 },
    Text { w: Option<u64> },
}

/// The items that set which sign a number is written with.
#[derive(Clone, Copy, Debug, PartialEq, Eq)]
pub enum Sign {
    SP,
    SS,
    S,
}

#[derive(Clone, Debug)]
pub enum Item {
    Field { repeat: Option<u64>, field: Field },
    Group { repeat: Option<u64>, items: Vec<Item> },
    Skip(u64),
    Tab(u64),
    Slash(Option<u64>),
    Literal { mark: u8, characters: Vec<u8> },
    Sign(Sign),
}

/// What a format's text has to do without for a compiler.
#[derive(Clone, Copy, Default)]
pub struct Dialect {
    /// r slashes, one by one, instead of a slash with a repeat.
    pub single_slashes: bool,
    /// nX instead of a literal of n characters.
    pub skips_for_literals: bool,
}

/// The format's text as the rules have it.
pub fn text(items: &[Item]) -> Vec<u8> {
    text_in(items, Dialect::default())
}

pub fn text_in(items: &[Item], dialect: Dialect) -> Vec<u8> {
    let mut out = Vec::new();
    put_group(&mut out, items, dialect);
    out
}

fn put_group(out: &mut Vec<u8>, items: &[Item], dialect: Dialect) {
    out.push(b'(');
    for (index, item) in items.iter().enumerate() {
        if index > 0 {
            out.push(b',');
        }
        put_item(out, item, dialect);
    }
    out.push(b')');
}

fn put_item(out: &mut Vec<u8>, item: &Item, dialect: Dialect) {
    match item {
        Item::Field { repeat, field } => {
            put_repeat(out, *repeat);
            out.extend(field_text(*field).bytes());
        }
        Item::Group { repeat, items } => {
            put_repeat(out, *repeat);
            put_group(out, items, dialect);
        }
        Item::Skip(n) => out.extend(format!("{n}X").bytes()),
        Item::Tab(n) => out.extend(format!("T{n}").bytes()),
        Item::Slash(repeat) if dialect.single_slashes => {
            out.extend(vec!["/"; repeat.unwrap_or(1) as usize].join(",").bytes());
        }
        Item::Slash(repeat) => {
            put_repeat(out, *repeat);
            out.push(b'/');
        }
        Item::Literal { characters, .. } if dialect.skips_for_literals => {
            out.extend(format!("{}X", characters.len()).bytes());
        }
        Item::Literal { mark, characters } => put_literal(out, *mark, characters),
        Item::Sign(sign) => out.extend(sign_text(*sign).bytes()),
    }
}

fn put_repeat(out: &mut Vec<u8>, repeat: Option<u64>) {
    if let Some(r) = repeat {
        out.extend(r.to_string().bytes());
    }
}

/// The enclosing mark is doubled inside.
fn put_literal(out: &mut Vec<u8>, mark: u8, characters: &[u8]) {
    out.push(mark);
    for &character in characters {
        out.push(character);
        if character == mark {
            out.push(character);
        }
    }
    out.push(mark);
}

fn sign_text(sign: Sign) -> &'static str {
    match sign {
        Sign::SP => "SP",
        Sign::SS => "SS",
        Sign::S => "S",
    }
}

pub fn field_text(field: Field) -> String {
    match field {
        Field::Integer { w } => format!("I{w}"),
        Field::Decimal { w, d } => format!("F{w}.{d}"),
        Field::Logical { w } => format!("L{w}"),
        Field::Text { w: None } => "A".to_string(),
        Field::Text { w: Some(w) } => format!("A{w}"),
    }
}
