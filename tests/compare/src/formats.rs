//! Random formats.

use crate::damage::damaged;
use random::Random;

const ALPHABET: &[u8] = b"(((()))),,,,IIFFLLAAXXTTSSSPP//''\"\"0123456789.  +-iftsp\x1f\x7f\x00\xff\n";

/// A format: mostly good, else with numbers past their ranges, over a limit or damaged.
pub fn format(random: &mut Random) -> Vec<u8> {
    let text = match random.below(100) {
        0..=2 => sized(random),
        3..=6 => long(random),
        7..=13 => deep(random),
        14..=17 => fieldless_part(random),
        18..=23 => wild(random),
        24..=31 => overlapping(random),
        32..=36 => crowded(random),
        37..=46 => signed(random),
        _ => plain(random),
    };
    match random.below(100) {
        0..=6 => damaged(random, text, ALPHABET),
        7..=8 => damaged_setting(random, text),
        _ => text,
    }
}

/// A format's text in the making.
struct Maker<'a> {
    random: &'a mut Random,
    text: Vec<u8>,
    /// Whether numbers may lie at their limits and past them.
    wild: bool,
    fields: bool,
}

impl<'a> Maker<'a> {
    fn new(random: &'a mut Random) -> Maker<'a> {
        Maker { random, text: b"(".to_vec(), wild: false, fields: true }
    }

    fn put(&mut self, text: impl AsRef<[u8]>) {
        self.text.extend_from_slice(text.as_ref());
    }

    fn close(mut self) -> Vec<u8> {
        self.put(")");
        self.text
    }

    fn items(&mut self, level: usize, most: usize) {
        for item in 0..self.random.within(1..=most) {
            if item > 0 {
                self.put(",");
            }
            self.item(level);
        }
    }

    fn item(&mut self, level: usize) {
        match self.random.below(100) {
            0..=53 if self.fields => self.field(),
            0..=60 => self.skip(),
            61..=66 => self.tab(),
            67..=73 => self.setting(),
            74..=80 => self.slash(),
            81..=86 => self.literal(),
            _ if level < 4 || (self.wild && self.random.chance(20)) => self.group(level),
            _ if self.fields => self.field(),
            _ => self.tab(),
        }
    }

    fn group(&mut self, level: usize) {
        self.repeat();
        self.put("(");
        self.items(level + 1, 3);
        self.put(")");
    }

    fn field(&mut self) {
        if self.random.chance(30) {
            self.repeat();
        }
        match self.random.below(10) {
            0..=2 => self.sized_field("I", 10),
            3..=6 => self.decimal(),
            7 => self.sized_field("L", 5),
            8 => self.sized_field("A", 12),
            _ => self.put("A"),
        }
    }

    fn sized_field(&mut self, letter: &str, widest: usize) {
        self.put(letter);
        let widest = if self.random.chance(8) { 64 } else { widest };
        let w = self.random.within(1..=widest);
        self.number(w, &[0, 1, 63, 64, 65, 999]);
    }

    fn decimal(&mut self) {
        self.put("F");
        let d = self.random.pick(&[0, 0, 1, 1, 1, 2, 2, 2, 3, 4, 5, 6, 7, 8, 9]);
        let whole = if self.random.chance(8) { 54 } else { 6 };
        let w = if self.random.chance(5) { self.random.within(1..=12) } else { d + self.random.within(1..=whole) };
        self.number(w, &[0, 1, 63, 64, 65, 999]);
        self.put(".");
        self.number(d, &[0, 8, 9, 10, 255, 999]);
    }

    fn setting(&mut self) {
        let setting = self.random.pick(&["SP", "SP", "SP", "SP", "SS", "S"]);
        self.put(setting);
    }

    /// A group of settings with a repeat, seldom a large one.
    fn settings(&mut self) {
        let r = if self.random.chance(5) { self.random.within(100..=255) } else { self.random.within(1..=3) };
        self.put(format!("{r}("));
        self.setting();
        for _ in 0..self.random.below(3) {
            self.put(",");
            self.setting();
        }
        self.put(")");
    }

    /// Numeric fields, with settings and slashes before them.
    fn signed_items(&mut self, most: usize) {
        for item in 0..self.random.within(1..=most) {
            if item > 0 {
                self.put(",");
            }
            match self.random.below(100) {
                0..=44 => self.setting(),
                45..=54 => self.settings(),
                55..=69 => self.slash(),
                _ => self.sized_field("I", 6),
            }
            self.put(",");
            match self.random.below(10) {
                0..=3 => self.sized_field("I", 6),
                4..=8 => self.decimal(),
                _ => self.field(),
            }
        }
    }

    fn skip(&mut self) {
        let n = self.random.within(1..=5);
        self.number(n, &[0, 1, 254, 255, 256, 999]);
        self.put("X");
    }

    fn tab(&mut self) {
        self.put("T");
        let n = self.random.pick(&[1, 2, 5, 10, 20, 30, 40, 60]);
        self.number(n, &[0, 1, 254, 255, 256, 999]);
    }

    fn slash(&mut self) {
        if self.random.chance(30) {
            self.repeat();
        }
        self.put("/");
    }

    fn repeat(&mut self) {
        if self.random.chance(60) {
            let most = if self.random.chance(10) { 20 } else { 4 };
            let r = self.random.within(1..=most);
            self.number(r, &[0, 1, 254, 255, 256, 999]);
        }
    }

    /// A usual number or, in a wild format, one at a limit or past it.
    fn number(&mut self, usual: usize, limits: &[usize]) {
        let wild = self.wild && self.random.chance(25);
        let number = if wild { self.random.pick(limits) } else { usual };
        let digits = self.random.pick(&[1, 1, 1, 1, 1, 1, 1, 1, 2, 3]);
        let digits = if wild && self.random.chance(5) { 4 } else { digits };
        self.put(format!("{number:0digits$}"));
    }

    /// A literal, often with marks inside, its own one doubled.
    fn literal(&mut self) {
        let mark = self.random.pick(b"''\"");
        self.put([mark]);
        for _ in 0..self.random.within(1..=6) {
            let character =
                if self.random.chance(25) { self.random.pick(b"'\"") } else { self.random.within(32..=126) };
            self.put([character]);
            if character == mark {
                self.put([mark]);
            }
        }
        self.put([mark]);
    }
}

fn plain(random: &mut Random) -> Vec<u8> {
    let mut maker = Maker::new(random);
    if maker.random.chance(15) {
        maker.put("SP,");
    }
    maker.items(0, 5);
    maker.close()
}

fn wild(random: &mut Random) -> Vec<u8> {
    let mut maker = Maker::new(random);
    maker.wild = true;
    maker.items(0, 4);
    maker.close()
}

/// Fields and literals with moves back between them, so that columns are covered twice.
fn overlapping(random: &mut Random) -> Vec<u8> {
    let mut maker = Maker::new(random);
    if maker.random.chance(25) {
        maker.put("SP,");
    }
    maker.field();
    for _ in 0..maker.random.within(1..=3) {
        let column = maker.random.within(1..=12);
        maker.put(format!(",T{column},"));
        if maker.random.chance(60) {
            maker.field()
        } else {
            maker.literal()
        }
    }
    maker.close()
}

/// Many items that cover columns, in a group to return to: a field or some, then literals, so that the list soon has 16 or 80 of
/// them, one more or one fewer.
fn crowded(random: &mut Random) -> Vec<u8> {
    let literals = random.pick(&[1, 3, 7, 15, 15, 15, 15, 16, 39, 78, 79, 79, 79, 79, 200]);
    let column = random.within(1..=12);
    let mut maker = Maker::new(random);
    if maker.random.chance(20) {
        maker.items(0, 2);
        maker.put(",");
    }
    maker.put("(");
    maker.field();
    maker.put(format!(",{literals}(T{column},"));
    maker.literal();
    maker.put("))");
    maker.close()
}

/// Numeric fields under settings that change, with a part to return to or without, or settings behind them.
fn signed(random: &mut Random) -> Vec<u8> {
    let mut maker = Maker::new(random);
    maker.signed_items(3);
    if maker.random.chance(50) {
        maker.put(",");
        maker.repeat();
        maker.put("(");
        maker.signed_items(3);
        maker.put(")");
    }
    for _ in 0..maker.random.below(3) {
        maker.put(",");
        maker.setting();
    }
    if maker.random.chance(20) {
        maker.put(",");
        maker.item(4);
    }
    maker.close()
}

/// Any bytes of the alphabet, mostly after a bracket.
pub fn noise(random: &mut Random) -> Vec<u8> {
    let mut text = random.pick(&["(", "(", "((((", "('", "(I4,", "(3", "(S", "(SP", "(3S", ""]).as_bytes().to_vec();
    for _ in 0..random.below(9) {
        text.push(random.pick(ALPHABET));
    }
    text
}

/// The format with a few bytes changed, or those at one of its settings.
pub fn damaged_format(random: &mut Random, format: &[u8]) -> Vec<u8> {
    if random.chance(30) {
        damaged_setting(random, format.to_vec())
    } else {
        damaged(random, format.to_vec(), ALPHABET)
    }
}

/// The format with a digit before one of its settings, another byte after it or one fewer there, or in small letters.
fn damaged_setting(random: &mut Random, mut text: Vec<u8>) -> Vec<u8> {
    let settings: Vec<usize> = (0..text.len()).filter(|&at| text[at] == b'S').collect();
    if settings.is_empty() {
        return damaged(random, text, ALPHABET);
    }
    let at = random.pick(&settings);
    let end = at + 1 + usize::from(matches!(text.get(at + 1), Some(b'P' | b'S')));
    match random.below(8) {
        0..=1 => text.insert(at, random.pick(b"0123456789")),
        2..=4 => text.insert(end, random.pick(b"PSXIFLATPSXspx")),
        5 => text.insert(end, random.pick(b"0123456789 /.'(")),
        6 if end < text.len() => drop(text.remove(end)),
        _ => text[at..end].make_ascii_lowercase(),
    }
    text
}

/// Groups in groups to level 4, seldom 5, with items before, after or between.
fn deep(random: &mut Random) -> Vec<u8> {
    let levels = if random.chance(8) { 5 } else { random.within(2..=4) };
    let mut maker = Maker::new(random);
    for level in 0..levels {
        if maker.random.chance(40) {
            maker.item(level);
            maker.put(",");
        }
        maker.repeat();
        maker.put("(");
    }
    maker.field();
    for level in (0..levels).rev() {
        maker.put(")");
        if maker.random.chance(30) {
            maker.put(",");
            maker.item(level);
        }
    }
    maker.close()
}

/// A format whose last part, or all of it, has no field, often nothing but settings.
fn fieldless_part(random: &mut Random) -> Vec<u8> {
    let mut maker = Maker::new(random);
    if maker.random.chance(70) {
        maker.items(0, 2);
        maker.put(",");
    }
    if maker.random.chance(40) {
        maker.settings();
        return maker.close();
    }
    maker.fields = false;
    if maker.random.chance(70) {
        maker.group(0);
        maker.put(",");
    }
    maker.items(0, 2);
    maker.close()
}

/// A format of a size at 4,096 or near it.
fn sized(random: &mut Random) -> Vec<u8> {
    let near = random.within(3900..=4300);
    let mut left = random.pick(&[4095, 4096, 4096, 4097, 4097, 4098, near]);
    let mut maker = Maker::new(random);
    while left > 0 {
        let inner = maker.random.within(1..=left.min(255));
        let times = maker.random.within(1..=(left / inner).min(255));
        let item = maker.random.pick(&["I1", "L1", "/", "(T1)", "('*')", "((T1))", "F3.1", "(SP)", "(S)", "((SS))"]);
        maker.put(format!("{times}({inner}{item}),"));
        left -= inner * times;
    }
    maker.text.pop();
    maker.close()
}

/// A format of a length at 1,024 or near it, seldom far over.
fn long(random: &mut Random) -> Vec<u8> {
    let near = random.within(900..=1100);
    let length = random.pick(&[1022, 1023, 1024, 1024, 1025, 1025, 1026, near, 3000]);
    let mut maker = Maker::new(random);
    maker.items(0, 3);
    while maker.text.len() + 60 < length {
        let chunk = maker.random.pick(&[
            ",T1",
            ",/",
            ",2X,T1",
            ",I3",
            ",A,T1",
            ",(T2)",
            ",T1,'so ''much'' of it'",
            ",2/",
            ",SP",
            ",S,SS,(SP)",
        ]);
        maker.put(chunk);
    }
    maker.put(",T1,'");
    while maker.text.len() + 2 < length {
        maker.put("x");
    }
    maker.put("'");
    maker.close()
}
