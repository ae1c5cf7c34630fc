//! Lists in the numbers that the library's calls for tests and benchmark take.

use reference::Value;

/// Slots of a list.
pub const SLOTS: usize = 64;

/// For each slot a kind, the places or start and the length, and besides them n, units or 0 and 1.
pub struct Slots {
    pub shapes: [usize; 3 * SLOTS],
    pub numbers: [i64; SLOTS],
}

impl Slots {
    /// Every number set to something that no right answer holds.
    pub fn unset() -> Slots {
        Slots { shapes: [usize::MAX; 3 * SLOTS], numbers: [i64::MIN; SLOTS] }
    }

    pub fn of(elements: &[Value]) -> Slots {
        let mut slots = Slots { shapes: [0; 3 * SLOTS], numbers: [0; SLOTS] };
        for (slot, &element) in elements.iter().take(SLOTS).enumerate() {
            let (kind, start, len, number) = match element {
                Value::Integer(n) => (0, 0, 0, n),
                Value::Decimal { units, places } => (1, places, 0, units),
                Value::Logical(b) => (2, 0, 0, i64::from(b)),
                Value::Text { start, len } => (3, start, len, 0),
            };
            slots.shapes[3 * slot..][..3].copy_from_slice(&[kind, start as usize, len as usize]);
            slots.numbers[slot] = number;
        }
        slots
    }

    pub fn values(&self) -> [Value; SLOTS] {
        std::array::from_fn(|slot| self.value(slot))
    }

    fn value(&self, slot: usize) -> Value {
        let number = self.numbers[slot];
        let [kind, start, len] = [0, 1, 2].map(|part| self.shapes[3 * slot + part] as u64);
        match kind {
            0 => Value::Integer(number),
            1 => Value::Decimal { units: number, places: start },
            2 => Value::Logical(number != 0),
            3 => Value::Text { start, len },
            _ => panic!("kind {kind} in slot {slot}"),
        }
    }
}
