//! The proved library. A slice passes as pointer, then length.

use std::hint::black_box;

use crate::cases::{Act, Case};
use crate::contestants::{Contestant, Work};
use reference::Value;
use slots::{Slots, SLOTS};

/// An element as `bench_calls` takes it and gives it: a `Slot` of `test_calls`.
#[repr(C)]
#[derive(Clone, PartialEq)]
struct ListSlot {
    shape: [usize; 3],
    number: i64,
}

impl ListSlot {
    /// No reading gives it.
    const UNSET: ListSlot = ListSlot { shape: [usize::MAX; 3], number: i64::MIN };

    /// Of a list, so many as it may hold: past its count integer 0.
    fn all_of(elements: &[Value]) -> Vec<ListSlot> {
        let Slots { shapes, numbers } = Slots::of(elements);
        let shapes = shapes.chunks(3).map(|shape| shape.try_into().expect("three numbers"));
        shapes.zip(numbers).map(|(shape, number)| ListSlot { shape, number }).collect()
    }

    /// Of each element, also where they are more than a list holds.
    fn each_of(elements: &[Value]) -> Vec<ListSlot> {
        let parts = elements.chunks(SLOTS);
        parts.flat_map(|part| ListSlot::all_of(part).into_iter().take(part.len())).collect()
    }
}

extern "C" {
    fn bench_write(
        width: usize,
        format: *const u8,
        format_len: usize,
        slots: *const ListSlot,
        slots_len: usize,
        area: *const u8,
        area_len: usize,
        buffer: *mut u8,
        buffer_len: usize,
    ) -> usize;
    fn bench_read(
        width: usize,
        format: *const u8,
        format_len: usize,
        wanted: *const ListSlot,
        wanted_len: usize,
        area: *mut u8,
        area_len: usize,
        records: *const u8,
        records_len: usize,
        place: usize,
    ) -> ListSlot;
    fn bench_check(format: *const u8, format_len: usize) -> bool;
}

pub struct Proved;

impl Contestant for Proved {
    fn name(&self) -> &str {
        "proved"
    }

    fn ready<'a>(&'a self, case: &'a Case, act: Act) -> Option<Box<dyn Work + 'a>> {
        let slots = ListSlot::each_of(&case.elements);
        Some(match act {
            Act::Write => Box::new(Writing { case, slots, buffer: vec![0; case.records.len()], records: 0 }),
            Act::Read => {
                let (area, given) = (vec![0; case.area.len()], vec![ListSlot::UNSET; SLOTS]);
                Box::new(Reading { case, wanted: slots, area, given })
            }
            Act::Check => Box::new(Checking { case, accepted: false }),
        })
    }
}

struct Writing<'a> {
    case: &'a Case,
    slots: Vec<ListSlot>,
    buffer: Vec<u8>,
    /// How many records the last call filled; 0 where it refused.
    records: usize,
}

impl Work for Writing<'_> {
    fn repeat(&mut self, times: usize) {
        for _ in 0..times {
            let Case { width, format, area, .. } = black_box(self.case);
            let Writing { slots, buffer, .. } = black_box(&mut *self);
            // SAFETY: every pointer comes with the length of what it is taken from.
            self.records = unsafe {
                bench_write(
                    *width,
                    format.as_ptr(),
                    format.len(),
                    slots.as_ptr(),
                    slots.len(),
                    area.as_ptr(),
                    area.len(),
                    buffer.as_mut_ptr(),
                    buffer.len(),
                )
            };
        }
    }

    fn is_right(&self) -> bool {
        self.records == self.case.records.len() / self.case.width && self.buffer == self.case.records
    }
}

struct Reading<'a> {
    case: &'a Case,
    wanted: Vec<ListSlot>,
    area: Vec<u8>,
    /// Of each call one element, another one each time.
    given: Vec<ListSlot>,
}

impl Work for Reading<'_> {
    fn repeat(&mut self, times: usize) {
        for done in 0..times {
            let place = done % SLOTS;
            let Case { width, format, records, .. } = black_box(self.case);
            let Reading { wanted, area, given, .. } = black_box(&mut *self);
            // SAFETY: every pointer comes with the length of what it is taken from.
            given[place] = unsafe {
                bench_read(
                    *width,
                    format.as_ptr(),
                    format.len(),
                    wanted.as_ptr(),
                    wanted.len(),
                    area.as_mut_ptr(),
                    area.len(),
                    records.as_ptr(),
                    records.len(),
                    place,
                )
            };
        }
    }

    fn is_right(&self) -> bool {
        let Case { area, read, .. } = self.case;
        self.area == *area && self.given == ListSlot::all_of(read)
    }
}

struct Checking<'a> {
    case: &'a Case,
    accepted: bool,
}

impl Work for Checking<'_> {
    fn repeat(&mut self, times: usize) {
        for _ in 0..times {
            let format = black_box(&self.case.format);
            // SAFETY: the pointer comes with the length of what it is taken from.
            self.accepted = unsafe { bench_check(format.as_ptr(), format.len()) };
        }
    }

    fn is_right(&self) -> bool {
        self.accepted
    }
}
