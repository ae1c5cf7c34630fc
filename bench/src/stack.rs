//! The deepest stack of a call: a fresh thread's stack is painted, and after the call it is looked how deep the paint is gone.

use std::thread;

use crate::contestants::Work;

const STACK: usize = 1 << 20;
/// Painted bytes.
const PAINTED: usize = STACK - (1 << 17);
/// Bytes left out below the painter's own frame.
const OWN: usize = 1 << 10;
const PAINT: u64 = 0x5AC3_96E1_0F78_B42D;

/// Bytes of stack below this function's frame that the call writes to. It runs once before, since a first call loads and sets up.
pub fn depth(mut call: impl FnMut() + Send) -> usize {
    call();
    let measured = thread::scope(|scope| {
        let thread = thread::Builder::new().stack_size(STACK).spawn_scoped(scope, || painted(call));
        thread.expect("a thread").join()
    });
    measured.expect("no panic")
}

/// That of one repetition.
pub fn depth_of(work: &mut dyn Work) -> usize {
    let mut lent = Lent(work);
    depth(move || lent.repeat_once())
}

/// A work lent to a thread, while the thread that lends it waits.
struct Lent<'a>(&'a mut (dyn Work + 'a));

// SAFETY: the lender waits for the thread to end.
unsafe impl Send for Lent<'_> {}

impl Lent<'_> {
    fn repeat_once(&mut self) {
        self.0.repeat(1);
    }
}

#[inline(never)]
fn painted(call: impl FnOnce()) -> usize {
    let mark = 0u64;
    let top = &raw const mark as usize & !15;
    let places = || (OWN..PAINTED).step_by(8).map(move |depth| (depth, (top - depth) as *mut u64));
    for (_, place) in places() {
        // SAFETY: the place is within the thread's stack and below what is in use.
        unsafe { place.write_volatile(PAINT) };
    }
    call();
    let gone = places().rev().find(|(_, place)| {
        // SAFETY: as above.
        unsafe { place.read_volatile() != PAINT }
    });
    gone.map_or(OWN, |(depth, _)| depth)
}
