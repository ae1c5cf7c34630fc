//! Calls of the library with all that they give.

use crate::calls;
use reference::Value;
use slots::{Slots, SLOTS};

/// Number (0 if accepted), place, records, starred.
pub fn write(width: u64, format: &[u8], elements: &[Value], count: u64, area: &[u8], buffer: &mut [u8]) -> [u64; 4] {
    let slots = Slots::of(elements);
    let mut answer = [usize::MAX; 4];
    // SAFETY: every pointer comes with the length of the slice it is taken from.
    unsafe {
        calls::test_write(
            width as usize,
            format.as_ptr(),
            format.len(),
            slots.shapes.as_ptr(),
            slots.shapes.len(),
            slots.numbers.as_ptr(),
            slots.numbers.len(),
            count as usize,
            area.as_ptr(),
            area.len(),
            buffer.as_mut_ptr(),
            buffer.len(),
            answer.as_mut_ptr(),
            answer.len(),
        );
    }
    answer.map(|number| number as u64)
}

/// Number, place, records, starred and the given list's count; its slots.
pub fn read(
    width: u64,
    format: &[u8],
    wanted: &[Value],
    count: u64,
    area: &mut [u8],
    records: &[u8],
) -> ([u64; 5], [Value; SLOTS]) {
    let slots = Slots::of(wanted);
    let mut given = Slots::unset();
    let mut answer = [usize::MAX; 5];
    // SAFETY: every pointer comes with the length of the slice it is taken from.
    unsafe {
        calls::test_read(
            width as usize,
            format.as_ptr(),
            format.len(),
            slots.shapes.as_ptr(),
            slots.shapes.len(),
            slots.numbers.as_ptr(),
            slots.numbers.len(),
            count as usize,
            area.as_mut_ptr(),
            area.len(),
            records.as_ptr(),
            records.len(),
            given.shapes.as_mut_ptr(),
            given.shapes.len(),
            given.numbers.as_mut_ptr(),
            given.numbers.len(),
            answer.as_mut_ptr(),
            answer.len(),
        );
    }
    (answer.map(|number| number as u64), given.values())
}

/// Number and place.
pub fn check(format: &[u8]) -> [u64; 2] {
    let mut answer = [usize::MAX; 2];
    // SAFETY: every pointer comes with the length of the slice it is taken from.
    unsafe {
        calls::test_check(format.as_ptr(), format.len(), answer.as_mut_ptr(), answer.len());
    }
    answer.map(|number| number as u64)
}

/// Number, place and count; the list's slots.
pub fn list_text(text: &[u8]) -> ([u64; 3], [Value; SLOTS]) {
    let mut given = Slots::unset();
    let mut answer = [usize::MAX; 3];
    // SAFETY: every pointer comes with the length of the slice it is taken from.
    unsafe {
        calls::test_list_text(
            text.as_ptr(),
            text.len(),
            given.shapes.as_mut_ptr(),
            given.shapes.len(),
            given.numbers.as_mut_ptr(),
            given.numbers.len(),
            answer.as_mut_ptr(),
            answer.len(),
        );
    }
    (answer.map(|number| number as u64), given.values())
}

/// The number of bytes put at the start of the output.
pub fn sheet(input: &[u8], records: &mut [u8; crate::SHEET_RECORDS], output: &mut [u8; crate::SHEET_OUTPUT]) -> u64 {
    // SAFETY: they take nothing and change nothing.
    let wanted = unsafe { (calls::test_record_buffer(), calls::test_output()) };
    assert_eq!(wanted, (records.len(), output.len()), "the buffers are as long as the call wants them");
    // SAFETY: the input's pointer comes with its length, and the buffers have the lengths just compared.
    unsafe { calls::test_sheet(input.as_ptr(), input.len(), records.as_mut_ptr(), output.as_mut_ptr()) as u64 }
}

/// The records written, or the refusal's number negated.
pub fn host_write(width: u64, format: &[u8], list_text: &[u8], buffer: &mut [u8]) -> i64 {
    // SAFETY: every pointer comes with the length of the slice it is taken from.
    unsafe {
        calls::trimsheet_write_slices(
            width as usize,
            format.as_ptr(),
            format.len(),
            list_text.as_ptr(),
            list_text.len(),
            buffer.as_mut_ptr(),
            buffer.len(),
        )
    }
}

/// 0, or the refusal's number negated.
pub fn host_check(format: &[u8]) -> i64 {
    // SAFETY: the pointer comes with the length of the slice it is taken from.
    unsafe { calls::trimsheet_check_slice(format.as_ptr(), format.len()) }
}
