//! The proved library, called with the types of the reference.
//!
//! `answers` hands back all that a call gives, so that a test can also see the
//! counts of a refusal and the slots past a list's count; the functions here
//! have the signatures of the reference.

pub mod answers;
mod calls;

use reference::{Counts, Refusal, Value};

pub use answers::{host_check, host_write};

/// Bytes of the record buffer and of the output that a sheet takes.
pub const SHEET_RECORDS: usize = 65_536;
pub const SHEET_OUTPUT: usize = 131_200;

pub fn write(
    width: u64,
    format: &[u8],
    elements: &[Value],
    count: u64,
    area: &[u8],
    buffer: &mut [u8],
) -> Result<Counts, Refusal> {
    let [number, place, records, starred] = answers::write(width, format, elements, count, area, buffer);
    accepted(number, place)?;
    Ok(Counts { records, starred })
}

pub fn read(
    width: u64,
    format: &[u8],
    wanted: &[Value],
    count: u64,
    area: &mut [u8],
    records: &[u8],
) -> Result<(Counts, Vec<Value>), Refusal> {
    let ([number, place, records, starred, given], slots) = answers::read(width, format, wanted, count, area, records);
    accepted(number, place)?;
    Ok((Counts { records, starred }, slots[..given as usize].to_vec()))
}

pub fn check(format: &[u8]) -> Result<(), Refusal> {
    let [number, place] = answers::check(format);
    accepted(number, place)
}

pub fn list_text(text: &[u8]) -> Result<Vec<Value>, Refusal> {
    let ([number, place, count], slots) = answers::list_text(text);
    accepted(number, place)?;
    Ok(slots[..count as usize].to_vec())
}

pub fn sheet(input: &[u8]) -> Vec<u8> {
    let mut output = [0; SHEET_OUTPUT];
    let length = answers::sheet(input, &mut [0; SHEET_RECORDS], &mut output);
    output[..length as usize].to_vec()
}

fn accepted(number: u64, place: u64) -> Result<(), Refusal> {
    if number == 0 {
        Ok(())
    } else {
        Err(Refusal { number, place })
    }
}
