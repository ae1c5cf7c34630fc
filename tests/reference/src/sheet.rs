//! Calls that take the list as text: program `trimsheet` and the console host.

use crate::list::{list_text, split_line};
use crate::{check, check_call, write_list, Counts, Refusal};

/// "Its record buffer is 64 KiB."
const BUFFER: usize = 65_536;

/// Program `trimsheet`: all of standard input to all of standard output.
pub fn sheet(input: &[u8]) -> Vec<u8> {
    let mut buffer = vec![b' '; BUFFER];
    match write_sheet(input, &mut buffer) {
        Ok((width, counts)) => printed(&buffer, width, counts),
        Err(Refusal { number, place }) => format!("refused {number} {place}\n").into_bytes(),
    }
}

/// "A line with R, a line with the format, then the list text."
fn write_sheet(input: &[u8], buffer: &mut [u8]) -> Result<(usize, Counts), Refusal> {
    let (first, rest) = split_line(input);
    let (format, list) = split_line(rest);
    let width = width(first).ok_or(Refusal::new(1, 0))?;
    let counts = write_list_text(width, format, list, buffer)?;
    Ok((width as usize, counts))
}

/// The number in the first line, if that is one to three digits.
fn width(line: &[u8]) -> Option<u64> {
    if !(1..=3).contains(&line.len()) || !line.iter().all(u8::is_ascii_digit) {
        return None;
    }
    std::str::from_utf8(line).ok()?.parse().ok()
}

fn write_list_text(width: u64, format: &[u8], text: &[u8], buffer: &mut [u8]) -> Result<Counts, Refusal> {
    let (width, format) = check_call(width, format)?;
    let list = list_text(text)?;
    write_list(width, &format, &list, text, buffer)
}

/// "Each record and a line feed, then `records` and `starred` with their counts."
fn printed(buffer: &[u8], width: usize, counts: Counts) -> Vec<u8> {
    let mut output = Vec::new();
    for record in buffer.chunks_exact(width).take(counts.records as usize) {
        output.extend_from_slice(record);
        output.push(b'\n');
    }
    output.extend(format!("records {} starred {}\n", counts.records, counts.starred).bytes());
    output
}

/// The console host's writing: the records written, or the refusal's number negated.
pub fn host_write(width: u64, format: &[u8], list_text: &[u8], buffer: &mut [u8]) -> i64 {
    match write_list_text(width, format, list_text, buffer) {
        Ok(counts) => counts.records as i64,
        Err(refusal) => -(refusal.number as i64),
    }
}

/// The console host's format check: 0, or the refusal's number negated.
pub fn host_check(format: &[u8]) -> i64 {
    match check(format) {
        Ok(()) => 0,
        Err(refusal) => -(refusal.number as i64),
    }
}
