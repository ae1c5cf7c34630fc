//! The stack of the proved library's public and C calls, each on each input, and the limit that they all keep.

use std::hint::black_box;

use crate::cases::Act;
use crate::contestants::Contestant;
use crate::proved::Proved;
use crate::stack;
use crate::stack_inputs::{self, Input};

/// The most bytes of stack that a public call takes, C calls included. A figure also has what stands between the painter and the
/// call. Of that only the list is taken off which `bench_calls` makes and no call has; its copy, which is handed over, and the list
/// given count as the call's. For `read_list` two lists of `test_calls`, and the numbers of one, are not taken off. The other calls
/// have nothing of such a size before them. `write_list_text` has no column: `trimsheet_write` calls it, and nothing else of any
/// size.
pub const LIMIT: usize = 32 * 1024;

/// A list: 64 elements of 24 bytes, and their count.
const LIST: usize = 64 * 24 + 8;

struct Call {
    name: &'static str,
    depth: fn(&Input) -> usize,
}

const CALLS: [Call; 7] = [
    Call { name: "write", depth: |input| of_act(input, Act::Write) - LIST },
    Call { name: "read", depth: |input| of_act(input, Act::Read) - LIST },
    Call { name: "check", depth: |input| of_act(input, Act::Check) },
    Call { name: "read_list", depth: of_read_list },
    Call { name: "sheet", depth: of_sheet },
    Call { name: "trimsheet_write", depth: of_trimsheet_write },
    Call { name: "trimsheet_check", depth: of_trimsheet_check },
];

/// Prints a line for each input; gives the figures.
pub fn print() -> Vec<usize> {
    let names = CALLS.map(|call| call.name);
    println!("| input | {} |", names.join(" | "));
    println!("|---|{}", "---|".repeat(names.len()));
    let mut figures = Vec::new();
    for input in stack_inputs::all() {
        let depths = CALLS.map(|call| (call.depth)(&input));
        println!("| {} | {} |", told(&input), depths.map(|depth| depth.to_string()).join(" | "));
        figures.extend(depths);
    }
    figures
}

/// What an input is. That its refusal has the number told is looked at here.
fn told(input: &Input) -> String {
    let Input { case, number, .. } = input;
    let numbers = numbers(input);
    if *number == 0 {
        assert_eq!(numbers, [0, 0], "{}: accepted", case.name);
        return case.name.to_string();
    }
    assert!(numbers.contains(number), "{}: {numbers:?}, and not {number}", case.name);
    format!("refused {number}: {}", case.name)
}

/// The numbers that writing and reading answer, 0 where they accept.
fn numbers(input: &Input) -> [u64; 2] {
    let case = &input.case;
    let (width, count) = (case.width as u64, case.elements.len() as u64);
    let (mut area, mut records) = (case.area.clone(), case.records.clone());
    let read = library::read(width, &case.format, &case.read, count, &mut area, &case.records).err();
    let written = library::write(width, &case.format, &case.elements, count, &case.area, &mut records).err();
    [written, read].map(|refusal| refusal.map_or(0, |refusal| refusal.number))
}

fn of_act(input: &Input, act: Act) -> usize {
    let mut work = Proved.ready(&input.case, act).expect("the proved library has every call");
    stack::depth_of(work.as_mut())
}

fn of_read_list(input: &Input) -> usize {
    stack::depth(|| {
        black_box(library::answers::list_text(&input.text));
    })
}

fn of_sheet(input: &Input) -> usize {
    let Input { case, text, .. } = input;
    let sheet = [case.width.to_string().as_bytes(), &case.format, text].join(&b'\n');
    let mut records = vec![0; library::SHEET_RECORDS].try_into().expect("as many bytes");
    let mut output = vec![0; library::SHEET_OUTPUT].try_into().expect("as many bytes");
    stack::depth(|| {
        black_box(library::answers::sheet(&sheet, &mut records, &mut output));
    })
}

fn of_trimsheet_write(input: &Input) -> usize {
    let Input { case, text, .. } = input;
    let mut records = case.records.clone();
    stack::depth(|| {
        black_box(library::host_write(case.width as u64, &case.format, text, &mut records));
    })
}

fn of_trimsheet_check(input: &Input) -> usize {
    stack::depth(|| {
        black_box(library::host_check(&input.case.format));
    })
}
