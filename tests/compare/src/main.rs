//! Random comparison of the proved library with the reference.
//!
//! `compare [CASES] [SEED]` compares; `compare --self-test` shows that the
//! comparison notices wrong variants of the reference.

mod bytes;
mod calls;
mod cases;
mod damage;
mod formats;
mod harness;
mod lists;
mod readback;
mod sign_slips;
mod signs;
mod slips;
mod tally;

use calls::{Calls, Reference};
use harness::Harness;
use random::clock_seed;
use std::env;
use std::process::ExitCode;
use std::time::Instant;

const CASES: usize = 200_000;
/// Cases in which a wrong variant must be noticed.
const SELF_TEST_CASES: usize = 20_000;

fn main() -> ExitCode {
    let arguments: Vec<String> = env::args().skip(1).collect();
    let self_test = arguments.first().is_some_and(|first| first == "--self-test");
    let numbers: Option<Vec<u64>> = arguments.iter().skip(self_test.into()).map(|text| text.parse().ok()).collect();
    let passed = match (self_test, numbers.as_deref()) {
        (true, Some([])) => run_self_test(clock_seed()),
        (true, Some([seed])) => run_self_test(*seed),
        (false, Some([])) => compare(CASES, clock_seed()),
        (false, Some([cases])) => compare(*cases as usize, clock_seed()),
        (false, Some([cases, seed])) => compare(*cases as usize, *seed),
        _ => {
            eprintln!("compare [CASES] [SEED] | compare --self-test [SEED]");
            false
        }
    };
    if passed {
        ExitCode::SUCCESS
    } else {
        ExitCode::FAILURE
    }
}

fn compare(cases: usize, seed: u64) -> bool {
    compare_with(&calls::Library, cases, seed)
}

/// Compares and prints the counts; fails on a difference, or where a refusal
/// was reached or calls were accepted too seldom.
fn compare_with(calls: &impl Calls, cases: usize, seed: u64) -> bool {
    println!("{cases} cases, seed {seed}");
    let start = Instant::now();
    let mut harness = Harness::new(calls, seed);
    if let Err(difference) = harness.run(cases) {
        println!("{difference}");
        return false;
    }
    println!("{}", harness.tally);
    println!("no difference, {:.1} s", start.elapsed().as_secs_f64());
    let shortcomings = harness.tally.shortcomings();
    shortcomings.iter().for_each(|shortcoming| println!("{shortcoming}"));
    shortcomings.is_empty()
}

/// The reference passes against itself, and every wrong variant is noticed.
fn run_self_test(seed: u64) -> bool {
    let mut passed = compare_with(&Reference, SELF_TEST_CASES, seed);
    for slip in slips::SLIPS.iter().chain(sign_slips::SLIPS) {
        let noticed = Harness::new(slip, seed).run(SELF_TEST_CASES).is_err();
        println!("{}: {}", slip.name, if noticed { "noticed" } else { "NOT NOTICED" });
        passed &= noticed;
    }
    passed
}
