//! Measures the proved library, the independent Rust implementation and FORTRAN runtimes on the same sheets.
//!
//!     bench FOLDER cases                              the cases, each with what can be done with it
//!     bench FOLDER right                              whether all give the same
//!     bench FOLDER times [ROUNDS]                     processor time of a sheet
//!     bench FOLDER repeat CONTESTANT CASE ACT TIMES   so many calls, for a profiler
//!     bench FOLDER stack                              the deepest stack of a call; fails where the library is over its limit
//!
//! FOLDER has `sheets.f` as shared libraries, gfortran.so, f2c.so and flang.so, as far as the compilers are installed.

mod cases;
mod clock;
mod contestants;
mod fortran;
mod independent;
mod proved;
mod stack;
mod stack_cases;
mod stack_inputs;

use std::path::Path;
use std::process::ExitCode;

use cases::{Act, Case};
use contestants::{Contestant, Work};
use fortran::Fortran;
use independent::Independent;
use proved::Proved;
use stack_cases::LIMIT;

/// Of one contestant in one round, in nanoseconds.
const SPELL: u64 = 20_000_000;
const ROUNDS: usize = 15;

fn main() -> ExitCode {
    let arguments: Vec<String> = std::env::args().skip(1).collect();
    let words: Vec<&str> = arguments.iter().map(String::as_str).collect();
    let Some((folder, words)) = words.split_first() else { return usage() };
    let cases = cases::all();
    let contestants = contestants(Path::new(folder));
    match words {
        ["cases"] => list(&cases, &contestants),
        ["right"] => return right(&cases, &contestants),
        ["times"] => times(&cases, &contestants, ROUNDS),
        ["times", rounds] => times(&cases, &contestants, rounds.parse().expect("a number")),
        ["repeat", contestant, case, act, times] => {
            let contestant = contestants.iter().find(|found| found.name() == *contestant).expect("a contestant");
            let case = cases.iter().find(|found| found.name == *case).expect("a case");
            let act = *case.acts().iter().find(|found| word(**found) == *act).expect("an act");
            let mut work = contestant.ready(case, act).expect("a call");
            work.repeat(times.parse().expect("a number"));
        }
        ["stack"] => return stacks(&cases, &contestants),
        _ => return usage(),
    }
    ExitCode::SUCCESS
}

fn usage() -> ExitCode {
    eprintln!("bench FOLDER cases | right | times [ROUNDS] | repeat CONTESTANT CASE ACT TIMES | stack");
    ExitCode::FAILURE
}

/// The proved library comes first.
fn contestants(folder: &Path) -> Vec<Box<dyn Contestant>> {
    let mut all: Vec<Box<dyn Contestant>> = vec![Box::new(Proved), Box::new(Independent)];
    for compiler in ["gfortran", "f2c", "flang"] {
        if let Some(fortran) = Fortran::open(folder, compiler) {
            all.push(Box::new(fortran));
        }
    }
    all
}

fn word(act: Act) -> &'static str {
    match act {
        Act::Write => "write",
        Act::Read => "read",
        Act::Check => "check",
    }
}

fn jobs(cases: &[Case]) -> impl Iterator<Item = (&Case, Act)> {
    cases.iter().flat_map(|case| case.acts().iter().map(move |&act| (case, act)))
}

/// A line for each: contestant, case, act.
fn list(cases: &[Case], contestants: &[Box<dyn Contestant>]) {
    for (case, act) in jobs(cases) {
        for contestant in contestants {
            if contestant.ready(case, act).is_some() {
                println!("{}\t{}\t{}", contestant.name(), case.name, word(act));
            }
        }
    }
}

fn right(cases: &[Case], contestants: &[Box<dyn Contestant>]) -> ExitCode {
    let mut wrong = 0;
    let mut done = 0;
    for (case, act) in jobs(cases) {
        for contestant in contestants {
            let Some(mut work) = contestant.ready(case, act) else { continue };
            // As many times as a list has elements at most, since a proved reading hands on one after the other.
            work.repeat(64);
            done += 1;
            if !work.is_right() {
                println!("{}, {}, {}: another result", contestant.name(), case.name, word(act));
                wrong += 1;
            }
        }
    }
    println!("{done} results compared, {wrong} differ");
    if wrong == 0 {
        ExitCode::SUCCESS
    } else {
        ExitCode::FAILURE
    }
}

fn times(cases: &[Case], contestants: &[Box<dyn Contestant>], rounds: usize) {
    println!("| case | call | {} |", heads(contestants));
    println!("|---|---|{}", "---|".repeat(contestants.len()));
    for (case, act) in jobs(cases) {
        let mut works: Vec<_> = contestants.iter().map(|contestant| contestant.ready(case, act)).collect();
        let medians = medians(&mut works, rounds);
        let ours = medians[0].expect("the proved library has every call");
        let cells: Vec<String> = medians
            .iter()
            .enumerate()
            .map(|(index, median)| match median {
                Some(median) if index == 0 => format!("{median:.0} ns"),
                Some(median) => format!("{median:.0} ns, {:.2}", median / ours),
                None => "".to_string(),
            })
            .collect();
        println!("| {} | {} | {} |", case.name, word(act), cells.join(" | "));
    }
}

fn heads(contestants: &[Box<dyn Contestant>]) -> String {
    contestants.iter().map(|contestant| contestant.name().to_string()).collect::<Vec<_>>().join(" | ")
}

/// Nanoseconds of one repetition of each work, by interleaved rounds.
fn medians(works: &mut [Option<Box<dyn Work + '_>>], rounds: usize) -> Vec<Option<f64>> {
    let counts: Vec<usize> =
        works.iter_mut().map(|work| work.as_mut().map_or(0, |work| count(work.as_mut()))).collect();
    let mut spells: Vec<Vec<f64>> = works.iter().map(|_| Vec::new()).collect();
    for round in 0..rounds {
        for turn in 0..works.len() {
            let index = (round + turn) % works.len();
            let Some(work) = &mut works[index] else { continue };
            let began = clock::now();
            work.repeat(counts[index]);
            spells[index].push((clock::now() - began) as f64 / counts[index] as f64);
        }
    }
    spells.into_iter().map(median).collect()
}

fn median(mut numbers: Vec<f64>) -> Option<f64> {
    numbers.sort_by(f64::total_cmp);
    numbers.get(numbers.len() / 2).copied()
}

/// How many repetitions a spell has.
fn count(work: &mut dyn Work) -> usize {
    let mut times = 16;
    loop {
        let began = clock::now();
        work.repeat(times);
        let spent = clock::now() - began;
        if spent > SPELL / 4 {
            return (times as u64 * SPELL / spent) as usize;
        }
        times *= 2;
    }
}

/// That of each contestant, and that of each public call of the proved library; fails where one of its calls is over the limit.
fn stacks(cases: &[Case], contestants: &[Box<dyn Contestant>]) -> ExitCode {
    let mut figures = compared_stacks(cases, contestants);
    println!();
    figures.extend(stack_cases::print());
    println!();
    let most = figures.into_iter().max().expect("figures");
    let (found, status) = if most <= LIMIT { ("within", ExitCode::SUCCESS) } else { ("over", ExitCode::FAILURE) };
    println!("The most that a call of the proved library takes is {most} bytes, {found} the limit of {LIMIT}.");
    status
}

/// Gives the figures of the proved library.
fn compared_stacks(cases: &[Case], contestants: &[Box<dyn Contestant>]) -> Vec<usize> {
    println!("| case | call | {} |", heads(contestants));
    println!("|---|---|{}", "---|".repeat(contestants.len()));
    let mut proved = Vec::new();
    for (case, act) in jobs(cases) {
        let depths: Vec<Option<usize>> = contestants
            .iter()
            .map(|contestant| contestant.ready(case, act).map(|mut work| stack::depth_of(work.as_mut())))
            .collect();
        let cells: Vec<String> =
            depths.iter().map(|depth| depth.map_or(String::new(), |depth| depth.to_string())).collect();
        println!("| {} | {} | {} |", case.name, word(act), cells.join(" | "));
        proved.extend(depths[0]);
    }
    proved
}
