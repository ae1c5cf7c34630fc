//! Random sheets, written and read by the library and by a FORTRAN compiler through generated FORTRAN.
//!
//!     fortran COMPILER [SHEETS [SEED [examples]]]
//!     fortran --self-test [COMPILER]
//!
//! COMPILER is gfortran, f2c or flang; without more, 2,000 sheets and a seed from the clock. The self-test corrupts
//! results, each of which must be noticed.

mod calls;
mod compare;
mod compiler;
mod differences;
mod exact;
mod format;
mod generate;
mod models;
mod program;
mod readings;
mod report;
mod run;
mod self_test;
mod traits;
mod values;
mod walk;

use std::process::ExitCode;

use compiler::Compiler;
use random::Random;
use report::Report;
use run::Folder;

/// Sheets in one generated program.
const BATCH: usize = 250;

fn main() -> ExitCode {
    let arguments: Vec<String> = std::env::args().skip(1).collect();
    let result = match arguments.first().map(String::as_str) {
        Some("--self-test") => self_test::run(arguments.get(1).map_or("gfortran", String::as_str)),
        Some(name) => compare_all(name, &arguments[1..]),
        None => Err("usage: fortran COMPILER [SHEETS [SEED [examples]]] | fortran --self-test [COMPILER]".to_string()),
    };
    match result {
        Ok(()) => ExitCode::SUCCESS,
        Err(why) => {
            println!("{why}");
            ExitCode::FAILURE
        }
    }
}

fn compare_all(name: &str, rest: &[String]) -> Result<(), String> {
    let compiler = Compiler::named(name).ok_or_else(|| format!("no compiler {name} here"))?;
    let number = |index: usize| rest.get(index).map(|text| text.parse::<u64>().map_err(|why| format!("{text}: {why}")));
    let sheets = number(0).transpose()?.unwrap_or(2000);
    let seed = number(1).transpose()?.unwrap_or_else(random::clock_seed);
    println!("{name}, seed {seed}");
    let mut rng = Random::new(seed);
    let folder = Folder::new()?;
    let written = all_written(&folder, compiler, sheets, &mut rng)?;
    let read = all_read(&folder, compiler, sheets, &mut rng)?;
    let examples = rest.get(2).is_some_and(|word| word == "examples");
    written.print("written", examples);
    read.print("read", examples);
    written.finish().and(read.finish())
}

/// Batches until the library has accepted as many sheets as asked.
fn all_written(folder: &Folder, compiler: Compiler, sheets: u64, rng: &mut Random) -> Result<Report, String> {
    let mut report = Report::default();
    while report.compared < sheets {
        let batch: Vec<_> = (0..BATCH).map(|_| generate::sheet(rng, compiler)).collect();
        let source = program::writing(compiler, &batch);
        let output = run::run(folder, compiler, &source, &program::writing_data(compiler, &batch))?;
        for (sheet, got) in batch.iter().zip(run::written(&output, &batch)?) {
            let expected = compare::library_writes(sheet);
            let verdict = compare::writing(compiler, sheet, &expected, &got);
            report.count(expected.answer.is_ok(), &verdict, || report::sheet(sheet, &expected, &got));
            if let Ok(counts) = expected.answer {
                report.have(&traits::of(sheet));
                report.have(&[("starred fields", counts.starred > 0)]);
            }
        }
    }
    Ok(report)
}

/// Batches until as many records have been read as asked, or refused by the library with 12.
fn all_read(folder: &Folder, compiler: Compiler, sheets: u64, rng: &mut Random) -> Result<Report, String> {
    let mut report = Report::default();
    while report.compared < sheets {
        let batch: Vec<_> = (0..BATCH).map(|_| readings::reading(rng, compiler)).collect();
        let source = program::reading(compiler, &batch);
        let output = run::run(folder, compiler, &source, &program::reading_data(compiler, &batch))?;
        for (reading, got) in batch.iter().zip(run::read(&output, &batch)?) {
            let expected = compare::library_reads(reading);
            let verdict = compare::reading(compiler, reading, &expected, &got);
            let counted = !matches!(expected, Err(refusal) if refusal.number != 12);
            report.count(counted, &verdict, || report::reading(reading, &expected, &got));
            if counted {
                report.have(&traits::of(&reading.sheet));
                report.have(&[("refused with 12", expected.is_err())]);
            }
        }
    }
    Ok(report)
}
