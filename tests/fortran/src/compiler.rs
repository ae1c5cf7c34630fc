//! The compilers, what each can hold, and how each is called.

use std::process::Command;

use crate::format::Dialect;

#[derive(Clone, Copy, Debug, PartialEq, Eq)]
pub enum Compiler {
    Gfortran,
    F2c,
    Flang,
}

impl Compiler {
    pub fn named(name: &str) -> Option<Compiler> {
        match name {
            "gfortran" => Some(Compiler::Gfortran),
            "f2c" => Some(Compiler::F2c),
            "flang" => Some(Compiler::Flang),
            _ => None,
        }
    }

    /// Debian's libf2c has no INTEGER*8.
    pub fn integer_type(self) -> &'static str {
        match self {
            Compiler::F2c => "INTEGER*4",
            _ => "INTEGER*8",
        }
    }

    /// The digits that every integer may have.
    pub fn integer_digits(self) -> u64 {
        match self {
            Compiler::F2c => 9,
            _ => 18,
        }
    }

    /// Whether an integer's type can hold the number.
    pub fn holds(self, n: i64) -> bool {
        self != Compiler::F2c || i32::try_from(n).is_ok()
    }

    /// libf2c knows no repeated slash; no compiler is to meet a literal in reading.
    pub fn dialect(self, reading: bool) -> Dialect {
        Dialect { single_slashes: self == Compiler::F2c, skips_for_literals: reading }
    }

    /// FORTRAN 2003 control where the compiler has it; libf2c drops blanks of itself.
    pub fn write_control(self) -> &'static str {
        match self {
            Compiler::F2c => "",
            _ => ",ROUND='COMPATIBLE'",
        }
    }

    pub fn read_control(self) -> &'static str {
        match self {
            Compiler::F2c => "",
            _ => ",BLANK='NULL'",
        }
    }

    /// The commands that make `name` from `name.f`, run in its folder.
    pub fn commands(self, name: &str) -> Vec<Vec<String>> {
        let source = format!("{name}.f");
        let c = format!("{name}.c");
        match self {
            Compiler::Gfortran => vec![words(&["gfortran", "-O0", "-w", "-fno-sign-zero", &source, "-o", name])],
            Compiler::Flang => vec![words(&[flang(), "-O0", &source, "-o", name])],
            Compiler::F2c => vec![
                words(&["f2c", "-!bs", "-w", &source]),
                words(&["gcc", "-O0", "-w", &c, "-o", name, "-lf2c", "-lm"]),
            ],
        }
    }
}

/// flang 19 by the name that it has here.
fn flang() -> &'static str {
    let names = ["flang-new-19", "flang-19"];
    let here = |name: &&&str| Command::new(name).arg("--version").output().is_ok();
    names.iter().find(here).unwrap_or(&names[0])
}

fn words(line: &[&str]) -> Vec<String> {
    line.iter().map(|word| word.to_string()).collect()
}
