//! `sheets.f`, compiled to a shared library by each FORTRAN compiler.

use std::ffi::{c_char, c_int, c_void, CStr, CString};
use std::hint::black_box;
use std::path::Path;

use crate::cases::{Act, Case};
use crate::contestants::{Contestant, Work};
use reference::Value;

const SLOTS: usize = 64;
/// TV is of CHARACTER*4.
const TEXT: usize = 4;
const RTLD_LAZY: c_int = 1;

extern "C" {
    fn dlopen(path: *const c_char, flags: c_int) -> *mut c_void;
    fn dlsym(library: *mut c_void, name: *const c_char) -> *mut c_void;
    fn dlerror() -> *const c_char;
}

/// FMT, IV, DV, LV, TV, REC and the lengths of FMT, TV and REC.
type Subroutine = unsafe extern "C" fn(*const u8, *mut i32, *mut f64, *mut i32, *mut u8, *mut u8, usize, usize, usize);

pub struct Fortran {
    name: String,
    library: *mut c_void,
}

impl Fortran {
    /// The library of a compiler in a folder, if it is there.
    pub fn open(folder: &Path, compiler: &str) -> Option<Fortran> {
        let path = folder.join(format!("{compiler}.so"));
        if !path.exists() {
            return None;
        }
        let path = CString::new(path.to_str().expect("a path of text")).expect("no zero byte");
        // SAFETY: the string ends in a zero byte; the library is one that bench/run has made.
        let library = unsafe { dlopen(path.as_ptr(), RTLD_LAZY) };
        if library.is_null() {
            // SAFETY: after a failure dlerror gives a string.
            panic!("{}", unsafe { CStr::from_ptr(dlerror()) }.to_string_lossy());
        }
        Some(Fortran { name: compiler.to_string(), library })
    }

    fn subroutine(&self, act: Act, case: &Case) -> Subroutine {
        let letter = match act {
            Act::Write => "w",
            Act::Read => "r",
            Act::Check => "",
        };
        let name = CString::new(format!("{letter}{}_", case.subroutine.to_lowercase())).expect("no zero byte");
        // SAFETY: the library is open, and the string ends in a zero byte.
        let found = unsafe { dlsym(self.library, name.as_ptr()) };
        assert!(!found.is_null(), "no {name:?}");
        // SAFETY: every subroutine of sheets.f has these arguments.
        unsafe { std::mem::transmute::<*mut c_void, Subroutine>(found) }
    }
}

impl Contestant for Fortran {
    fn name(&self) -> &str {
        &self.name
    }

    fn ready<'a>(&'a self, case: &'a Case, act: Act) -> Option<Box<dyn Work + 'a>> {
        if act == Act::Check && self.name == "flang" {
            // Its runtime reads a format only as far as the list goes.
            return None;
        }
        let mut arrays = Arrays::new();
        let mut records = vec![0; case.records.len().max(case.width)];
        match act {
            Act::Write => arrays.take(&case.elements, &case.area),
            Act::Read => records.copy_from_slice(&case.records),
            Act::Check => {}
        }
        Some(Box::new(Statements { case, act, subroutine: self.subroutine(act, case), arrays, records }))
    }
}

/// The elements as FORTRAN has them.
#[derive(PartialEq)]
struct Arrays {
    integers: [i32; SLOTS],
    doubles: [f64; SLOTS],
    logicals: [i32; SLOTS],
    texts: [u8; TEXT * SLOTS],
}

impl Arrays {
    fn new() -> Arrays {
        Arrays { integers: [0; SLOTS], doubles: [0.0; SLOTS], logicals: [0; SLOTS], texts: [b' '; TEXT * SLOTS] }
    }

    fn take(&mut self, elements: &[Value], area: &[u8]) {
        for (slot, &element) in elements.iter().enumerate() {
            match element {
                Value::Integer(n) => self.integers[slot] = n as i32,
                Value::Decimal { units, places } => {
                    self.doubles[slot] = units as f64 / 10f64.powi(places as i32);
                }
                Value::Logical(b) => self.logicals[slot] = i32::from(b),
                Value::Text { start, len } => {
                    let text = &area[start as usize..][..len as usize];
                    self.texts[TEXT * slot..][..text.len()].copy_from_slice(text);
                }
            }
        }
    }
}

struct Statements<'a> {
    case: &'a Case,
    act: Act,
    subroutine: Subroutine,
    arrays: Arrays,
    records: Vec<u8>,
}

impl Work for Statements<'_> {
    fn repeat(&mut self, times: usize) {
        for _ in 0..times {
            let Case { width, format, .. } = black_box(self.case);
            let Statements { subroutine, arrays, records, .. } = black_box(&mut *self);
            let Arrays { integers, doubles, logicals, texts } = arrays;
            // SAFETY: the arrays are as long as sheets.f has them, the records as many as the case has.
            unsafe {
                subroutine(
                    format.as_ptr(),
                    integers.as_mut_ptr(),
                    doubles.as_mut_ptr(),
                    logicals.as_mut_ptr(),
                    texts.as_mut_ptr(),
                    records.as_mut_ptr(),
                    format.len(),
                    TEXT,
                    *width,
                );
            }
        }
    }

    fn is_right(&self) -> bool {
        match self.act {
            Act::Write => self.records == self.case.records,
            Act::Read => {
                let mut expected = Arrays::new();
                expected.take(&self.case.read, &self.case.area);
                self.arrays == expected
            }
            Act::Check => true,
        }
    }
}
