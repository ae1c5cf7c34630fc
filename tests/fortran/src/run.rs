//! Compiles and runs a generated program in a folder of its own, and takes its output apart.

use std::fs;
use std::io::Write;
use std::path::{Path, PathBuf};
use std::process::{Command, Stdio};

use crate::calls::Value;
use crate::compiler::Compiler;
use crate::differences::Got;
use crate::generate::Sheet;
use crate::readings::Reading;

/// A folder that goes when it is dropped.
pub struct Folder(PathBuf);

impl Folder {
    pub fn new() -> Result<Folder, String> {
        let path = std::env::temp_dir().join(format!("fortran-{}", std::process::id()));
        fs::create_dir_all(&path).map_err(|why| format!("{}: {why}", path.display()))?;
        Ok(Folder(path))
    }
}

impl Drop for Folder {
    fn drop(&mut self) {
        let _ = fs::remove_dir_all(&self.0);
    }
}

/// The program's standard output for the data.
pub fn run(folder: &Folder, compiler: Compiler, source: &str, data: &[u8]) -> Result<Vec<u8>, String> {
    let name = "sheets";
    fs::write(folder.0.join(format!("{name}.f")), source).map_err(|why| why.to_string())?;
    for line in compiler.commands(name) {
        command(&folder.0, &line)?;
    }
    execute(&folder.0.join(name), data)
}

fn command(folder: &Path, line: &[String]) -> Result<(), String> {
    let result = Command::new(&line[0]).args(&line[1..]).current_dir(folder).output();
    let output = result.map_err(|why| format!("{}: {why}", line[0]))?;
    if output.status.success() {
        return Ok(());
    }
    Err(format!("{}: {}", line.join(" "), String::from_utf8_lossy(&output.stderr)))
}

fn execute(program: &Path, data: &[u8]) -> Result<Vec<u8>, String> {
    let mut command = Command::new(program);
    command.stdin(Stdio::piped()).stdout(Stdio::piped()).stderr(Stdio::piped());
    let mut child = command.spawn().map_err(|why| why.to_string())?;
    let mut input = child.stdin.take().expect("standard input");
    let data = data.to_vec();
    let feeder = std::thread::spawn(move || {
        let _ = input.write_all(&data);
    });
    let output = child.wait_with_output().map_err(|why| why.to_string())?;
    feeder.join().map_err(|_| "standard input".to_string())?;
    if output.status.success() {
        return Ok(output.stdout);
    }
    let shown = output.stdout.iter().filter(|&&byte| byte == b'\n').count();
    Err(format!("{} after {shown} lines: {}", output.status, String::from_utf8_lossy(&output.stderr)))
}

/// What the compiler's program wrote: its IOSTAT and the whole internal file.
#[derive(Clone, Debug)]
pub struct Written {
    pub iostat: i64,
    pub file: Vec<u8>,
}

/// What it read: None where IOSTAT is not 0.
pub type Values = Option<Vec<Got>>;

struct Lines<'a>(std::slice::Split<'a, u8, fn(&u8) -> bool>);

impl<'a> Lines<'a> {
    fn of(output: &'a [u8]) -> Lines<'a> {
        Lines(output.split(|&byte| byte == b'\n'))
    }

    fn next(&mut self) -> Result<&'a [u8], String> {
        self.0.next().ok_or_else(|| "output too short".to_string())
    }

    fn iostat(&mut self) -> Result<i64, String> {
        let line = self.next()?;
        let rest = line.strip_prefix(b"S").ok_or_else(|| strange(line))?;
        number(rest).ok_or_else(|| strange(line))
    }
}

fn strange(line: &[u8]) -> String {
    format!("strange line of output: {}", String::from_utf8_lossy(line))
}

fn number(characters: &[u8]) -> Option<i64> {
    std::str::from_utf8(characters).ok()?.trim().parse().ok()
}

/// The characters between the marks, if there are as many as there should be.
fn between(line: &[u8], length: u64) -> Result<&[u8], String> {
    let inner = line.strip_prefix(b">").and_then(|rest| rest.strip_suffix(b"<"));
    inner.filter(|text| text.len() as u64 == length).ok_or_else(|| strange(line))
}

pub fn written(output: &[u8], sheets: &[Sheet]) -> Result<Vec<Written>, String> {
    let mut lines = Lines::of(output);
    let mut out = Vec::new();
    for sheet in sheets {
        let iostat = lines.iostat()?;
        let mut file = Vec::new();
        for _ in 0..sheet.records {
            file.extend_from_slice(between(lines.next()?, sheet.width)?);
        }
        out.push(Written { iostat, file });
    }
    Ok(out)
}

pub fn read(output: &[u8], readings: &[Reading]) -> Result<Vec<Values>, String> {
    let mut lines = Lines::of(output);
    let mut out = Vec::new();
    for reading in readings {
        if lines.iostat()? != 0 {
            out.push(None);
            continue;
        }
        let mut values = Vec::new();
        for &wanted in &reading.sheet.elements {
            let line = lines.next()?;
            values.push(value(line, wanted)?);
        }
        out.push(Some(values));
    }
    Ok(out)
}

/// The value of the kind wanted from a line with all four.
fn value(line: &[u8], wanted: Value) -> Result<Got, String> {
    let part = |from: usize, to: usize| line.get(from..to).and_then(number).ok_or_else(|| strange(line));
    match wanted {
        Value::Integer(_) => Ok(Got::Integer(part(0, 20)?)),
        Value::Decimal { .. } => {
            let (low, high) = (part(20, 32)? as u32, part(32, 44)? as u32);
            Ok(Got::Decimal(f64::from_bits(u64::from(high) << 32 | u64::from(low))))
        }
        Value::Logical(_) => match line.get(45) {
            Some(b'T') => Ok(Got::Logical(true)),
            Some(b'F') => Ok(Got::Logical(false)),
            _ => Err(strange(line)),
        },
        Value::Text { len, .. } => Ok(Got::Text(between(line.get(46..).unwrap_or(b""), len)?.to_vec())),
    }
}
