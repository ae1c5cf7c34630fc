//! The generated FORTRAN 77, in fixed form: a subroutine for each sheet, and the data that it takes.

use crate::calls::Value;
use crate::compiler::Compiler;
use crate::exact;
use crate::format;
use crate::generate::Sheet;
use crate::readings::Reading;

/// Declarations that every unit shares. Element j of the list is IV(j), DV(j), LV(j) or TV(j)(1:N(j)).
fn shared(compiler: Compiler) -> String {
    let integer = compiler.integer_type();
    format!(
        "      REAL*8 DV(64)
      {integer} IV(64)
      LOGICAL LV(64)
      INTEGER N(64),NF,NE,NR
      CHARACTER*1024 FMT
      CHARACTER*64 TV(64)
      COMMON /SHEET/ DV,IV,LV,N,NF,NE,NR
      COMMON /TEXTS/ FMT,TV
"
    )
}

/// A statement over columns 7 to 72 and continuation lines.
fn statement(label: &str, text: &str) -> String {
    let mut out = String::new();
    for (index, part) in text.as_bytes().chunks(66).enumerate() {
        let margin = if index == 0 { format!("{label:<6}") } else { "     +".to_string() };
        out += &format!("{margin}{}\n", std::str::from_utf8(part).expect("ASCII"));
    }
    out
}

fn list(elements: &[Value]) -> String {
    let names = elements.iter().enumerate().map(|(index, value)| match (index + 1, value) {
        (j, Value::Integer(_)) => format!("IV({j})"),
        (j, Value::Decimal { .. }) => format!("DV({j})"),
        (j, Value::Logical(_)) => format!("LV({j})"),
        (j, Value::Text { .. }) => format!("TV({j})(1:N({j}))"),
    });
    names.collect::<Vec<_>>().join(",")
}

/// The program that writes the sheets.
pub fn writing(compiler: Compiler, sheets: &[Sheet]) -> String {
    let mut out = main_unit(sheets.len());
    for (index, sheet) in sheets.iter().enumerate() {
        out += &opening(compiler, index, sheet.width, sheet.records);
        out += "      CALL FILL(REC,NR)\n";
        let control = compiler.write_control();
        let list = list(&sheet.elements);
        out += &statement("", &format!("WRITE(REC,FMT(1:NF),IOSTAT=IOS,ERR=9{control}) {list}"));
        out += "9     CALL SHOW(REC,NR,IOS)\n      END\n";
    }
    out + &take(compiler) + FILL_AND_SHOW
}

/// The program that reads the records.
pub fn reading(compiler: Compiler, readings: &[Reading]) -> String {
    let mut out = main_unit(readings.len());
    for (index, reading) in readings.iter().enumerate() {
        let records = reading.records.len() as u64 / reading.width;
        out += &opening(compiler, index, reading.width, records);
        out += "      CALL LOAD(REC,NR)\n";
        let control = compiler.read_control();
        let list = list(&reading.sheet.elements);
        out += &statement("", &format!("READ(REC,FMT(1:NF),IOSTAT=IOS,ERR=9,END=9{control}) {list}"));
        out += "9     CALL TELL(IOS)\n      END\n";
    }
    out + &take(compiler) + LOAD + &tell(compiler)
}

fn main_unit(count: usize) -> String {
    let calls: String = (0..count).map(|index| format!("      CALL S{index}\n")).collect();
    format!("      PROGRAM SHEETS\n{calls}      END\n")
}

fn opening(compiler: Compiler, index: usize, width: u64, records: u64) -> String {
    let shared = shared(compiler);
    format!(
        "      SUBROUTINE S{index}\n      CHARACTER*{width} REC({records})\n      INTEGER IOS\n{shared}      \
         CALL TAKE\n      IOS=0\n"
    )
}

/// Takes a sheet's data from unit 5. A double comes as its two halves, the lower first.
fn take(compiler: Compiler) -> String {
    let shared = shared(compiler);
    format!(
        "      SUBROUTINE TAKE
      INTEGER J,IT
      INTEGER*4 IB(2,64)
{shared}      EQUIVALENCE (DV(1),IB(1,1))
      READ(5,'(3I6)') NF,NE,NR
      READ(5,'(A)') FMT
      DO 1 J=1,NE
      READ(5,'(I4,I20,2I12,I2,A64)') N(J),IV(J),IB(1,J),IB(2,J),IT,
     + TV(J)
      LV(J)=IT.EQ.1
1     CONTINUE
      END
"
    )
}

/// Bytes of value 1 before writing; afterwards each record between marks.
const FILL_AND_SHOW: &str = "      SUBROUTINE FILL(REC,M)
      INTEGER M,I,J
      CHARACTER*(*) REC(M)
      DO 2 J=1,M
      DO 1 I=1,LEN(REC(J))
      REC(J)(I:I)=CHAR(1)
1     CONTINUE
2     CONTINUE
      END
      SUBROUTINE SHOW(REC,M,IOS)
      INTEGER M,IOS,J
      CHARACTER*(*) REC(M)
      WRITE(6,'(A,I8)') 'S',IOS
      DO 1 J=1,M
      WRITE(6,'(3A)') '>',REC(J),'<'
1     CONTINUE
      END
";

const LOAD: &str = "      SUBROUTINE LOAD(REC,M)
      INTEGER M,J
      CHARACTER*(*) REC(M)
      DO 1 J=1,M
      READ(5,'(A)') REC(J)
1     CONTINUE
      END
";

fn tell(compiler: Compiler) -> String {
    let shared = shared(compiler);
    format!(
        "      SUBROUTINE TELL(IOS)
      INTEGER IOS,J
      INTEGER*4 IB(2,64)
{shared}      EQUIVALENCE (DV(1),IB(1,1))
      WRITE(6,'(A,I8)') 'S',IOS
      IF (IOS.NE.0) RETURN
      DO 1 J=1,NE
      WRITE(6,'(I20,2I12,L2,3A)') IV(J),IB(1,J),IB(2,J),LV(J),
     + '>',TV(J)(1:N(J)),'<'
1     CONTINUE
      END
"
    )
}

/// The data of sheets to be written.
pub fn writing_data(compiler: Compiler, sheets: &[Sheet]) -> Vec<u8> {
    let mut out = Vec::new();
    for sheet in sheets {
        let text = format::text_in(&sheet.items, compiler.dialect(false));
        put_head(&mut out, &text, sheet, sheet.records);
        for &value in &sheet.elements {
            put_element(&mut out, value, sheet.text_of(value));
        }
    }
    out
}

/// The data of records to be read: every element is 0, false or blank before.
pub fn reading_data(compiler: Compiler, readings: &[Reading]) -> Vec<u8> {
    let mut out = Vec::new();
    for reading in readings {
        let text = format::text_in(&reading.sheet.items, compiler.dialect(!reading.literals));
        put_head(&mut out, &text, &reading.sheet, reading.records.len() as u64 / reading.width);
        for &value in &reading.sheet.elements {
            match value {
                Value::Text { len, .. } => put_element(&mut out, value, &vec![b' '; len as usize]),
                _ => put_element(&mut out, Value::Integer(0), b" "),
            }
        }
        for record in reading.records.chunks(reading.width as usize) {
            out.extend_from_slice(record);
            out.push(b'\n');
        }
    }
    out
}

fn put_head(out: &mut Vec<u8>, text: &[u8], sheet: &Sheet, records: u64) {
    out.extend(format!("{:6}{:6}{records:6}\n", text.len(), sheet.elements.len()).bytes());
    out.extend_from_slice(text);
    out.push(b'\n');
}

fn put_element(out: &mut Vec<u8>, value: Value, text: &[u8]) {
    let (mut integer, mut bits, mut truth) = (0, 0, 0);
    match value {
        Value::Integer(n) => integer = n,
        Value::Decimal { units, places } => bits = exact::nearest(units, places).to_bits(),
        Value::Logical(b) => truth = u64::from(b),
        Value::Text { .. } => {}
    }
    let length = text.len().max(1);
    let (low, high) = (bits as u32 as i32, (bits >> 32) as u32 as i32);
    out.extend(format!("{length:4}{integer:20}{low:12}{high:12}{truth:2}").bytes());
    out.extend_from_slice(text);
    out.push(b'\n');
}
