//! A line judged by the library.

use gff3_lines::{Column, Record, Refusal};

use crate::{
    counts::counted,
    findings::{Finding, Matter},
    notes::{self, Note},
    shown::quoted,
};

/// Why a line is refused, and in which column.
#[derive(Clone, Copy)]
pub struct Refused {
    pub refusal: Refusal,
    pub column: Option<Column>,
}

impl Refused {
    pub fn new(refusal: Refusal) -> Self {
        Refused { refusal, column: None }
    }

    fn by(column: Column) -> impl Fn(Refusal) -> Self {
        move |refusal| Refused {
            refusal,
            column: Some(column),
        }
    }

    pub fn finding<'a>(&self, number: u64, line: &'a [u8]) -> Finding<'a> {
        Finding {
            matter: Matter::Refused(self.refusal),
            number,
            column: self.column,
            what: self.what(line),
            line,
        }
    }

    /// What stands in the column.
    fn what(&self, line: &[u8]) -> Option<String> {
        match self.column {
            Some(Column::Attributes) => Some(quoted(left_without_tag(column_9(line)?))),
            Some(column) => {
                let mut columns = line.split(|&byte| byte == b'\t');
                Some(quoted(columns.nth(usize::from(u8::from(column)) - 1)?))
            }
            None if self.refusal == Refusal::Columns => {
                Some(counted(memchr::memchr_iter(b'\t', line).count() as u64, "tab", "tabs"))
            }
            None => None,
        }
    }
}

/// Reads all of a record, columns 1 to 8 and each attribute, as unfolding does: it is refused here if and only if it is refused there, and
/// by the same number. What is to be noted of it is appended to the notes; of a refused one that is whether it looks like GTF.
pub fn record(line: &[u8], notes: &mut Vec<Note>) -> Result<(), Refused> {
    let record = Record::new(line).map_err(Refused::new)?;
    record.start().map_err(Refused::by(Column::Start))?;
    record.end().map_err(Refused::by(Column::End))?;
    record.score().map_err(Refused::by(Column::Score))?;
    record.strand().map_err(Refused::by(Column::Strand))?;
    record.phase().map_err(Refused::by(Column::Phase))?;
    let attributes = &line[record.bounds().phase_end..];
    notes::attributes(attributes, notes).map_err(|refusal| {
        notes::rest(left_without_tag(attributes), notes);
        Refused::by(Column::Attributes)(refusal)
    })?;
    notes::record(&record, notes);
    Ok(())
}

/// Column 9 of a line that has one.
fn column_9(line: &[u8]) -> Option<&[u8]> {
    let tab = memchr::memchr_iter(b'\t', line).nth(7)?;
    Some(&line[tab + 1..])
}

/// What is left of a column 9 behind its last value, where no equals sign is left.
fn left_without_tag(column: &[u8]) -> &[u8] {
    let value = memchr::memrchr(b'=', column).map_or(0, |equals| equals + 1);
    match memchr::memchr(b';', &column[value..]) {
        Some(semicolon) if value > 0 => &column[value + semicolon + 1..],
        _ => &column[value..],
    }
}
