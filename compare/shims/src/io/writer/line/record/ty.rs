//! Stands in for io/writer/line/record/ty.rs; column 3 as written rests on it, its escape set is record.rs's own.

use std::io::{self, Write};

use bstr::BStr;

pub(super) fn write_type<W>(writer: &mut W, ty: &BStr) -> io::Result<()>
where
    W: Write,
{
    writer.write_all(super::percent_encode(ty).as_bytes())
}
