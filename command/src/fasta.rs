//! Sequence behind `##FASTA`.

use gff3_lines::{Line, Refusal};

/// Whether the lines of a file have come to its sequences: behind `##FASTA`, or from a line on that begins with `>`, which stands for it in
/// older files.
#[derive(Clone, Copy, Default)]
pub struct Fasta {
    is_begun: bool,
}

impl Fasta {
    pub fn see_directive(&mut self, line: Line) {
        self.is_begun |= line.directive().map_or(false, |directive| directive.key == b"FASTA");
    }

    /// Whether a refused line is sequence: it has no nine columns, or is too long for a line. A record there is a record.
    pub fn is_sequence(&mut self, line: &[u8], refusal: Refusal) -> bool {
        let is_no_record = matches!(refusal, Refusal::Columns | Refusal::LineTooLong);
        self.is_begun |= is_no_record && line.starts_with(b">");
        self.is_begun && is_no_record
    }
}
