//! The loops for measuring, on a text whose sums are counted by hand.

use oracle::io::api::{bench, lines, record};

use crate::Samples;

pub fn loops(samples: &mut Samples) {
    let text = b"##gff-version 3\r\nsq0\tlab\tgene\t8\t13\t.\t+\t.\ta=1;b;c=2\nx\n\nsq0\t.\tCDS\t8\t13\t.\t+\t0\t.";
    let parts = lines::read_lines(text);
    let parts: Vec<_> = parts.iter().map(|line| line.as_slice()).collect();
    let columns: Vec<_> = parts
        .iter()
        .filter_map(|line| record::columns(line))
        .map(|c| c[8])
        .collect();

    samples.title("loops for measuring: count, sum");
    samples.of("lines", bench::lines(text), "(5, 71)");
    samples.of("parts", bench::parts(text, 4), "(5, 338)");
    samples.of("columns", bench::columns(&parts), "(2, 228)");
    samples.of("attributes", bench::attributes(&columns), "(2, 6)");
    samples.of("whole", bench::whole(text), "(2, 6)");
    samples.of("rewrite", bench::rewrite(text), "(2, 57)");
    samples.of("report", bench::report(text), "(3, 12)");
}
