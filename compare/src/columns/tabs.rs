//! Lines whose tabs stand where the search for them changes its way: it takes windows of 16 bytes, of which the last overlaps the one
//! before it, and leaves a window of tabs alone to another loop; and it finds eight tabs at once among the first 64 bytes, or else each
//! by itself.

use super::{indexed, readers, whole_line};
use crate::{case::Case, report::Report, texts};

/// Lengths of lines: windows, one byte less and one more.
const LENGTHS: [usize; 12] = [15, 16, 17, 31, 32, 33, 47, 48, 49, 63, 64, 65];

/// What stands between tabs: a letter, and bytes that differ from a tab by one bit.
const FILL: &[u8] = b"a\x08\x0b\x89";

/// The shortest record in which a start, an end, a strand and a phase that are mixed up are seen.
const SHORTEST: [&[u8]; 9] = [b"", b"", b"", b"8", b"7", b".", b"-", b"1", b""];

/// The bytes of the shortest record.
const LEAST: usize = 13;

/// The columns that can have any length in a record that is not refused.
const WIDE: [usize; 7] = [1, 2, 3, 4, 5, 6, 9];

pub fn sweep(report: &mut Report) {
    each_tab(report);
    rows(report);
    eighth_tab(report);
    ninth_tab(report);
    two_wide(report);
    tokens(report);
    refusals(report);
}

/// Seven, eight and nine tabs, each of them at each place, those before it at the start of the line and those behind it at its end.
fn each_tab(report: &mut Report) {
    for len in LENGTHS {
        for (count, before) in (7..=9).flat_map(|count| (0..count).map(move |before| (count, before))) {
            let behind = count - before - 1;

            for at in before..len - behind {
                let mut line = texts::turns(FILL, len);
                line[..before].fill(b'\t');
                line[at] = b'\t';
                line[len - behind..].fill(b'\t');
                indexed(report, &line);
            }
        }
    }
}

/// Tabs in a row at each place; and a row as long as a window at the start of each window, up to eight tabs before it.
fn rows(report: &mut Report) {
    for len in LENGTHS {
        for row in [7, 8, 9, 15, 16, 17] {
            for at in 0..(len + 1).saturating_sub(row) {
                let mut line = texts::turns(FILL, len);
                line[at..at + row].fill(b'\t');
                indexed(report, &line);
            }
        }
    }

    for at in [0, 16, 32, 48] {
        for before in 0..=at.min(8) {
            for behind in [0, 1, 15, 16, 17, 40] {
                let mut line = texts::turns(FILL, at + 16 + behind);
                line[..before].fill(b'\t');
                line[at..at + 16].fill(b'\t');
                indexed(report, &line);
            }
        }
    }
}

/// Records whose eighth tab stands at each place up to 80, one column being the wide one, with more tabs behind it and with none.
/// Beside the 64th byte all calls are compared.
fn eighth_tab(report: &mut Report) {
    let tabs = [b'\t'; 40];
    let last: [&[u8]; 6] = [b"", b"a", b"\t", b"a=1;b=2,3;c=4;d=5", &tabs[..16], &tabs];

    for wide in &WIDE[..6] {
        for at in LEAST - 1..=80 {
            for last in last {
                let mut columns = SHORTEST.map(<[u8]>::to_vec);
                columns[wide - 1] = widened(*wide, at + 1 - LEAST);
                columns[8] = last.to_vec();
                let line = columns.join(&b'\t');

                if (61..=67).contains(&at) {
                    whole_line(report, &line);
                } else {
                    indexed(report, &line);
                    readers(report, Case::of(&line));
                }
            }
        }
    }
}

/// Records with one tab in column 9, at each place.
fn ninth_tab(report: &mut Report) {
    for len in LENGTHS {
        for at in LEAST..len {
            let mut columns = SHORTEST.map(<[u8]>::to_vec);
            columns[8] = texts::turns(FILL, len - LEAST);
            columns[8][at - LEAST] = b'\t';
            indexed(report, &columns.join(&b'\t'));
        }
    }
}

/// Records in which two columns share the bytes beyond those of the shortest in each way.
fn two_wide(report: &mut Report) {
    for more in LENGTHS.map(|len| len - LEAST) {
        for (i, &one) in WIDE.iter().enumerate() {
            for &other in &WIDE[i + 1..] {
                for share in 0..=more {
                    let mut columns = SHORTEST.map(<[u8]>::to_vec);
                    columns[one - 1] = widened(one, share);
                    columns[other - 1] = widened(other, more - share);
                    indexed(report, &columns.join(&b'\t'));
                }
            }
        }
    }
}

/// Each strand with each phase, beside tokens that are almost one.
fn tokens(report: &mut Report) {
    for strand in [&b"."[..], b"+", b"-", b"?", b"", b"++", b"*"] {
        for phase in [&b"."[..], b"0", b"1", b"2", b"3", b"", b"00", b"/"] {
            let mut columns = SHORTEST;
            columns[6] = strand;
            columns[7] = phase;
            whole_line(report, &columns.join(&b'\t'));
        }
    }
}

/// Each set of columns 4 to 8 put wrong, in records whose eighth tab stands among the first 64 bytes, beside the 64th and far behind;
/// and the same without the eighth tab.
fn refusals(report: &mut Report) {
    let wrong: [&[u8]; 5] = [b"0", b"7a", b"1e", b"*", b"3"];

    for wide in [0, 40, 49, 50, 51, 52, 53, 100] {
        for set in 0..32 {
            let mut columns = SHORTEST.map(<[u8]>::to_vec);
            columns[0] = widened(1, wide);

            for (i, wrong) in wrong.iter().enumerate().filter(|(i, _)| set >> i & 1 == 1) {
                columns[3 + i] = wrong.to_vec();
            }

            whole_line(report, &columns.join(&b'\t'));
            whole_line(report, &columns[..8].join(&b'\t'));
        }
    }
}

/// The column of the shortest record, so many bytes longer.
fn widened(column: usize, more: usize) -> Vec<u8> {
    match (column, more) {
        (4 | 5, _) => [&b"0".repeat(more), SHORTEST[column - 1]].concat(),
        (6, 1..) => [&b"0".repeat(more)[..], b"1"].concat(),
        _ => [SHORTEST[column - 1], &texts::turns(FILL, more)].concat(),
    }
}
