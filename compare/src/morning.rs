//! Texts counted. The Rust cuts the lines, says what each is and reads its numbers; counts and sums are the checker's (RULES 17).

use oracle::io::api::lines as rust;

use crate::{
    case::{By, Case, Verdict, same},
    desk::Desk,
    ours::{self, Morning},
    report::{Call, Report},
    texts::{self, Dice},
    unfolding,
};

/// A line of each kind, and of each refusal but 24; then a record of another length, a reversed one, and lines without a byte.
const LINES: [&[u8]; 13] = [
    b"##gff-version x",
    b"# a\t\t\t\t\t\t\t\t",
    b"s\t.\tg\t8\t13\t.\t+\t.\ta=1",
    b"s\t.\tg\t8\t13\t.\t+\t.",
    b"s\t.\tg\t0\t13\t.\t+\t.\t.",
    b"s\t.\tg\t8\t13\t1.\t+\t.\t.",
    b"s\t.\tg\t8\t13\t.\t++\t.\t.",
    b"s\t.\tg\t8\t13\t.\t+\t3\t.",
    b"s\t.\tg\t8\t13\t.\t+\t.\ta",
    b"s\t.\tCDS\t9\t9\t1\t?\t.\t.",
    b"s\t.\tg\t9\t8\t.\t-\t2\ta=b;c;d=%4",
    b"",
    b"\r",
];

const MARKS: &[u8] = b"\t\t\n\n\r#.+-?%0123456789=;";

pub fn every(report: &mut Report, len: usize) {
    if len <= 9 {
        texts::every(b"a#\r\n", len, |text| counts(report, text));
    }

    if len <= 4 {
        let numbers: Vec<u8> = (0..LINES.len() as u8).collect();
        texts::every(&numbers, len, |chosen| {
            let lines: Vec<&[u8]> = chosen.iter().map(|&i| LINES[usize::from(i)]).collect();
            counts(report, &lines.join(&b'\n'));
        });
    }
}

pub fn sweep(report: &mut Report) {
    powers(report);
    sums(report);
    long(report);
}

/// A length at every power of two and beside it, from the first position on, and up to the last.
fn powers(report: &mut Report) {
    for power in 0..64 {
        for length in (1_u128 << power).saturating_sub(3)..=(1 << power) + 3 {
            if let Ok(length @ 1..) = u64::try_from(length) {
                counts(report, &record(1, length));
                counts(report, &record(u64::MAX - length + 1, u64::MAX));
                counts(report, &record(u64::MAX, length));
            }
        }
    }
}

/// Lengths that add up to the limit, to less and to more, with lines between them that add nothing.
fn sums(report: &mut Report) {
    for first in [1, 2, 1 << 32, 1 << 62, 1 << 63, u64::MAX - 1, u64::MAX] {
        for more in 0..=3 {
            for between in [&b""[..], b"\n", b"# a\n", &record(u64::MAX, 1), b"s\n"] {
                let mut text = [&record(1, first), between].concat();

                if first < u64::MAX {
                    text.extend(record(first + 1, u64::MAX - 1 + u64::from(more > 0)));
                }

                for _ in 1..more {
                    text.extend(record(7, 7));
                }

                counts(report, &text);
                counts(report, &[&text, between, &record(2, 1)].concat());
            }
        }
    }
}

/// Lines of the longest length and one more, of each kind.
fn long(report: &mut Report) {
    for len in [unfolding::LONGEST, unfolding::LONGEST + 1] {
        for front in [&b"##"[..], b"#", b"s\t.\tg\t8\t13\t.\t+\t.\ta=", b"s"] {
            let mut text = [b"# a\n", front].concat();
            text.resize(4 + len, b'a');
            counts(report, &text);
            text.extend(b"\r\ns\t.\tg\t9\t9\t.\t+\t.\t.");
            counts(report, &text);
        }
    }
}

pub fn random(report: &mut Report, dice: &mut Dice) {
    let count = if dice.once_in(50) { 500 } else { dice.below(8) };
    let mut text = match dice.below(3) {
        0 => texts::lines(dice, count),
        1 => (0..count).flat_map(|_| record(number(dice), number(dice))).collect(),
        _ => (0..count).flat_map(|_| [dice.one_of(&LINES), b"\n"].concat()).collect(),
    };

    if dice.once_in(2) {
        texts::damage(dice, &mut text, MARKS);
    }

    counts(report, &text);
}

/// A position: of any count of bits, so that sums pass now and then.
fn number(dice: &mut Dice) -> u64 {
    (dice.number() >> dice.below(64)).max(1)
}

/// A record's line from one position to another.
fn record(start: u64, end: u64) -> Vec<u8> {
    format!("s\t.\tg\t{start}\t{end}\t.\t+\t.\t.\n").into_bytes()
}

fn counts(report: &mut Report, text: &[u8]) {
    report.check(Call::Report, Case::of(text), morning);
}

const NOTHING: Morning = Morning {
    refused: 0,
    records: 0,
    directives: 0,
    comments: 0,
    reversed: 0,
    sum: 0,
    refused_too_long: 0,
    refused_columns: 0,
    refused_position: 0,
    refused_score: 0,
    refused_strand: 0,
    refused_phase: 0,
    refused_attribute: 0,
    lengths: [0; 64],
};

/// What the library has to answer.
fn counted(text: &[u8]) -> Morning {
    let mut all = NOTHING;
    let mut sum = 0;

    for line in rust::read_lines(text) {
        match rust::kind(&line) {
            0 => all.directives += 1,
            1 => all.comments += 1,
            _ => match unfolding::unfolded(&line).1 {
                Ok((_, (start, end, _, _))) => {
                    all.records += 1;

                    match end.checked_sub(start) {
                        Some(far) => {
                            all.lengths[(u128::from(far) + 1).ilog2() as usize] += 1;
                            sum += u128::from(far) + 1;
                        }
                        None => all.reversed += 1,
                    }
                }
                Err(number) => *refused(&mut all, number) += 1,
            },
        }
    }

    match u64::try_from(sum) {
        Ok(sum) => Morning { sum, ..all },
        Err(_) => Morning { refused: 26, ..NOTHING },
    }
}

fn refused(all: &mut Morning, number: u64) -> &mut u64 {
    match number {
        24 => &mut all.refused_too_long,
        1 => &mut all.refused_columns,
        2 => &mut all.refused_position,
        17 => &mut all.refused_score,
        3 => &mut all.refused_strand,
        4 => &mut all.refused_phase,
        5 => &mut all.refused_attribute,
        _ => unreachable!("a line is refused by {number}"),
    }
}

fn morning(desk: &mut Desk, case: Case<'_>) -> Verdict {
    By::Checker.says(same(ours::report(desk.text(case.text)), counted(case.text)))
}
