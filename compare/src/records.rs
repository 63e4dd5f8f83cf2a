//! Records written from their sheets. The Rust writes the line, but for the score, which it has as a number: there the token of
//! the sheet is expected. Which are refused is in RULES 11.3; that they are those that the Rust fails to write, or cannot express,
//! is checked.

use std::io;

use oracle::io::api::writing::{self as rust, Fields};

use crate::{
    case::{By, Case, Difference, Slack, Verdict},
    desk::{Desk, rooms, rooms_and},
    ours,
    report::{Call, Report},
    score,
    sheet::Sheet,
    texts::{self, BYTES, Dice},
    unfolding,
};

/// The longest sheet that is written; the Rust knows no such limit.
const LONGEST: usize = 1_048_576;

/// A line has at most three bytes for each of its sheet's.
const AT_ONCE: [Slack; 2] = [Slack::Each(3, 0), Slack::Each(3, -1)];

/// Start, end, strand and phase that are not refused.
const NUMBERS: [u64; 4] = [8, 13, 1, 3];

const MARKS: &[u8] = b"\t\n\r %;=&,#>.+\x00\x7f\x80\xff";

pub fn every(report: &mut Report, len: usize) {
    if len <= 1 {
        texts::every(&BYTES, len, |text| {
            for sheet in with_text(text) {
                written_of(report, &sheet.bytes(), NUMBERS);
            }
        });
    }

    if len <= 2 {
        texts::every(&BYTES, len, |text| {
            for sheet in with_text(text) {
                report.check(Call::WriteRecord, case(&sheet.bytes(), NUMBERS), write);
            }
        });
    }

    if len <= 7 {
        texts::every(b"01.+-e", len, |token| {
            let sheet = Sheet {
                score: token.to_vec(),
                ..plain()
            };
            report.check(Call::WriteRecord, case(&sheet.bytes(), NUMBERS), write);
        });
    }

    if len <= 5 {
        texts::every(b"CDSc", len, |ty| {
            for phase in 0..=4 {
                let sheet = Sheet {
                    ty: ty.to_vec(),
                    ..plain()
                };
                written_of(report, &sheet.bytes(), [8, 13, 1, phase]);
            }
        });
    }

    // Five counts and their texts, cut anywhere.
    if len <= 8 {
        texts::every(b"\x00\x01", len, |text| {
            let bytes = [&text[..len / 2], b"\x00\x00\x00", &text[len / 2..], b"\x00\x00\x00"].concat();
            let more = [&bytes[..], &[0; 12], text].concat();
            written_of(report, &bytes, NUMBERS);
            written_of(report, &more, NUMBERS);
        });
    }
}

/// A plain sheet with this text as each of its texts in turn.
fn with_text(text: &[u8]) -> [Sheet; 6] {
    let text = || text.to_vec();
    let mut sheets: [Sheet; 6] = std::array::from_fn(|_| plain());
    sheets[0].name = text();
    sheets[1].source = text();
    sheets[2].ty = text();
    sheets[3].score = text();
    sheets[4].attributes[0].0 = text();
    sheets[5].attributes[1].1[1] = text();
    sheets
}

fn plain() -> Sheet {
    Sheet {
        name: b"sq0".to_vec(),
        source: b"lab".to_vec(),
        ty: b"gene".to_vec(),
        score: Vec::new(),
        attributes: vec![
            (b"a".to_vec(), vec![b"1".to_vec()]),
            (b"b".to_vec(), vec![b"2".to_vec(), b"3".to_vec()]),
        ],
    }
}

pub fn sweep(report: &mut Report) {
    sheets_put_wrong(report);
    numbers(report);
    refusals(report);
    lengths(report);
    long(report);
}

/// Each byte of a sheet put wrong, each cut of it, and more behind it.
fn sheets_put_wrong(report: &mut Report) {
    let scored = Sheet {
        score: b"1.5".to_vec(),
        ..plain()
    };

    for sheet in [Sheet::default(), plain(), scored] {
        let good = sheet.bytes();

        for at in 0..good.len() {
            written_of(report, &good[..at], NUMBERS);

            for byte in BYTES {
                let mut bytes = good.clone();
                bytes[at] = byte;
                report.check(Call::WriteRecord, case(&bytes, NUMBERS), write);
            }
        }

        for behind in [&b"\x00"[..], b"\x00\x00\x00\x00", b"a"] {
            written_of(report, &[&good[..], behind].concat(), NUMBERS);
        }
    }
}

/// Positions of each count of digits.
fn numbers(report: &mut Report) {
    let sheet = plain().bytes();

    for power in 0..20 {
        let power = 10_u64.pow(power);

        for n in [power - 1, power, power + 1, u64::MAX] {
            for numbers in [[n, 13, 1, 3], [8, n, 1, 3], [n, n, 1, 3]] {
                written_of(report, &sheet, numbers);
            }
        }
    }
}

/// Every refusal before every other.
fn refusals(report: &mut Report) {
    for start in [0, 8] {
        for end in [0, 13] {
            for score in [&b""[..], b"1", b"x"] {
                for ty in [&b"gene"[..], b"CDS"] {
                    for values in [0, 1] {
                        let sheet = Sheet {
                            ty: ty.to_vec(),
                            score: score.to_vec(),
                            attributes: vec![(b"a".to_vec(), vec![b"1".to_vec(); values])],
                            ..plain()
                        };

                        for strand in [0, 1, 2, 3, 4, u32::MAX.into()] {
                            for phase in [0, 1, 2, 3, 4, u32::MAX.into()] {
                                written_of(report, &sheet.bytes(), [start, end, strand, phase]);
                            }
                        }
                    }
                }
            }
        }
    }
}

/// Texts of each length, many attributes and many values.
fn lengths(report: &mut Report) {
    for len in 0..=70 {
        for alphabet in [&b"abcdefghijk"[..], b"%;=,&\t\n", b"a%b;cd=efg"] {
            for sheet in with_text(&texts::turns(alphabet, len)) {
                written_of(report, &sheet.bytes(), NUMBERS);
            }
        }

        // Of few other texts, so that they stand close to the buffer, each in the ways that memory is lent.
        for _ in 0..4 {
            let digits = Sheet {
                score: texts::turns(b"12345678901", len),
                ..Sheet::default()
            };
            let name = Sheet {
                name: texts::turns(b"abcdefghijk", len),
                ..Sheet::default()
            };
            written_of(report, &digits.bytes(), [1, 1, 0, 3]);
            written_of(report, &name.bytes(), [1, 1, 0, 3]);
        }

        let mut many = plain();
        many.attributes = vec![(b"a".to_vec(), vec![b"1".to_vec(); len.max(1)]); len];
        written_of(report, &many.bytes(), NUMBERS);
    }
}

/// Sheets of the greatest length, and of one byte fewer and one more, the room taken by one text, by escapes, by attributes or by
/// values.
fn long(report: &mut Report) {
    for len in [LONGEST - 1, LONGEST, LONGEST + 1] {
        let mut sheets = Vec::new();

        for byte in *b"a%" {
            for i in 0..6 {
                let rest = len - with_text(b"")[i].bytes().len();
                sheets.push(with_text(&texts::turns(&[byte, b'b', b'c'], rest))[i].bytes());
            }
        }

        let mut values = plain();
        let more = (len - values.bytes().len()) / 4;
        values.attributes[0].1.resize(1 + more, Vec::new());
        values.source.resize(3 + (len - plain().bytes().len()) % 4, b'a');
        sheets.push(values.bytes());

        let mut attributes = plain();
        let more = (len - attributes.bytes().len()) / 12;
        attributes.attributes.resize(2 + more, (Vec::new(), vec![Vec::new()]));
        attributes.source.resize(3 + (len - plain().bytes().len()) % 12, b'a');
        sheets.push(attributes.bytes());

        for sheet in sheets {
            for slack in [Slack::Full, Slack::Over(1), Slack::Short(1), Slack::None] {
                report.check(
                    Call::WriteRecord,
                    Case {
                        slack,
                        ..case(&sheet, NUMBERS)
                    },
                    write,
                );
            }
        }
    }
}

pub fn random(report: &mut Report, dice: &mut Dice) {
    let sheet = sheet_of(dice);
    let mut bytes = sheet.bytes();
    let numbers = numbers_of(dice);
    written_of(report, &bytes, numbers);

    texts::damage(dice, &mut bytes, b"\x00\x00\x00\x01\x02\x03\x04\xff");
    written_of(report, &bytes, numbers);

    let mut line = texts::line(dice);

    if dice.once_in(3) {
        let marks = b"\t.+-?%0123456789eE#=;,=;,";
        texts::damage(dice, &mut line, marks);
    }

    if unfolding::unfolded(&line).1.is_err() {
        return;
    }

    for &slack in rooms(line.len()) {
        report.check(
            Call::WriteRecord,
            Case {
                slack,
                ..Case::of(&line)
            },
            rewrite,
        );
    }
}

/// A record of texts of any bytes, with none, some or many attributes, and one, some or many values each.
fn sheet_of(dice: &mut Dice) -> Sheet {
    let attributes = match dice.below(8) {
        0 => 0,
        1 => dice.between(10, 60),
        _ => dice.between(1, 5),
    };

    Sheet {
        name: text_of(dice),
        source: text_of(dice),
        ty: if dice.once_in(4) {
            b"CDS".to_vec()
        } else {
            text_of(dice)
        },
        score: match dice.below(8) {
            0 => text_of(dice),
            1 => {
                let len = dice.between(1, 12);
                dice.text(len, b"0123456789.eE+-")
            }
            2..5 => dice.one_of(&["0", "-1.5", "3e-10", "12.75E+3", "007", "1e999"]).into(),
            _ => Vec::new(),
        },
        attributes: (0..attributes)
            .map(|_| {
                let values = match dice.below(10) {
                    0 => dice.between(2, 40),
                    1..4 => dice.between(2, 4),
                    _ => 1,
                };
                let tag = text_of(dice);
                (tag, (0..values).map(|_| text_of(dice)).collect())
            })
            .collect(),
    }
}

/// A text of any bytes, of the bytes that matter, plain, or empty; mostly short.
fn text_of(dice: &mut Dice) -> Vec<u8> {
    let len = if dice.once_in(8) { dice.len() } else { dice.below(12) };

    match dice.below(6) {
        0 => dice.text(len, &BYTES),
        1 => dice.text(len, MARKS),
        2 => Vec::new(),
        _ => dice.text(len, b"abcXYZ019 |._-"),
    }
}

fn numbers_of(dice: &mut Dice) -> [u64; 4] {
    let mut position = || match dice.below(12) {
        0 => 0,
        1..6 => dice.number() >> dice.below(64),
        _ => dice.between(1, 40_000_000) as u64,
    };
    let (start, end) = (position(), position());
    let mut mark = || {
        if dice.once_in(20) {
            dice.number() & 0xffff_ffff
        } else {
            dice.below(4) as u64
        }
    };

    [start, end, mark(), mark()]
}

fn case(sheet: &[u8], numbers: [u64; 4]) -> Case<'_> {
    Case {
        numbers,
        ..Case::of(sheet)
    }
}

fn written_of(report: &mut Report, sheet: &[u8], numbers: [u64; 4]) {
    for slack in rooms_and(sheet.len(), AT_ONCE) {
        report.check(
            Call::WriteRecord,
            Case {
                slack,
                ..case(sheet, numbers)
            },
            write,
        );
    }
}

/// The line that is expected, or the refusal, and who decides it; or how the Rust and the refusals of RULES 11.3 disagree.
type Expected = Result<(By, Result<Vec<u8>, u64>), Difference>;

fn write(desk: &mut Desk, case: Case<'_>) -> Verdict {
    let [start, end, strand, phase] = case.numbers;
    let expected = if case.text.len() > LONGEST {
        Ok((By::Checker, Err(24)))
    } else {
        match Sheet::read(case.text) {
            None => Ok((By::Checker, Err(23))),
            Some(sheet) => expected(&sheet, case.numbers),
        }
    };

    lays(desk, case, expected, |[sheet, ..], out| {
        ours::write_record(sheet, start, end, strand as u32, phase as u32, out)
    })
}

/// A line that unfolds, written from its sheet; the Rust reads and writes it again.
fn rewrite(desk: &mut Desk, case: Case<'_>) -> Verdict {
    let (by, Ok((sheet, (start, end, strand, phase)))) = unfolding::unfolded(case.text) else {
        return By::Rust.says(Ok(()));
    };
    let mut line = Vec::new();
    let rust = rust::rewrite_record(case.text, &mut line).map(|()| line);
    let refused = refusal(&sheet, [start, end, strand.into(), phase.into()]);
    let expected = checked(refused, rust, &sheet).map(|(other, line)| (by.and(other), line));
    let mut bytes = vec![0; sheet.bytes().len()];
    let laid = ours::unfold(case.text, &mut bytes);

    lays(desk, case, expected, |_, out| {
        ours::write_record(
            &bytes[..laid.length],
            laid.start,
            laid.end,
            laid.strand,
            laid.phase,
            out,
        )
    })
}

fn lays(
    desk: &mut Desk,
    case: Case<'_>,
    expected: Expected,
    write: impl Fn([&[u8]; 3], &mut [u8]) -> ours::Written,
) -> Verdict {
    match expected {
        Ok((by, line)) => desk.lays(
            case,
            by,
            line.as_deref().map_err(|&refused| refused),
            write,
            |written| written,
        ),
        Err(difference) => By::Rust.says(Err(difference)),
    }
}

/// What is expected of a sheet and its numbers.
fn expected(sheet: &Sheet, numbers: [u64; 4]) -> Expected {
    let [start, end, strand, phase] = numbers;
    let values: Vec<Vec<&[u8]>> = sheet
        .attributes
        .iter()
        .map(|(_, values)| values.iter().map(Vec::as_slice).collect())
        .collect();
    let attributes: Vec<(&[u8], &[&[u8]])> = sheet
        .attributes
        .iter()
        .zip(&values)
        .map(|((tag, _), values)| (&tag[..], &values[..]))
        .collect();
    let fields = Fields {
        reference_sequence_name: &sheet.name,
        source: &sheet.source,
        ty: &sheet.ty,
        start,
        end,
        score: str::from_utf8(&sheet.score).ok().and_then(|token| token.parse().ok()),
        strand: u8::try_from(strand).unwrap_or(u8::MAX),
        phase: u8::try_from(phase).unwrap_or(u8::MAX),
        attributes: &attributes,
    };

    checked(refusal(sheet, numbers), rust::write_record(&fields), sheet)
}

/// The refusals of RULES 11.3 in their order, behind 24 and 23.
fn refusal(sheet: &Sheet, [start, end, strand, phase]: [u64; 4]) -> Option<u64> {
    let reasons = [
        (2, start == 0 || end == 0),
        (17, !sheet.score.is_empty() && !score::is_token(&sheet.score)),
        (3, strand > 3),
        (4, phase > 3),
        (18, sheet.ty == b"CDS" && phase == 3),
    ];
    reasons.into_iter().find(|(_, holds)| *holds).map(|(number, _)| number)
}

/// What the Rust writes, with the token in column 6, or the refusal. The Rust has to fail where 18 is the refusal, and may not fail
/// where there is none.
fn checked(refused: Option<u64>, rust: io::Result<Vec<u8>>, sheet: &Sheet) -> Expected {
    match (refused, rust) {
        (Some(18), Ok(line)) => Err(Difference {
            ours: "refused, 18".to_owned(),
            expected: format!("\"{}\", which the Rust writes", line.escape_ascii()),
        }),
        (Some(number), _) => Ok((By::rust_if(number == 18), Err(number))),
        (None, Err(error)) => Err(Difference {
            ours: "not refused".to_owned(),
            expected: format!("a refusal, since the Rust fails: {error}"),
        }),
        (None, Ok(line)) => {
            let mut columns: Vec<&[u8]> = line.splitn(9, |&b| b == b'\t').collect();
            let by = By::rust_if(sheet.score.is_empty());

            if by == By::Checker {
                columns[5] = &sheet.score;
            }

            Ok((by, Ok(columns.join(&b'\t'))))
        }
    }
}
