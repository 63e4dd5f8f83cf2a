//! Comments and directives written. The Rust writes the line; which are refused is in RULES 11.4 and 11.5, and that each that the
//! Rust fails to write is refused is checked.

use oracle::io::api::writing::{self as rust, Typed};

use crate::{
    case::{By, Case, Difference, Slack, Verdict},
    desk::{Desk, rooms},
    ours::{self, DirectiveValue},
    report::{Call, Report},
    texts::{self, BYTES, Dice},
};

/// The longest text that is written; the Rust knows no such limit.
const LONGEST: usize = 1_048_576;

/// The kinds of value, and numbers that count as the first.
const KINDS: [usize; 7] = [0, 1, 2, 3, 4, 5, u32::MAX as usize];
const TEXT: usize = 1;
const VERSION: usize = 2;
const REGION: usize = 3;
const BUILD: usize = 4;

/// The keys of the three typed values, and others.
const KEYS: [&[u8]; 9] = [
    b"gff-version",
    b"sequence-region",
    b"genome-build",
    b"FASTA",
    b"",
    b"#",
    b"gff-versio",
    b"gff-version3",
    b"GFF-version",
];

/// Bits that say which parts of a version are there.
const MINOR: u64 = 1;
const PATCH: u64 = 2;

const MARKS: &[u8] = b"# \t\n\x0b\x0c\r%\x00a\x80\xff";

pub fn every(report: &mut Report, len: usize) {
    if len <= 6 {
        texts::every(b"# \r\na", len, |text| comment_of(report, text));
    }

    if len <= 2 {
        texts::every(&BYTES, len, |text| {
            report.check(Call::WriteComment, Case::of(text), comment);
        });
    }

    if len <= 4 {
        texts::every(b"# \r\n\ta", len, |text| {
            for number in KINDS {
                for key in KEYS {
                    directive_of(report, directive_case(key, number, text, b"b"));
                    directive_of(report, directive_case(key, number, b"b", text));
                }

                directive_of(report, directive_case(text, number, b"b", b"c"));
            }
        });
    }

    if len <= 1 {
        texts::every(&BYTES, len, |text| {
            for number in KINDS {
                directive_of(report, directive_case(&[b"a", text, b"b"].concat(), number, b"b", b"c"));

                for key in KEYS {
                    directive_of(report, directive_case(key, number, text, b"b"));
                    directive_of(report, directive_case(key, number, b"b", text));
                }
            }
        });
    }
}

pub fn sweep(report: &mut Report) {
    numbers(report);
    lengths(report);
    keys_put_wrong(report);
    long(report);
}

/// Numbers of each count of digits in each place.
fn numbers(report: &mut Report) {
    let mut numbers = vec![0, 1, u64::MAX];

    for power in 1..20 {
        let power = 10_u64.pow(power);
        numbers.extend([power - 1, power, power + 1]);
    }

    for &n in &numbers {
        for &m in &numbers {
            for (key, number) in [(KEYS[0], VERSION), (KEYS[1], REGION)] {
                for bits in 0..4 {
                    let case = directive_case(key, number, b"sq0", b"");
                    directive_of(
                        report,
                        Case {
                            numbers: [n, m, n ^ m, bits],
                            ..case
                        },
                    );
                }
            }
        }
    }
}

/// Texts of each length.
fn lengths(report: &mut Report) {
    for len in 0..=70 {
        let text = texts::turns(b"abcdefghijk", len);
        let other = texts::turns(b"lmnopqr", 70 - len);
        comment_of(report, &text);
        directive_of(report, directive_case(&text, TEXT, &other, b""));
        directive_of(report, directive_case(b"a", TEXT, &text, b""));
        directive_of(report, directive_case(KEYS[1], REGION, &text, b""));
        directive_of(report, directive_case(KEYS[2], BUILD, &text, &other));
        directive_of(report, directive_case(KEYS[2], BUILD, &text, b"b"));
    }
}

/// Each byte of the three keys put wrong, and each cut of them.
fn keys_put_wrong(report: &mut Report) {
    for key in &KEYS[..3] {
        for at in 0..key.len() {
            for number in [VERSION, REGION, BUILD] {
                directive_of(report, directive_case(&key[..at], number, b"b", b"c"));

                for byte in BYTES {
                    let mut key = key.to_vec();
                    key[at] = byte;
                    report.check(
                        Call::WriteDirective,
                        directive_case(&key, number, b"b", b"c"),
                        directive,
                    );
                }
            }
        }
    }
}

/// The longest texts, those one shorter and those one longer.
fn long(report: &mut Report) {
    for len in [LONGEST - 1, LONGEST, LONGEST + 1] {
        let text = vec![b'a'; len];
        let spaced = vec![b' '; len];

        for slack in [Slack::Full, Slack::Over(1), Slack::Short(1), Slack::None] {
            let case = Case {
                slack,
                ..Case::of(&text)
            };
            report.check(Call::WriteComment, case, comment);

            for number in KINDS {
                for (key, first, second) in [
                    (&text[..], &b"b"[..], &b"c"[..]),
                    (&spaced, b"b", b"c"),
                    (KEYS[0], &text, b"c"),
                    (KEYS[1], &text, b"c"),
                    (KEYS[1], &spaced, b"c"),
                    (KEYS[2], &text, b"c"),
                    (KEYS[2], b"b", &text),
                    (b"a", &text, &text),
                ] {
                    let case = Case {
                        slack,
                        ..directive_case(key, number, first, second)
                    };
                    report.check(Call::WriteDirective, case, directive);
                }
            }
        }
    }
}

pub fn random(report: &mut Report, dice: &mut Dice) {
    let text = text_of(dice);
    comment_of(report, &text);

    for _ in 0..4 {
        let (key, first, second) = (key(dice), text_of(dice), text_of(dice));
        let mut case = directive_case(&key, dice.one_of(&KINDS), &first, &second);
        case.numbers = std::array::from_fn(|_| match dice.below(4) {
            0 => 0,
            1 => dice.below(1000) as u64,
            _ => dice.number() >> dice.below(64),
        });
        directive_of(report, case);
    }
}

/// A text of any bytes, of the bytes that matter, or plain.
fn text_of(dice: &mut Dice) -> Vec<u8> {
    let len = dice.len();

    match dice.below(5) {
        0 => dice.text(len, &BYTES),
        1 => dice.text(len, MARKS),
        2 => Vec::new(),
        _ => dice.text(len, b"abcXYZ019%|._-"),
    }
}

fn key(dice: &mut Dice) -> Vec<u8> {
    match dice.below(8) {
        0 => text_of(dice),
        1 => {
            let mut key = dice.one_of(&KEYS).to_vec();
            texts::damage(dice, &mut key, MARKS);
            key
        }
        2 => dice.one_of(&KEYS).to_vec(),
        _ => dice.one_of(&KEYS[..3]).to_vec(),
    }
}

/// A directive with numbers that are not refused.
fn directive_case<'a>(key: &'a [u8], number: usize, first: &'a [u8], second: &'a [u8]) -> Case<'a> {
    Case {
        tag: first,
        second,
        numbers: [3, 1, 26, MINOR | PATCH],
        ..Case::at(key, number)
    }
}

fn comment_of(report: &mut Report, text: &[u8]) {
    for &slack in rooms(text.len()) {
        report.check(
            Call::WriteComment,
            Case {
                slack,
                ..Case::of(text)
            },
            comment,
        );
    }
}

fn directive_of(report: &mut Report, case: Case<'_>) {
    for &slack in rooms(case.text.len() + case.tag.len() + case.second.len()) {
        report.check(Call::WriteDirective, Case { slack, ..case }, directive);
    }
}

fn comment(desk: &mut Desk, case: Case<'_>) -> Verdict {
    let reasons = [
        (24, is_long(case.text)),
        (20, breaks(case.text) || case.text.starts_with(b"#")),
    ];
    let line = rust::write_comment(case.text);
    written(desk, case, By::Rust, &reasons, line, |[text, ..], out| {
        ours::write_comment(text, out)
    })
}

/// The value in its two forms.
fn value(case: Case<'_>) -> (DirectiveValue, Typed<'_>) {
    let [a, b, c, bits] = case.numbers;
    let (has_minor, has_patch) = (bits & MINOR != 0, bits & PATCH != 0);
    let ours = DirectiveValue {
        kind: case.number as u32,
        major: a as u32,
        has_minor: u32::from(has_minor) * ((b >> 32) as u32 | 1),
        minor: b as u32,
        has_patch: u32::from(has_patch) * ((c >> 32) as u32 | 1),
        patch: c as u32,
        start: a,
        end: b,
    };
    let rust = match case.number {
        TEXT => Typed::String(case.tag),
        VERSION => Typed::Version((a as u32, has_minor.then_some(b as u32), has_patch.then_some(c as u32))),
        REGION => Typed::Region(case.tag, a, b),
        BUILD => Typed::Build(case.tag, case.second),
        _ => Typed::None,
    };

    (ours, rust)
}

fn directive(desk: &mut Desk, case: Case<'_>) -> Verdict {
    let (ours, typed) = value(case);
    let (texts, own): (&[&[u8]], _) = match typed {
        Typed::None => (&[], None),
        Typed::String(_) => (&[case.tag], None),
        Typed::Version(_) => (&[], Some(KEYS[0])),
        Typed::Region(..) => (&[case.tag], Some(KEYS[1])),
        Typed::Build(..) => (&[case.tag, case.second], Some(KEYS[2])),
    };
    let unfit = match typed {
        Typed::String(text) => breaks(text),
        _ => texts.iter().any(|text| text.is_empty() || is_spaced(text)),
    };
    let reasons = [
        (24, is_long(case.text) || texts.iter().any(|text| is_long(text))),
        (21, own.is_some_and(|own| own != case.text)),
        (19, is_spaced(case.text)),
        (20, unfit),
        (9, matches!(typed, Typed::Version((_, None, Some(_))))),
        (2, matches!(typed, Typed::Region(_, 0, _) | Typed::Region(_, _, 0))),
    ];
    let line = rust::write_directive(case.text, typed);

    let by = By::rust_if(case.number <= BUILD);
    written(desk, case, by, &reasons, line, |[key, first, second], out| {
        ours::write_directive(key, ours, first, second, out)
    })
}

/// What the Rust writes, unless one of the reasons holds, the first of which is the refusal. The Rust may not fail where none does.
fn written(
    desk: &mut Desk,
    case: Case<'_>,
    by: By,
    reasons: &[(u64, bool)],
    rust: std::io::Result<Vec<u8>>,
    write: impl Fn([&[u8]; 3], &mut [u8]) -> ours::Written,
) -> Verdict {
    let refused = reasons.iter().find(|(_, holds)| *holds).map(|(number, _)| *number);

    let (by, expected) = match (refused, &rust) {
        (Some(number), _) => (By::Checker, Err(number)),
        (None, Ok(line)) => (by, Ok(&line[..])),
        (None, Err(error)) => {
            return By::Rust.says(Err(Difference {
                ours: "not refused".to_owned(),
                expected: format!("a refusal, since the Rust fails: {error}"),
            }));
        }
    };

    desk.lays(case, by, expected, write, |written| written)
}

fn is_long(text: &[u8]) -> bool {
    text.len() > LONGEST
}

fn breaks(text: &[u8]) -> bool {
    text.iter().any(|b| b"\r\n".contains(b))
}

fn is_spaced(text: &[u8]) -> bool {
    text.iter().any(u8::is_ascii_whitespace)
}
