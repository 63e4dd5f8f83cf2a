//! Cases of unfolding and writing: the sheet of what the Rust reads, the lines that it writes, and the refusals of RULES 11.

use oracle::io::api::{
    attributes::{self, Value},
    record,
    writing::{self, Fields, Typed},
};

use crate::{
    list::{Dice, List, hex, refused, written},
    sheet::Sheet,
};

/// The largest buffer that the program lends.
const ROOM: usize = 512;

/// The sample lines of RULES 14, and what refuses a line, one by one and each before those that come later.
const LINES: [&str; 26] = [
    "sq0\tlab\tgene\t8\t13\t.\t+\t.\ta=1;b;c=2",
    "s%20q\tl%61b\tCDS\t008\t18446744073709551615\t-1.50e3\t-\t2\ta=x%2Cy,z;%41=",
    "#a\t.\t\t1\t1\t0\t?\t0\t.",
    "##\t%\t%4\t1\t1\t1e5\t.\t1\t",
    "a\tb\tc\t2\t1\t.\t.\t.\ta=1;",
    "a\tb\tc\t2\t1\t.\t.\t.\t=",
    "a\tb\tc\t2\t1\t.\t.\t.\ta=,,\t;b=",
    "",
    "x",
    "a\t\t\t\t\t\t\t",
    "\t\t\t\t\t\t\t\t",
    "a\tb\tc\t0\tx\tx\tx\tx\tx",
    "a\tb\tc\t1\tx\tx\tx\tx\tx",
    "a\tb\tc\t1\t18446744073709551616\tx\tx\tx\tx",
    "a\tb\tc\t1\t1\tx\tx\tx\tx",
    "a\tb\tc\t1\t1\t\tx\tx\tx",
    "a\tb\tc\t1\t1\t1\tx\tx\tx",
    "a\tb\tc\t1\t1\t1\t\tx\tx",
    "a\tb\tc\t1\t1\t1\t+\tx\tx",
    "a\tb\tc\t1\t1\t1\t+\t3\tx",
    "a\tb\tc\t1\t1\t1\t+\t0\tx",
    "a\tb\tc\t1\t1\t1\t+\t0\ta=1;b",
    "a\tb\tc\t1\t1\t1\t+\t0\ta=1;;",
    "a\tb\tc\t1\t1\t1\t+\t0\ta=1;.",
    "a\tb\tc\t1\t1\t1\t+\t0\t..",
    "a\tb\tc\t1\t1\t1\t+\t0\t%2E",
];

pub fn unfolding(list: &mut List) {
    list.title("J LINE: the sheet's length, start, end, strand and phase; U LINE ROOM: the same, and the sheet");
    let mut dice = Dice::new(9);
    let mut lines: Vec<Vec<u8>> = LINES.iter().map(|line| line.as_bytes().to_vec()).collect();

    for i in 0..80 {
        let columns = [
            &b"a%41%\xff"[..],
            b"ab",
            b"CDS ",
            b"189",
            b"189",
            b".",
            b".+-?",
            b".012",
        ];
        let mut row: Vec<Vec<u8>> = columns.iter().map(|alphabet| dice.text(1, alphabet)).collect();
        row.push(dice.text(i % 40, b"aab==;,%4."));
        lines.push(row.join(&b'\t'));
    }

    for line in &lines {
        match unfolded(line) {
            Ok((numbers, sheet)) => {
                list.case(&format!("J {}", hex(line)), &format!("{} {numbers}", sheet.len()));

                for room in [0, sheet.len() - 1, sheet.len(), sheet.len() + 3] {
                    let answer = written(&sheet, room);
                    let answer = answer.replacen(
                        &format!("= {} ", sheet.len()),
                        &format!("= {} {numbers}", sheet.len()),
                        1,
                    );
                    list.case(&format!("U {} {room}", hex(line)), &answer);
                }
            }
            Err(number) => {
                list.case(&format!("J {}", hex(line)), &format!("! {number} "));

                for room in [0, 5, 60] {
                    list.case(&format!("U {} {room}", hex(line)), &refused(number, room));
                }
            }
        }
    }
}

/// Start, end, strand and phase as the program shows them, and the sheet; or the refusal. The list has only scores on which
/// the grammar of RULES 4.2 and the Rust agree, and no signed position.
fn unfolded(line: &[u8]) -> Result<(String, Vec<u8>), u8> {
    let columns = record::columns(line).ok_or(1)?;
    let (start, end) = (record::start(line)?, record::end(line)?);
    let score = match record::score(line)? {
        None => &b""[..],
        Some(_) => columns[5],
    };
    let (strand, phase) = (record::strand(line)?, record::phase(line)?);
    let (attributes, stuck) = attributes::decoded(columns[8]);

    if let Some(number) = stuck {
        return Err(number);
    }

    let sheet = Sheet {
        name: record::reference_sequence_name(line)?,
        source: record::source(line)?,
        ty: record::ty(line)?,
        score: score.to_vec(),
        attributes: attributes
            .into_iter()
            .map(|(tag, value)| match value {
                Value::String(value) => (tag, vec![value]),
                Value::Array(values) => (tag, values),
            })
            .collect(),
    };

    Ok((format!("{start} {end} {strand} {phase} "), sheet.bytes()))
}

/// What the Rust writes of a sheet; then sheets and numbers that are refused, each reason alone and before those that come later.
pub fn records(list: &mut List) {
    list.title("s SHEET START END STRAND PHASE ROOM: a record");
    let mut dice = Dice::new(12);

    for i in 0..256 {
        let byte = [i as u8];
        let sheet = Sheet {
            name: byte.to_vec(),
            source: byte.to_vec(),
            ty: byte.to_vec(),
            score: Vec::new(),
            attributes: vec![(byte.to_vec(), vec![byte.to_vec()])],
        };
        record_case(list, &sheet, [1, 1, 0, 3], &[2]);
    }

    for i in 0..60 {
        let mut text = |len: usize| dice.text(len, b"abC %;=,&\t#\n\xff");
        let sheet = Sheet {
            name: text(i % 7),
            source: text(i % 5),
            ty: text(i % 3),
            score: Vec::new(),
            attributes: (0..i % 5)
                .map(|n| (text(n), (0..1 + (i + n) % 3).map(|m| text(m + n)).collect()))
                .collect(),
        };
        let numbers = [10_u64.pow(i as u32 % 20), u64::MAX >> i, i as u64 % 4, i as u64 / 4 % 4];
        record_case(list, &sheet, numbers, &[0, 1, 2]);
    }

    let plain = Sheet {
        name: b"a".to_vec(),
        ty: b"CDS".to_vec(),
        score: b"x".to_vec(),
        attributes: vec![(b"b".to_vec(), vec![Vec::new()])],
        ..Sheet::default()
    };
    let scored = Sheet {
        score: b"-1.5e+10".to_vec(),
        ..plain.clone()
    };
    let refusals: [(u8, &Sheet, [u64; 4]); 9] = [
        (2, &plain, [0, 0, 4, 4]),
        (2, &plain, [0, 1, 4, 4]),
        (2, &plain, [1, 0, 4, 4]),
        (17, &plain, [1, 1, 4, 4]),
        (3, &scored, [1, 1, 4, 4]),
        (3, &scored, [1, 1, 4_294_967_295, 3]),
        (4, &scored, [1, 1, 3, 4]),
        (4, &scored, [1, 1, 0, 4_294_967_295]),
        (18, &scored, [1, 1, 3, 3]),
    ];

    for (number, sheet, numbers) in refusals {
        for room in [0, 1, 60] {
            list.case(&sheet_case(&sheet.bytes(), numbers, room), &refused(number, room));
        }
    }

    // Each cut of a sheet, a byte more, and each of its counts put wrong.
    let good = plain.bytes();
    let mut bad: Vec<Vec<u8>> = (0..good.len()).map(|len| good[..len].to_vec()).collect();
    bad.push([&good[..], b"\x00"].concat());

    for at in [0, 5, 9, 16, 21, 25, 30, 34] {
        for n in [0, 2, 255] {
            for byte in 0..4 {
                let mut bytes = good.clone();
                bytes[at + byte] = n;
                bad.push(bytes);
            }
        }
    }

    for bytes in bad.iter().filter(|bytes| Sheet::read(bytes).is_none()) {
        list.case(&sheet_case(bytes, [0, 0, 4, 4], 60), &refused(23, 60));
    }
}

/// A record that is not refused, in rooms of this many bytes, and of those it needs with as many more or fewer.
fn record_case(list: &mut List, sheet: &Sheet, numbers: [u64; 4], rooms: &[usize]) {
    let values: Vec<Vec<&[u8]>> = sheet
        .attributes
        .iter()
        .map(|(_, values)| values.iter().map(Vec::as_slice).collect())
        .collect();
    let attributes: Vec<(&[u8], &[&[u8]])> = sheet
        .attributes
        .iter()
        .zip(&values)
        .map(|((tag, _), values)| (&tag[..], &values[..]))
        .collect();
    let [start, end, strand, phase] = numbers;
    let line = writing::write_record(&Fields {
        reference_sequence_name: &sheet.name,
        source: &sheet.source,
        ty: &sheet.ty,
        start,
        end,
        score: None,
        strand: strand as u8,
        phase: phase as u8,
        attributes: &attributes,
    })
    .expect("the Rust writes it");

    for &room in rooms {
        for room in [room, line.len() + room, line.len().saturating_sub(room)] {
            if room <= ROOM {
                list.case(&sheet_case(&sheet.bytes(), numbers, room), &written(&line, room));
            }
        }
    }
}

fn sheet_case(sheet: &[u8], [start, end, strand, phase]: [u64; 4], room: usize) -> String {
    format!("s {} {start} {end} {strand} {phase} {room}", hex(sheet))
}

pub fn comments(list: &mut List) {
    list.title("c TEXT ROOM: a comment");
    let mut dice = Dice::new(10);
    let mut texts: Vec<Vec<u8>> = ["", "a", " a", "!a", "a#", "%\u{b}\u{c}\t", "é"]
        .iter()
        .map(|text| text.as_bytes().to_vec())
        .collect();
    texts.extend((0..40).map(|len| dice.text(len, b"a # %\x00\xff")));

    for text in &texts {
        let line = writing::write_comment(text).expect("a vector takes any text");

        for room in [0, line.len() - 1, line.len(), line.len() + 3] {
            let answer = if text.starts_with(b"#") {
                refused(20, room)
            } else {
                written(&line, room)
            };
            list.case(&format!("c {} {room}", hex(text)), &answer);
        }
    }

    for text in ["#", "##", "#a", "\n", "\r", "a\nb", "a\r", "#\n"] {
        for room in [0, text.len(), 60] {
            list.case(&format!("c {} {room}", hex(text.as_bytes())), &refused(20, room));
        }
    }
}

/// A directive of the list.
type Case = (&'static str, Typed<'static>);

pub fn directives(list: &mut List) {
    list.title("k KEY FIRST SECOND ROOM KIND ..: a directive");

    for (key, value) in accepted() {
        let line = writing::write_directive(key.as_bytes(), value).expect("the Rust writes it");

        for room in [0, line.len() - 1, line.len(), line.len() + 3] {
            list.case(&shown(key, value, room), &written(&line, room));
        }
    }

    for (number, key, value) in REFUSED {
        for room in [0, 1, 2, 40] {
            list.case(&shown(key, value, room), &refused(number, room));
        }
    }
}

/// Those that are written, as the Rust writes them.
fn accepted() -> Vec<Case> {
    let mut cases: Vec<Case> = vec![
        ("", Typed::None),
        ("FASTA", Typed::None),
        ("#", Typed::None),
        ("gff-version", Typed::None),
        ("", Typed::String(b"")),
        ("a", Typed::String(b"")),
        ("a", Typed::String(b" b\t\x0bc\xff")),
        ("gff-version", Typed::String(b"x")),
        ("\u{b}é%", Typed::String(b"#")),
        ("genome-build", Typed::Build(b"NCBI", b"B36")),
        ("genome-build", Typed::Build(b"\x0b", b"%\xff")),
        ("sequence-region", Typed::Region(b"sq0", 8, 13)),
        ("sequence-region", Typed::Region(b"s%20q", 13, 8)),
    ];
    let mut dice = Dice::new(11);

    for digits in 1..20 {
        let n = 10_u64.pow(digits) - 1 - dice.below(2) as u64;
        cases.push(("sequence-region", Typed::Region(b"#", n, n + 2)));
    }

    cases.push(("sequence-region", Typed::Region(b"a", 1, u64::MAX)));

    for digits in 0..10 {
        let n = (10_u64.pow(digits) - dice.below(2) as u64) as u32;
        cases.push(("gff-version", Typed::Version((n, None, None))));
        cases.push(("gff-version", Typed::Version((3, Some(n), None))));
        cases.push(("gff-version", Typed::Version((n, Some(u32::MAX), Some(n)))));
    }

    cases
}

/// Those that are refused: each reason alone, and before those that come later.
const REFUSED: [(u8, &str, Typed<'static>); 22] = [
    (21, "a", Typed::Version((3, None, None))),
    (21, "gff-versio", Typed::Version((3, None, None))),
    (21, "gff-version ", Typed::Version((3, None, Some(1)))),
    (21, "gff-version", Typed::Region(b"", 0, 0)),
    (21, "sequence-region", Typed::Build(b"", b"")),
    (21, "", Typed::Build(b"a", b"b")),
    (19, " ", Typed::None),
    (19, "a b", Typed::String(b"c")),
    (19, "a\t", Typed::String(b"\n")),
    (19, "\n", Typed::None),
    (19, "\u{c}", Typed::None),
    (19, "\r", Typed::None),
    (20, "a", Typed::String(b"\n")),
    (20, "a", Typed::String(b"b\rc")),
    (20, "sequence-region", Typed::Region(b"", 8, 13)),
    (20, "sequence-region", Typed::Region(b"a b", 0, 13)),
    (20, "genome-build", Typed::Build(b"", b"a")),
    (20, "genome-build", Typed::Build(b"a", b"\x0c")),
    (9, "gff-version", Typed::Version((3, None, Some(26)))),
    (2, "sequence-region", Typed::Region(b"a", 0, 13)),
    (2, "sequence-region", Typed::Region(b"a", 8, 0)),
    (2, "sequence-region", Typed::Region(b"a", 0, 0)),
];

/// The case of a directive in its words.
fn shown(key: &str, value: Typed<'_>, room: usize) -> String {
    let part = |n: Option<u32>| format!("{} {}", u8::from(n.is_some()), n.unwrap_or_default());
    let (first, second, words) = match value {
        Typed::None => (&b""[..], &b""[..], "0".to_owned()),
        Typed::String(text) => (text, &b""[..], "1".to_owned()),
        Typed::Version((major, minor, patch)) => {
            (&b""[..], &b""[..], format!("2 {major} {} {}", part(minor), part(patch)))
        }
        Typed::Region(name, start, end) => (name, &b""[..], format!("3 {start} {end}")),
        Typed::Build(source, name) => (source, name, "4".to_owned()),
    };

    format!(
        "k {} {} {} {room} {words}",
        hex(key.as_bytes()),
        hex(first),
        hex(second)
    )
}
