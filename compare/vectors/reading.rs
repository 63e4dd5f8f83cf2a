//! Cases of lines, columns, attributes and directives: the sample lines of RULES 14, and texts made of the bytes that matter.

use oracle::io::api::{
    attributes::{self, Value},
    lines, record, values,
};

use crate::list::{Dice, List, hex, written};

/// The buffer that a decoded field is shown in.
const ROOM: usize = 16;

pub fn lines(list: &mut List) {
    list.title("L TEXT: each line, and a dot");
    let mut dice = Dice::new(5);
    let mut texts: Vec<Vec<u8>> = [
        "",
        "\n",
        "\r\n",
        "\r",
        "a",
        "a\r",
        "a\n",
        "a\r\n",
        "a\r\r\n",
        "\n\n",
        "a\nb",
        "a\r\nb\r",
        "\ra\n",
        " \n",
        "\n\r",
        "\r\r\n",
        "\n \n\r\n\na\r\n\r\r\n\n\r",
    ]
    .iter()
    .map(|s| s.as_bytes().to_vec())
    .collect();
    texts.extend((0..120).map(|i| dice.text(i, b"abcdefghijk\r\n")));
    texts.extend((0..80).map(|i| dice.text(i % 20, b"a\r\n")));

    for text in &texts {
        let shown: String = lines::read_lines(text)
            .iter()
            .map(|line| format!("{} ", hex(line)))
            .collect();
        list.case(&format!("L {}", hex(text)), &format!("{shown}. "));
    }

    list.title("K LINE: its kind; C LINE: a comment's text; D LINE: key and value of a directive");
    let mut texts: Vec<Vec<u8>> = [
        "",
        "#",
        "##",
        "## ",
        "###",
        "#a",
        "# a",
        "#!a",
        "##a",
        "##a b",
        "##a  b",
        "##a\tb c",
        "## a",
        "##a ",
        "##\u{b}a b",
        "a",
        " #a",
        "##FASTA",
        "##gff-version 3",
    ]
    .iter()
    .map(|s| s.as_bytes().to_vec())
    .collect();
    texts.extend((0..120).map(|i| dice.text(i % 9, b"##a \t\x0c")));

    for text in &texts {
        let kind = ["directive", "comment", "record"][usize::from(lines::kind(text))];
        list.case(&format!("K {}", hex(text)), &format!("{kind} "));
        let comment = lines::comment(text).map_or("none".into(), |s| hex(&s));
        list.case(&format!("C {}", hex(text)), &format!("{comment} "));
        let directive = lines::directive(text).map_or("none".into(), |(key, value)| {
            format!("{} {}", hex(&key), value.map_or("none".into(), |s| hex(&s)))
        });
        list.case(&format!("D {}", hex(text)), &format!("{directive} "));
    }
}

pub fn columns(list: &mut List) {
    list.title("B LINE: the eight bounds, or 1");
    let mut dice = Dice::new(6);
    let mut texts = vec![
        b"a\t\t\t\t\t\t\t".to_vec(),
        vec![b'\t'; 7],
        vec![b'\t'; 8],
        vec![b'\t'; 9],
        vec![b'\t'; 12],
        b"a b c d e f g h i".to_vec(),
    ];
    texts.extend((0..100).map(|i| dice.text(i, b"abc\t\t .")));

    for text in &texts {
        let bounds: String =
            record::bounds(text).map_or("! 1 ".into(), |ends| ends.iter().map(|end| format!("{end} ")).collect());
        list.case(&format!("B {}", hex(text)), &bounds);
    }

    list.title("R LINE LINE: each field of the first line, at the bounds of the second");
    let mut texts: Vec<Vec<u8>> = [
        "sq0\tlab\tgene\t8\t13\t.\t+\t.\ta=1;b;c=2",
        "\t\t\t\t\t\t\t\t",
        "s%20q\t%41%\t.\t0\t1\t1\t-\t0\t.",
        "a\tb\tc\t007\t18446744073709551615\t-1.5e+10\t?\t1\t\t9",
        "a\tb\tc\t1\t18446744073709551616\t.\t.\t2\t",
        "a\tb\tc\tx\t\tx\t*\t3\t",
        "a\tb\tc\t1\t1\t\t++\t00\ta=1;b",
        "abcdefghijklmnopq\tb\tc\t1\t1\t1e5\t+\t.\t.",
    ]
    .iter()
    .map(|s| s.as_bytes().to_vec())
    .collect();

    for _ in 0..60 {
        let columns = [
            &b"a%41%"[..],
            b"ab",
            b"CDS ",
            b"0189",
            b"0189",
            b".",
            b".+-?",
            b".0123",
            b"a=;,.%4",
        ];
        let row: Vec<Vec<u8>> = columns.iter().map(|alphabet| dice.text(1, alphabet)).collect();
        texts.push(row.join(&b'\t'));
    }

    for text in &texts {
        list.case(&format!("R {} {}", hex(text), hex(text)), &fields(text));
    }

    for text in &texts {
        let other = [b"z", text.as_slice()].concat();
        let text_refused = format!("! 1 {} ", "aa".repeat(ROOM));
        list.case(
            &format!("R {} {}", hex(text), hex(&other)),
            &[text_refused.repeat(3), "! 1 ".repeat(6)].concat(),
        );
    }
}

/// Each field as the program shows it. The score's grammar is that of RULES 4.2, so the list has only tokens on which it and the
/// Rust agree.
fn fields(line: &[u8]) -> String {
    let number = |answer: Result<u64, u8>| answer.map_or_else(|n| format!("! {n} "), |n| format!("{n} "));
    let text = |answer: Result<Vec<u8>, u8>| written(&answer.expect("the line is a record"), ROOM);
    let columns = record::columns(line).expect("the line is a record");
    let score = match record::score(line) {
        Ok(None) => ". ".into(),
        Ok(Some(_)) => format!("{} ", hex(columns[5])),
        Err(n) => format!("! {n} "),
    };

    [
        text(record::reference_sequence_name(line)),
        text(record::source(line)),
        text(record::ty(line)),
        number(record::start(line)),
        number(record::end(line)),
        score,
        number(record::strand(line).map(u64::from)),
        number(record::phase(line).map(u64::from)),
        format!("{} ", hex(columns[8])),
    ]
    .concat()
}

pub fn attributes(list: &mut List) {
    list.title("F COLUMN: the first tag and value as they stand, or a dot or 5; W COLUMN: each, and a dot or 5");
    let mut dice = Dice::new(7);
    let mut texts: Vec<Vec<u8>> = [
        "",
        ".",
        "..",
        "a=1",
        "a=1;",
        "a=1;b",
        "a=1;b;c=2",
        "=",
        "a=1;.",
        "a=1;;b=2",
        "a=1;;",
        "a=x%2Cy",
        "a=x,y",
        "a%3D=1;b=",
        ";a=1",
        "a==b",
        "ID=x;Parent=y,z",
    ]
    .iter()
    .map(|s| s.as_bytes().to_vec())
    .collect();
    texts.extend((0..150).map(|i| dice.text(i % 40, b"aab=;,%4.")));

    for text in &texts {
        let (fields, refused) = attributes::walk(text);
        let end = if refused.is_some() { "! 5 " } else { ". " };
        let shown: Vec<String> = fields
            .iter()
            .map(|(tag, value)| format!("{} {} ", hex(tag), hex(value)))
            .collect();
        list.case(&format!("F {}", hex(text)), shown.first().map_or(end, String::as_str));
        list.case(&format!("W {}", hex(text)), &format!("{}{end}", shown.concat()));
    }

    list.title("V VALUE: each value, decoded, and a dot");

    for text in texts.iter().filter(|text| !text.contains(&b';')) {
        let values = match attributes::parse_value(text) {
            Value::String(value) => vec![value],
            Value::Array(values) => values,
        };
        let shown: String = values.iter().map(|value| written(value, ROOM)).collect();
        list.case(&format!("V {}", hex(text)), &format!("{shown}. "));
    }

    list.title("T COLUMN TAG: the raw value of a tag, none or 5; and the value, or the fallback `?`");

    for text in &texts {
        for tag in [&b"a"[..], b"b", b"", b"a=", b";b", b"Parent"] {
            let (shown, value) = looked_up(text, tag);
            list.case(
                &format!("T {} {}", hex(text), hex(tag)),
                &format!("{shown} {} ", hex(&value)),
            );
        }
    }
}

/// The raw value that a lookup finds, and what the lookup with a fallback answers. `get` decodes, so that it finds one is held to the
/// walk over raw fields.
fn looked_up(column: &[u8], tag: &[u8]) -> (String, Vec<u8>) {
    let (fields, _) = attributes::walk(column);
    let raw = fields
        .iter()
        .find(|(t, _)| attributes::parse_tag(t) == tag)
        .map(|(_, value)| value.to_vec());

    match (attributes::get(column, tag), raw) {
        (Some(Ok(_)), Some(value)) => (hex(&value), value),
        (Some(Err(n)), None) => (format!("! {n}"), b"?".to_vec()),
        (None, None) => ("none".into(), b"?".to_vec()),
        (answer, raw) => panic!("the lookup {answer:?} and the walk {raw:?} differ"),
    }
}

pub fn directives(list: &mut List) {
    list.title("1 TEXT: a version; 2 TEXT: a region; 3 TEXT: a build");
    let mut dice = Dice::new(8);
    let text = |bytes: Vec<u8>| String::from_utf8(bytes).expect("the alphabets are ASCII");
    let mut versions: Vec<String> = [
        "",
        "3",
        "+3",
        "-3",
        "3.",
        "3.1",
        "3.1.",
        "3.1.26",
        "3.1.26.4",
        ".1",
        "..",
        "3..1",
        "4294967295.4294967295.4294967295",
        "4294967296",
        "3.4294967296",
        "3.1.4294967296",
        " 3",
        "3 ",
    ]
    .map(String::from)
    .to_vec();
    versions.extend((0..80).map(|i| text(dice.text(i % 9, b"013+-.."))));

    for version in &versions {
        let part = |n: Option<u32>| n.map_or("none".into(), |n| n.to_string());
        let shown = values::parse_version(version).map_or_else(
            |n| format!("! {n} "),
            |(major, minor, patch)| format!("{major} {} {} ", part(minor), part(patch)),
        );
        list.case(&format!("1 {}", hex(version.as_bytes())), &shown);
    }

    let mut regions: Vec<String> = [
        "",
        " ",
        "sq0",
        "sq0 8",
        "sq0 0 9",
        "sq0 8 13",
        "sq0 x",
        "sq0 8 x",
        "sq0 +8 +13",
        " sq0\t8\r\n13 more",
        "sq0 13 8",
        "s%20q 1 1",
        "sq0 -1 1",
        "\u{b}sq0 1 1",
        "é 1 2",
        "a 18446744073709551615 18446744073709551616",
    ]
    .map(String::from)
    .to_vec();
    regions.extend((0..120).map(|i| text(dice.text(i % 16, b"ab  11829+ \t"))));

    for region in &regions {
        let shown = values::parse_region(region).map_or_else(
            |n| format!("! {n} "),
            |(name, start, end)| format!("{} {start} {end} ", hex(&name)),
        );
        list.case(&format!("2 {}", hex(region.as_bytes())), &shown);
        let shown = values::parse_build(region).map_or_else(
            |n| format!("! {n} "),
            |(source, name)| format!("{} {} ", hex(&source), hex(&name)),
        );
        list.case(&format!("3 {}", hex(region.as_bytes())), &shown);
    }
}
