//! Samples of a record's columns and fields.

use oracle::io::api::record;

use crate::Samples;

pub fn columns(samples: &mut Samples) {
    samples.title("bounds");
    samples.of("a, seven tabs", record::bounds(b"a\t\t\t\t\t\t\t"), "-");
    samples.of(
        "eight tabs",
        record::bounds(b"\t\t\t\t\t\t\t\t"),
        "[1, 2, 3, 4, 5, 6, 7, 8]",
    );
    samples.of("no byte", record::bounds(b""), "-");

    samples.title("columns");
    samples.of(
        "eight tabs",
        record::columns(b"\t\t\t\t\t\t\t\t"),
        "['', '', '', '', '', '', '', '', '']",
    );
    samples.of(
        "nine tabs",
        record::columns(b"\t\t\t\t\t\t\t\ta\tb").map(|c| c[8]),
        r"'a\tb'",
    );
    samples.of("a, seven tabs: start", record::start(b"a\t\t\t\t\t\t\t"), "!1");
    samples.of("%41%2", record::reference_sequence_name(&line(1, "%41%2")), "'A%2'");
    samples.of("a+b", record::source(&line(2, "a+b")), "'a+b'");
    samples.of("%43DS", record::ty(&line(3, "%43DS")), "'CDS'");

    let gene = line(9, "a=1");
    let by_record = [
        record::reference_sequence_name(&gene),
        record::source(&gene),
        record::ty(&gene),
    ];
    let by_bounds = record::columns(&gene).map(|c| [0, 1, 2].map(|i| Ok(c[i].to_vec())));
    samples.of("record and bounds agree", Some(by_record) == by_bounds, "yes");

    samples.title("score");

    for (text, expected) in [
        (".", "-"),
        ("", "!17"),
        ("1.5", "1.5"),
        ("-0", "-0"),
        ("1e3", "1000"),
        ("%2E", "!17"),
    ] {
        samples.of(text, record::score(&line(6, text)), expected);
    }

    samples.title("score, where the Rust's grammar is wider");

    for (text, expected) in [("1.", "1"), (".5", "0.5"), ("+1", "1"), ("inf", "inf"), ("nan", "NaN")] {
        samples.of(text, record::score(&line(6, text)), expected);
    }

    samples.title("strand: 0 to 3 for . + - ?");

    for (text, expected) in [
        (".", "0"),
        ("+", "1"),
        ("-", "2"),
        ("?", "3"),
        ("", "!3"),
        ("++", "!3"),
        ("%2B", "!3"),
    ] {
        samples.of(text, record::strand(&line(7, text)), expected);
    }

    samples.title("phase: 0 to 2, 3 for none");

    for (text, expected) in [
        ("0", "0"),
        ("1", "1"),
        ("2", "2"),
        (".", "3"),
        ("3", "!4"),
        ("", "!4"),
        ("00", "!4"),
    ] {
        samples.of(text, record::phase(&line(8, text)), expected);
    }
}

pub fn positions(samples: &mut Samples) {
    samples.title("start and end");

    for (text, expected) in [
        ("1", "1"),
        ("0", "!2"),
        ("", "!2"),
        (".", "!2"),
        ("007", "7"),
        ("00000000000000000008", "8"),
        ("18446744073709551615", "18446744073709551615"),
        ("18446744073709551616", "!2"),
        ("28446744073709551615", "!2"),
        ("99999999999999999999", "!2"),
        ("1e3", "!2"),
        ("8 ", "!2"),
        ("8x", "!2"),
    ] {
        let answers = (record::start(&line(4, text)), record::end(&line(5, text)));
        samples.of(text, answers, &format!("({expected}, {expected})"));
    }

    samples.title("start, outside the comparison: signs, and more than 20 bytes, as Debian's lexical-core reads them");

    for (text, expected) in [
        ("+8", "8"),
        ("-8", "!2"),
        ("+", "!2"),
        ("-", "!2"),
        ("-0", "!2"),
        ("000000000000000000008", "8"),
        ("018446744073709551616", "!2"),
    ] {
        samples.of(text, record::start(&line(4, text)), expected);
    }
}

/// A record's line with this text in this column, counted from 1, and the other columns valid.
fn line(column: usize, text: &str) -> Vec<u8> {
    let mut columns = ["sq0", "lab", "gene", "8", "13", ".", "+", ".", "a=1"];
    columns[column - 1] = text;
    columns.join("\t").into_bytes()
}
