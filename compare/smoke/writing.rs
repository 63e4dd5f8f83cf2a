//! Samples of written records, directives and comments.

use oracle::io::api::writing::{self, Fields, Typed};

use crate::Samples;

pub fn written(samples: &mut Samples) {
    let gene = Fields {
        reference_sequence_name: b"sq0",
        source: b"lab",
        ty: b"gene",
        start: 8,
        end: 13,
        score: None,
        strand: 1,
        phase: 3,
        attributes: &[(b"a", &[b"1"]), (b"b;c", &[b"2", b"x,y"])],
    };

    samples.title("records written; ! and a word is the Rust's error, or the API's own if the Rust cannot express it");

    for (name, fields, expected) in [
        (
            "gene",
            gene.clone(),
            r"'sq0\tlab\tgene\t8\t13\t.\t+\t.\ta=1;b%3Bc=2,x%2Cy'",
        ),
        (
            "no attributes",
            Fields {
                attributes: &[],
                ..gene
            },
            r"'sq0\tlab\tgene\t8\t13\t.\t+\t.\t.'",
        ),
        (
            "column 1 with #",
            Fields {
                reference_sequence_name: b"#a",
                attributes: &[],
                ..gene
            },
            r"'%23a\tlab\tgene\t8\t13\t.\t+\t.\t.'",
        ),
        (
            "CDS, no phase",
            Fields { ty: b"CDS", ..gene },
            "!invalid input parameter",
        ),
        (
            "CDS, phase 0",
            Fields {
                ty: b"CDS",
                phase: 0,
                attributes: &[],
                ..gene
            },
            r"'sq0\tlab\tCDS\t8\t13\t.\t+\t0\t.'",
        ),
        (
            "cds, no phase",
            Fields {
                ty: b"cds",
                attributes: &[],
                ..gene
            },
            r"'sq0\tlab\tcds\t8\t13\t.\t+\t.\t.'",
        ),
        ("start 0", Fields { start: 0, ..gene }, "!unsupported"),
        ("strand 4", Fields { strand: 4, ..gene }, "!unsupported"),
        ("phase 4", Fields { phase: 4, ..gene }, "!unsupported"),
        (
            "end 18446744073709551615",
            Fields {
                end: u64::MAX,
                attributes: &[],
                ..gene
            },
            r"'sq0\tlab\tgene\t8\t18446744073709551615\t.\t+\t.\t.'",
        ),
    ] {
        samples.of(name, writing::write_record(&fields), expected);
    }

    samples.title("records read and written again");

    for (text, expected) in [
        (
            "sq0\tlab\tgene\t8\t13\t.\t+\t.\ta=1;b;c=2",
            r"'sq0\tlab\tgene\t8\t13\t.\t+\t.\ta=1;b%3Bc=2'",
        ),
        ("x", "!unexpected end of file"),
        ("sq0\tlab\tCDS\t8\t13\t.\t+\t.\t.", "!invalid input parameter"),
    ] {
        let mut dst = Vec::new();
        let result = writing::rewrite_record(text.as_bytes(), &mut dst).map(|()| dst);
        samples.of(text, result, expected);
    }

    samples.title("directives written");

    for (key, value, expected) in [
        ("FASTA", Typed::None, "'##FASTA'"),
        ("", Typed::None, "'##'"),
        ("", Typed::String(b""), "'## '"),
        ("gff-version", Typed::String(b"x"), "'##gff-version x'"),
        ("gff-version", Typed::Version((3, None, None)), "'##gff-version 3'"),
        (
            "gff-version",
            Typed::Version((3, Some(1), Some(26))),
            "'##gff-version 3.1.26'",
        ),
        ("gff-version", Typed::Version((3, None, Some(26))), "!unsupported"),
        ("species", Typed::Version((3, None, None)), "!invalid input parameter"),
        (
            "sequence-region",
            Typed::Region(b"sq0", 8, 13),
            "'##sequence-region sq0 8 13'",
        ),
        (
            "genome-build",
            Typed::Build(b"NDLS", b"r\xff1"),
            r"'##genome-build NDLS r\xff1'",
        ),
        ("genome-build", Typed::Region(b"sq0", 8, 13), "!invalid input parameter"),
        ("a b", Typed::String(b"c\nd"), r"'##a b c\nd'"),
    ] {
        samples.of(key, writing::write_directive(key.as_bytes(), value), expected);
    }

    least(samples);

    samples.title("comments written");

    for (text, expected) in [("", "'#'"), ("a", "'#a'"), ("#a", "'##a'"), ("a\nb", r"'#a\nb'")] {
        samples.of(text, writing::write_comment(text.as_bytes()), expected);
    }
}

/// The smallest inputs that are refused here or written in another way, as docs/DIFFERENCES.md has them.
fn least(samples: &mut Samples) {
    let empty = Fields {
        reference_sequence_name: b"",
        source: b"",
        ty: b"",
        start: 1,
        end: 1,
        score: None,
        strand: 0,
        phase: 3,
        attributes: &[],
    };

    samples.title("18 and 21: whether the Rust fails, and what it wrote before");
    let mut line = Vec::new();
    let coding = Fields {
        ty: b"CDS",
        ..empty.clone()
    };
    let failed = writing::put_record(&coding, &mut line).is_err();
    samples.of("CDS, no phase", (failed, line), r"(yes, '\t\tCDS\t1\t1\t.\t.\t')");
    let mut line = Vec::new();
    let failed = writing::put_directive(b"", Typed::Version((0, None, None)), &mut line).is_err();
    samples.of("a version under the empty key", (failed, line), "(yes, '##')");

    samples.title("17, and the score as a number");
    let infinite = Fields {
        score: Some(f32::INFINITY),
        ..empty.clone()
    };
    samples.of(
        "an infinite score",
        writing::write_record(&infinite),
        r"'\t\t\t1\t1\tinf\t.\t.\t.'",
    );
    let mut line = Vec::new();
    let again = writing::rewrite_record(b"\t\t\t1\t1\t00\t.\t.\t", &mut line).map(|()| line);
    samples.of("00 read and written", again, r"'\t\t\t1\t1\t0\t.\t.\t.'");

    samples.title("19 and 20: written by the Rust");

    for (key, value, expected) in [
        (" ", Typed::None, "'## '"),
        ("", Typed::String(b"\r"), r"'## \r'"),
        ("", Typed::String(b"\n"), r"'## \n'"),
        ("sequence-region", Typed::Region(b"", 1, 1), "'##sequence-region  1 1'"),
        (
            "sequence-region",
            Typed::Region(b" ", 1, 1),
            "'##sequence-region   1 1'",
        ),
        ("genome-build", Typed::Build(b"", b"a"), "'##genome-build  a'"),
        ("genome-build", Typed::Build(b"a", b""), "'##genome-build a '"),
    ] {
        samples.of(key, writing::write_directive(key.as_bytes(), value), expected);
    }

    samples.of("#", writing::write_comment(b"#"), "'##'");
    samples.of("\r", writing::write_comment(b"\r"), r"'#\r'");

    samples.title("24: texts of 1,048,577 bytes, and how long the lines are that the Rust writes");
    let long = vec![b'a'; 1_048_577];
    let lines = [
        ("comment", writing::write_comment(&long), 1_048_578),
        ("key", writing::write_directive(&long, Typed::None), 1_048_579),
        ("string", writing::write_directive(b"", Typed::String(&long)), 1_048_580),
        (
            "source",
            writing::write_record(&Fields { source: &long, ..empty }),
            1_048_591,
        ),
    ];

    for (name, line, expected) in lines {
        samples.of(name, line.map_or(0, |line| line.len()), &expected.to_string());
    }

    let mut line = b"\t\t\t1\t1\t.\t.\t.\t=".to_vec();
    line.resize(4_194_305, b'a');
    let mut again = Vec::new();
    let is_same = writing::rewrite_record(&line, &mut again).is_ok_and(|()| again == line);
    samples.of("a line of 4,194,305 bytes, written as it was read", is_same, "yes");
}
