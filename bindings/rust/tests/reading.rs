//! What the readers answer at their edges.

use gff3_lines::{
    Attributes, Bounds, Build, Column, Directive, Kind, Line, Lines, Parts, Phase, Record, Refusal, Region, Set,
    Strand, Values, Version, decode, encode, lines,
};

fn bytes<'a>(lines: Lines<'a>) -> Vec<&'a [u8]> {
    lines.map(Line::bytes).collect()
}

/// A record of nine columns, with tabs between them.
fn line(columns: [&str; 9]) -> String {
    columns.join("\t")
}

#[test]
fn lines_end_at_line_feeds() {
    assert_eq!(bytes(lines(b"")), [] as [&[u8]; 0]);
    assert_eq!(bytes(lines(b"a\r\nb\r")), [&b"a"[..], b"b\r"]);
    assert_eq!(bytes(lines(b"a\r\r\n")), [b"a\r"]);
    assert_eq!(bytes(Lines::starting_at(b"\r\n", usize::MAX)), [] as [&[u8]; 0]);
}

#[test]
fn blank_lines_are_skipped() {
    let none: [&[u8]; 0] = [];

    assert_eq!(bytes(lines(b"\n\n")), none);
    assert_eq!(bytes(lines(b"\r\n\n\r\n")), none);
    assert_eq!(bytes(lines(b"\n \n\r\n\na\r\n\r\r\n\n\r")), [b" ", b"a", b"\r", b"\r"]);
    assert_eq!(bytes(Lines::starting_at(b"x\r\ny", 1)), [b"y"]);
    assert_eq!(bytes(Lines::starting_at(b"x\r\ny", 2)), [b"y"]);
    assert_eq!(bytes(Lines::starting_at(b"\r\n", 1)), none);
    assert_eq!(Line(b"").kind(), Kind::Record);
    assert_eq!(Line(b"").record(), Err(Refusal::Columns));
}

#[test]
fn a_hundred_million_blank_lines_are_skipped_at_once() {
    let text = [b"\n".repeat(100_000_000), b"a".to_vec()].concat();
    assert_eq!(lines(&text).next(), Some(Line(b"a")));
    assert_eq!(lines(&text[..100_000_000]).next(), None);

    let mut parts = Parts::new();
    let mut part = &text[..];
    assert_eq!(parts.take(&mut part), None);
    assert_eq!(part, b"");
    assert_eq!(parts.end(), Some(Ok(Line(b"a"))));
}

#[test]
fn a_walk_that_is_done_stays_done() {
    for text in [&b"a\nb"[..], b"\n\n\n"] {
        let mut lines = Lines::starting_at(text, 2);
        lines.by_ref().for_each(drop);
        assert_eq!((lines.next(), lines.at()), (None, 3));
        assert_eq!((lines.next(), lines.at()), (None, 3));
    }

    let mut lines = Lines::starting_at(b"a\nb", usize::MAX);
    assert_eq!((lines.next(), lines.at()), (None, 3));
    assert_eq!((lines.next(), lines.at()), (None, 3));

    for column in [&b"a=1"[..], b"a=1;", b"."] {
        let mut fields = Attributes(column).fields();
        fields.by_ref().for_each(drop);
        assert_eq!((fields.next(), fields.next()), (None, None));
    }
    for value in [&b""[..], b"a", b"a,"] {
        let mut values = Values::new(value);
        values.by_ref().for_each(drop);
        assert_eq!((values.next(), values.next()), (None, None));
    }
}

#[test]
fn a_line_is_of_one_kind() {
    assert_eq!(Line(b"#").kind(), Kind::Comment);
    assert_eq!(Line(b"##").kind(), Kind::Directive);
    assert_eq!(Line(b" ##").kind(), Kind::Record);

    assert_eq!(Line(b"#").comment(), Some(&b""[..]));
    assert_eq!(Line(b"a").comment(), None);
    assert_eq!(Line(b"##").directive(), Some(Directive { key: b"", value: None }));
    assert_eq!(
        Line(b"##a\t\tb").directive(),
        Some(Directive {
            key: b"a",
            value: Some(b"\tb")
        })
    );
    assert_eq!(Line(b"#a b").directive(), None);
}

#[test]
fn a_record_has_nine_columns() {
    let line = line(["sq%200", "l%61b", "CDS", "8", "13", "-1.5e3", "-", "2", "ID=a\tb"]);
    let record = Record::new(line.as_bytes()).unwrap();

    assert_eq!(record.line(), line.as_bytes());
    assert_eq!(record.reference_sequence_name(), b"sq 0");
    assert_eq!(record.source(), b"lab");
    assert_eq!(record.ty(), b"CDS");
    assert_eq!(record.start(), Ok(8));
    assert_eq!(record.end(), Ok(13));
    assert_eq!(record.score(), Ok(Some(&b"-1.5e3"[..])));
    assert_eq!(record.strand(), Ok(Strand::Reverse));
    assert_eq!(record.phase(), Ok(Some(Phase::Two)));
    assert_eq!(record.attributes(), Attributes(b"ID=a\tb"));

    let columns = Column::ALL.map(|column| record.column(column));
    assert_eq!(columns.join(&b'\t'), line.as_bytes());
}

#[test]
fn a_record_of_no_bytes_has_nine_empty_columns() {
    let record = Record::new(b"\t\t\t\t\t\t\t\t").unwrap();

    assert_eq!(record.reference_sequence_name(), b"");
    assert_eq!(record.column(Column::Attributes), b"");
    assert!(record.attributes().is_empty());
    assert_eq!(record.start(), Err(Refusal::Position));
    assert_eq!(record.score(), Err(Refusal::Score));
    assert_eq!(record.strand(), Err(Refusal::Strand));
    assert_eq!(record.phase(), Err(Refusal::Phase));
}

#[test]
fn every_strand_and_phase_is_read() {
    let strands = [
        (".", Strand::None),
        ("+", Strand::Forward),
        ("-", Strand::Reverse),
        ("?", Strand::Unknown),
    ];
    for (text, strand) in strands {
        let line = line(["", "", "", "", "", "", text, "", ""]);
        assert_eq!(Record::new(line.as_bytes()).unwrap().strand(), Ok(strand));
    }
    let phases = [
        (".", None),
        ("0", Some(Phase::Zero)),
        ("1", Some(Phase::One)),
        ("2", Some(Phase::Two)),
    ];
    for (text, phase) in phases {
        let line = line(["", "", "", "", "", "", "", text, ""]);
        assert_eq!(Record::new(line.as_bytes()).unwrap().phase(), Ok(phase));
    }
}

/// Columns 4 to 8, each read or refused.
type Middle<'a> = (
    Result<u64, Refusal>,
    Result<u64, Refusal>,
    Result<Option<&'a [u8]>, Refusal>,
    Result<Strand, Refusal>,
    Result<Option<Phase>, Refusal>,
);

fn middle<'a>(record: &Record<'a>) -> Middle<'a> {
    (
        record.start(),
        record.end(),
        record.score(),
        record.strand(),
        record.phase(),
    )
}

#[test]
fn columns_4_to_8_are_read() {
    let records: [(&[u8], Middle); 4] = [
        (
            b"\t\t\t1\t1\t.\t.\t.\t",
            (Ok(1), Ok(1), Ok(None), Ok(Strand::None), Ok(None)),
        ),
        (
            b"sq%200\tlab\tCDS\t0008\t18446744073709551615\t-1.5e3\t+\t0\tID=a\tb",
            (
                Ok(8),
                Ok(18_446_744_073_709_551_615),
                Ok(Some(b"-1.5e3")),
                Ok(Strand::Forward),
                Ok(Some(Phase::Zero)),
            ),
        ),
        (
            b"##a\tb\tc\t9\t8\t0\t-\t1\tno attribute",
            (Ok(9), Ok(8), Ok(Some(b"0")), Ok(Strand::Reverse), Ok(Some(Phase::One))),
        ),
        (
            b"a\tb\tc\t1\t2\t00.50E+01\t?\t2\t.",
            (
                Ok(1),
                Ok(2),
                Ok(Some(b"00.50E+01")),
                Ok(Strand::Unknown),
                Ok(Some(Phase::Two)),
            ),
        ),
    ];
    for (line, expected) in records {
        let record = Line(line).record().unwrap();
        assert_eq!(middle(&record), expected);
        assert_eq!(Record::with_bounds(line, record.bounds()), Ok(record));
    }
}

/// Every choice of refused columns among 4 to 8, none and all among them. The texts of a column are of one length, and so the bounds stay.
#[test]
fn a_refused_column_leaves_the_others_to_be_read() {
    for choice in 0..32 {
        let [start, end, score, strand, phase] = [0, 1, 2, 3, 4].map(|column| choice >> column & 1 == 1);
        let pick = |refused, [good, bad]: [&'static str; 2]| if refused { bad } else { good };
        let line = line([
            "a",
            "b",
            "c",
            pick(start, ["8", "0"]),
            pick(end, ["13", "-3"]),
            pick(score, ["0.5", ".50"]),
            pick(strand, ["-", "*"]),
            pick(phase, ["2", "3"]),
            "ID=x",
        ]);
        let record = Record::new(line.as_bytes()).unwrap();
        let expected = (
            (!start).then_some(8).ok_or(Refusal::Position),
            (!end).then_some(13).ok_or(Refusal::Position),
            (!score).then_some(Some(&b"0.5"[..])).ok_or(Refusal::Score),
            (!strand).then_some(Strand::Reverse).ok_or(Refusal::Strand),
            (!phase).then_some(Some(Phase::Two)).ok_or(Refusal::Phase),
        );
        let bounds = Bounds {
            reference_sequence_name_end: 2,
            source_end: 4,
            type_end: 6,
            start_end: 8,
            end_end: 11,
            score_end: 15,
            strand_end: 17,
            phase_end: 19,
        };

        assert_eq!(middle(&record), expected);
        assert_eq!(record.bounds(), bounds);
        let columns = Column::ALL.map(|column| record.column(column));
        assert_eq!(columns.join(&b'\t'), line.as_bytes());
        assert_eq!(Record::with_bounds(line.as_bytes(), bounds), Ok(record));
        let mut other = bounds;
        other.phase_end -= 1;
        assert_eq!(Record::with_bounds(line.as_bytes(), other), Err(Refusal::Columns));

        let seven_tabs = &line.as_bytes()[..18];
        assert_eq!(Record::new(seven_tabs), Err(Refusal::Columns));
        assert_eq!(Record::with_bounds(seven_tabs, bounds), Err(Refusal::Columns));
    }
}

#[test]
fn each_column_refuses_what_it_does_not_take() {
    let positions = ["", ".", "0", "000", "+1", "-1", "1 ", "1e3", "18446744073709551616"];
    let scores = ["", "..", "+1", ".5", "5.", "1e", "1e+", "1 ", "nan", "%2E"];
    let strands = ["", "..", "++", "*", "1", " ", "%2E"];
    let phases = ["", "..", "3", "00", "-1", " ", "%2E"];
    let refused = [
        (Refusal::Position, &positions[..]),
        (Refusal::Position, &positions),
        (Refusal::Score, &scores),
        (Refusal::Strand, &strands),
        (Refusal::Phase, &phases),
    ];

    for (column, (refusal, texts)) in refused.into_iter().enumerate() {
        for text in texts {
            let mut columns = ["a", "b", "c", "8", "13", "0.5", "-", "2", "."];
            columns[3 + column] = text;
            let line = line(columns);
            let (start, end, score, strand, phase) = middle(&Record::new(line.as_bytes()).unwrap());
            let refusals = [start.err(), end.err(), score.err(), strand.err(), phase.err()];
            let mut expected = [None; 5];
            expected[column] = Some(refusal);
            assert_eq!(refusals, expected, "{text:?}");
        }
    }
}

#[test]
fn bounds_of_another_line_are_refused() {
    let own = Record::new(b"a\tb\tc\td\te\tf\tg\th\ti").unwrap().bounds();
    let shifted: [fn(&mut Bounds); 8] = [
        |b| b.reference_sequence_name_end += 1,
        |b| b.source_end += 1,
        |b| b.type_end += 1,
        |b| b.start_end += 1,
        |b| b.end_end += 1,
        |b| b.score_end += 1,
        |b| b.strand_end += 1,
        |b| b.phase_end = usize::MAX,
    ];

    assert_eq!(own.reference_sequence_name_end, 2);
    assert_eq!(own.phase_end, 16);
    for shift in shifted {
        let mut bounds = own;
        shift(&mut bounds);
        assert_eq!(
            Record::with_bounds(b"a\tb\tc\td\te\tf\tg\th\ti", bounds),
            Err(Refusal::Columns)
        );
    }
}

#[test]
fn a_walk_cuts_at_equals_signs_first() {
    let tags = |column| {
        Attributes(column)
            .fields()
            .map(|field| field.map(|f| (f.tag, f.value)))
            .collect::<Vec<_>>()
    };

    assert_eq!(tags(b"a=1;b;c=2"), [Ok((&b"a"[..], &b"1"[..])), Ok((b"b;c", b"2"))]);
    assert_eq!(tags(b"a=1;"), [Ok((&b"a"[..], &b"1"[..]))]);
    assert_eq!(tags(b"a=1;;"), [Ok((&b"a"[..], &b"1"[..])), Err(Refusal::Attribute)]);
    assert_eq!(tags(b"="), [Ok((&b""[..], &b""[..]))]);
    assert_eq!(tags(b"."), []);
    assert_eq!(tags(b""), []);
}

#[test]
fn values_are_cut_before_they_are_decoded() {
    let values = |value| Values::new(value).map(decode).collect::<Vec<_>>();

    assert_eq!(values(b"x%2Cy"), [b"x,y"]);
    assert_eq!(values(b"x,y"), [b"x", b"y"]);
    assert_eq!(values(b",a,"), [&b""[..], b"a", b""]);
}

#[test]
fn a_lookup_takes_the_first_match() {
    assert_eq!(Attributes(b"a=;a=2").get(b"a"), Ok(Some(&b""[..])));
    assert_eq!(Attributes(b"%61=1").get(b"a"), Ok(Some(&b"1"[..])));
    assert_eq!(Attributes(b"a=1").get(b"%61"), Ok(None));
    assert_eq!(Attributes(b"a=1;b").get(b"a"), Ok(Some(&b"1"[..])));
    assert_eq!(Attributes(b".").get(b""), Ok(None));
}

#[test]
fn typed_values_are_read_from_left_to_right() {
    assert_eq!(
        Version::parse(b"3.1.26"),
        Ok(Version {
            major: 3,
            minor: Some(1),
            patch: Some(26)
        })
    );
    assert_eq!(Version::parse(b""), Err(Refusal::Empty));
    assert_eq!(Version::parse(b"x.y"), Err(Refusal::Major));

    assert_eq!(
        Region::parse(b" sq0\t+8 9 10"),
        Ok(Region {
            name: b"sq0",
            start: 8,
            end: 9
        })
    );
    let refused = [
        (&b""[..], Refusal::Empty),
        (b"\t", Refusal::RegionNameMissing),
        (b"sq0", Refusal::RegionStartMissing),
        (b"sq0 x", Refusal::RegionStart),
        (b"sq0 x x", Refusal::RegionStart),
        (b"sq0 1 ", Refusal::RegionEndMissing),
        (b"sq0 8 -9", Refusal::RegionEnd),
    ];
    for (text, refusal) in refused {
        assert_eq!(Region::parse(text), Err(refusal));
    }

    assert_eq!(
        Build::parse(b" a b c"),
        Ok(Build {
            source: b"a",
            name: b"b"
        })
    );
    assert_eq!(Build::parse(b""), Err(Refusal::Empty));
}

#[test]
fn what_is_encoded_decodes_to_itself() {
    let text: Vec<u8> = (0..=255).collect();
    for set in [Set::Name, Set::Column, Set::Attribute] {
        assert_eq!(decode(&encode(set, &text).unwrap()), text);
    }
    assert_eq!(encode(Set::Name, b"").unwrap(), b"");
    assert_eq!(encode(Set::Column, &[0; 1_048_576]).unwrap().len(), 3 * 1_048_576);
    assert_eq!(decode(b"%4"), b"%4");
    assert_eq!(decode(b"%%41"), b"%A");
}
