//! What the writers answer at their edges.

use gff3_lines::{
    Build, Directive, Judged, Line, Phase, Refusal, Region, Sheet, Strand, Value, Version, judge, rewrite_into,
    write_comment, write_directive,
};

const LINE: &[u8] = b"sq%200\tl%61b\tCDS\t008\t13\t-1.50e3\t-\t2\ta=1;b;c=x%2Cy,z;d=";

/// The sheet of a line that is not refused.
fn sheet() -> Sheet {
    Sheet::of_line(LINE).unwrap()
}

#[test]
fn a_line_is_taken_apart() {
    let attribute = |tag: &[u8], values: &[&[u8]]| (tag.to_vec(), values.iter().map(|value| value.to_vec()).collect());

    assert_eq!(
        sheet(),
        Sheet {
            reference_sequence_name: b"sq 0".to_vec(),
            source: b"lab".to_vec(),
            ty: b"CDS".to_vec(),
            start: 8,
            end: 13,
            score: Some(b"-1.50e3".to_vec()),
            strand: Strand::Reverse,
            phase: Some(Phase::Two),
            attributes: vec![
                attribute(b"a", &[b"1"]),
                attribute(b"b;c", &[b"x,y", b"z"]),
                attribute(b"d", &[b""]),
            ],
        }
    );
    assert_eq!(
        judge(LINE),
        Ok(Judged {
            start: 8,
            end: 13,
            strand: Strand::Reverse,
            phase: Some(Phase::Two),
            length: 87,
        })
    );
}

#[test]
fn a_line_is_written_again_as_by_its_sheet() {
    let lines = [
        (
            LINE,
            Ok(&b"sq%200\tlab\tCDS\t8\t13\t-1.50e3\t-\t2\ta=1;b%3Bc=x%2Cy,z;d="[..]),
        ),
        (b"a\tb\tgene\t1\t2\t.\t.\t.\t", Ok(b"a\tb\tgene\t1\t2\t.\t.\t.\t.")),
        (b"a\tb\tCDS\t1\t2\t.\t.\t.\t", Err(Refusal::PhaseMissing)),
        (b"a\tb\tCDS\t1\t2\t.\t.\t.\tx", Err(Refusal::Attribute)),
        (b"a", Err(Refusal::Columns)),
    ];
    let (mut sheet, mut out) = (b"of another line".to_vec(), Vec::new());
    for (line, expected) in lines {
        out.clear();
        out.push(b'>');
        let written = rewrite_into(line, &mut sheet, &mut out);

        assert_eq!(written.map(|()| &out[1..]), expected);
        assert_eq!(
            Sheet::of_line(line).and_then(|sheet| sheet.line()),
            expected.map(<[u8]>::to_vec)
        );
        assert!(written.is_ok() || out == b">");
        assert_eq!(sheet.len(), judge(line).map_or(0, |judged| judged.length));
    }
}

#[test]
fn lines_are_refused_from_left_to_right() {
    let refused = [
        (&b"a"[..], Refusal::Columns),
        (b"\t\t\tx\ty\tz\t*\t*\ta", Refusal::Position),
        (b"\t\t\t1\t0\tz\t*\t*\ta", Refusal::Position),
        (b"\t\t\t1\t1\tz\t*\t*\ta", Refusal::Score),
        (b"\t\t\t1\t1\t.\t*\t*\ta", Refusal::Strand),
        (b"\t\t\t1\t1\t.\t.\t*\ta", Refusal::Phase),
        (b"\t\t\t1\t1\t.\t.\t.\ta", Refusal::Attribute),
    ];
    for (line, refusal) in refused {
        assert_eq!(judge(line), Err(refusal));
        assert_eq!(Sheet::of_line(line), Err(refusal));
    }
    assert_eq!(judge(&[b'\t'; 4_194_305]), Err(Refusal::TooLong));
    assert_eq!(judge(&[b'\t'; 4_194_304]), Err(Refusal::Position));
}

#[test]
fn a_sheet_is_written() {
    assert_eq!(
        sheet().line().unwrap(),
        b"sq%200\tlab\tCDS\t8\t13\t-1.50e3\t-\t2\ta=1;b%3Bc=x%2Cy,z;d="
    );

    let plain = Sheet {
        score: None,
        strand: Strand::None,
        phase: None,
        ty: b"#%".to_vec(),
        reference_sequence_name: b"#a".to_vec(),
        attributes: Vec::new(),
        ..sheet()
    };
    assert_eq!(plain.line().unwrap(), b"%23a\tlab\t#%25\t8\t13\t.\t.\t.\t.");

    let strands = [
        (Strand::None, b'.'),
        (Strand::Forward, b'+'),
        (Strand::Reverse, b'-'),
        (Strand::Unknown, b'?'),
    ];
    for (strand, byte) in strands {
        let line = Sheet { strand, ..sheet() }.line().unwrap();
        assert_eq!(line.split(|&b| b == b'\t').nth(6), Some(&[byte][..]));
    }
}

#[test]
fn what_is_written_reads_back() {
    let every_byte: Vec<u8> = (0..=255).collect();
    let sheet = Sheet {
        reference_sequence_name: every_byte.clone(),
        source: every_byte.clone(),
        ty: every_byte.clone(),
        attributes: vec![(every_byte.clone(), vec![every_byte.clone(), Vec::new(), every_byte])],
        ..sheet()
    };

    assert_eq!(Sheet::of_line(&sheet.line().unwrap()), Ok(sheet));
}

#[test]
fn sheets_are_refused() {
    let refused = |change: fn(&mut Sheet)| {
        let mut sheet = sheet();
        change(&mut sheet);
        sheet.line()
    };

    assert_eq!(
        refused(|sheet| sheet.source = vec![b'a'; 1_048_576]),
        Err(Refusal::TooLong)
    );
    assert_eq!(refused(|sheet| sheet.attributes[0].1.clear()), Err(Refusal::Sheet));
    assert_eq!(refused(|sheet| sheet.start = 0), Err(Refusal::Position));
    assert_eq!(refused(|sheet| sheet.score = Some(b"1.".to_vec())), Err(Refusal::Score));
    assert_eq!(refused(|sheet| sheet.phase = None), Err(Refusal::PhaseMissing));
}

#[test]
fn directives_are_written() {
    let version = |minor, patch| Value::Version(Version { major: 3, minor, patch });
    let region = |name, start| Value::Region(Region { name, start, end: 13 });
    let build = |source, name| Value::Build(Build { source, name });
    type Case<'a> = (&'a [u8], Value<'a>, Result<&'a [u8], Refusal>);
    let cases: [Case; 16] = [
        (b"", Value::None, Ok(b"##")),
        (b"", Value::Text(b""), Ok(b"## ")),
        (b"gff-version", Value::Text(b"x"), Ok(b"##gff-version x")),
        (b"a b", Value::None, Err(Refusal::Key)),
        (b"a", Value::Text(b"\r"), Err(Refusal::Text)),
        (b"gff-version", version(None, None), Ok(b"##gff-version 3")),
        (b"gff-version", version(Some(1), Some(26)), Ok(b"##gff-version 3.1.26")),
        (b"gff-version", version(None, Some(26)), Err(Refusal::Patch)),
        (b"a b", version(None, Some(26)), Err(Refusal::ValueKey)),
        (b"sequence-region", region(b"sq0", 8), Ok(b"##sequence-region sq0 8 13")),
        (b"sequence-region", region(b"", 0), Err(Refusal::Text)),
        (b"sequence-region", region(b"sq0", 0), Err(Refusal::Position)),
        (b"genome-build", build(b"NCBI", b"B36"), Ok(b"##genome-build NCBI B36")),
        (b"genome-build", build(b"NCBI", b"B 36"), Err(Refusal::Text)),
        (b"genome-build", build(b"", b"B36"), Err(Refusal::Text)),
        (b"genome-builds", build(b"NCBI", b"B36"), Err(Refusal::ValueKey)),
    ];
    for (key, value, expected) in cases {
        assert_eq!(write_directive(key, value), expected.map(<[u8]>::to_vec));
    }
    assert_eq!(
        write_directive(b"a", Value::Text(&[b'a'; 1_048_577])),
        Err(Refusal::TooLong)
    );

    let line = write_directive(b"a", Value::Text(b" b")).unwrap();
    assert_eq!(
        Line(&line).directive(),
        Some(Directive {
            key: b"a",
            value: Some(b" b")
        })
    );
}

#[test]
fn comments_are_written() {
    assert_eq!(write_comment(b"").unwrap(), b"#");
    assert_eq!(write_comment(b"!a\t").unwrap(), b"#!a\t");
    for text in [&b"#"[..], b"a\n", b"\r"] {
        assert_eq!(write_comment(text), Err(Refusal::Text));
    }
    assert_eq!(write_comment(&[b'a'; 1_048_577]), Err(Refusal::TooLong));
}
