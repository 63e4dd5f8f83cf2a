//! The sample lines of RULES 14.

use gff3_lines::{
    Attributes, Column, Directive, Line, Record, Refusal, Region, Sheet, Version, decode, judge, position,
};

/// A tag, and its values, decoded.
type Attribute = (Vec<u8>, Vec<Vec<u8>>);

/// The attributes of a column 9, and what ends the walk.
fn walk(column: &[u8]) -> (Vec<Attribute>, Option<Refusal>) {
    let mut fields = Vec::new();
    for field in Attributes(column) {
        match field {
            Ok(field) => fields.push((field.tag.to_vec(), field.values().map(decode).collect())),
            Err(refusal) => return (fields, Some(refusal)),
        }
    }
    (fields, None)
}

fn field(tag: &str, values: &[&str]) -> Attribute {
    (
        tag.into(),
        values.iter().map(|value| value.as_bytes().to_vec()).collect(),
    )
}

#[test]
fn tabs() {
    assert_eq!(Record::new(b"a\t\t\t\t\t\t\t"), Err(Refusal::Columns));
    let record = Record::new(b"\t\t\t\t\t\t\t\t").unwrap();
    assert!(Column::ALL.iter().all(|column| record.column(*column).is_empty()));
}

#[test]
fn attributes() {
    let cases: [(&[u8], Vec<_>, Option<Refusal>); 6] = [
        (b"a=1;b;c=2", vec![field("a", &["1"]), field("b;c", &["2"])], None),
        (b"a=1;", vec![field("a", &["1"])], None),
        (b"a=1;b", vec![field("a", &["1"])], Some(Refusal::Attribute)),
        (b"=", vec![field("", &[""])], None),
        (b"a=x%2Cy", vec![field("a", &["x,y"])], None),
        (b"a=x,y", vec![field("a", &["x", "y"])], None),
    ];
    for (column, fields, end) in cases {
        assert_eq!(walk(column), (fields, end));
    }
}

#[test]
fn percent_signs() {
    assert_eq!(decode(b"%2541"), b"%41");
    assert_eq!(decode(b"%%41"), b"%A");
    assert_eq!(decode(b"%4"), b"%4");
}

#[test]
fn versions_and_regions() {
    assert_eq!(Version::parse(b"3.1.26.4"), Err(Refusal::Patch));
    assert_eq!(Version::parse(b"3."), Err(Refusal::Minor));
    assert_eq!(Version::parse(b"+3").map(|version| version.major), Ok(3));
    assert_eq!(Region::parse(b" "), Err(Refusal::RegionNameMissing));
    assert_eq!(Region::parse(b"sq0 8"), Err(Refusal::RegionEndMissing));
    assert_eq!(Region::parse(b"sq0 0 9"), Err(Refusal::RegionStart));
}

#[test]
fn directives() {
    let directive = |value| Some(Directive { key: b"", value });
    assert_eq!(Line(b"##").directive(), directive(None));
    assert_eq!(Line(b"## ").directive(), directive(Some(b"")));
}

#[test]
fn a_cds_has_a_phase() {
    let written = |line| Sheet::of_line(line).unwrap().line();
    assert_eq!(written(b"a\t.\tCDS\t1\t1\t.\t.\t.\t."), Err(Refusal::PhaseMissing));
    assert_eq!(
        written(b"a\t.\tcds\t1\t1\t.\t.\t.\t.").unwrap(),
        b"a\t.\tcds\t1\t1\t.\t.\t.\t."
    );
}

#[test]
fn positions() {
    assert_eq!(position(b"18446744073709551616"), Err(Refusal::Position));
    assert_eq!(position(b"18446744073709551615"), Ok(18_446_744_073_709_551_615));
    assert_eq!(position(b"0"), Err(Refusal::Position));
}

#[test]
fn a_record_is_written_again() {
    let sheet = Sheet::of_line(b"sq0\tlab\tgene\t8\t13\t.\t+\t.\ta=1;b;c=2").unwrap();
    assert_eq!(sheet.line().unwrap(), b"sq0\tlab\tgene\t8\t13\t.\t+\t.\ta=1;b%3Bc=2");
    assert_eq!(judge(b"x"), Err(Refusal::Columns));
}
