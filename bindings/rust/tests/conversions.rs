//! Numbers, signs and words of the enums, and the loops.

use std::collections::HashSet;

use gff3_lines::{Attributes, Build, Column, Kind, Phase, Record, Refusal, Region, Strand, Version, lines};

#[test]
fn refusals_have_numbers_and_words() {
    let refusals: Vec<_> = (0..100).filter_map(Refusal::from_number).collect();
    let numbers: Vec<_> = refusals.iter().map(|refusal| refusal.number()).collect();
    let reasons: HashSet<_> = refusals.iter().map(|refusal| refusal.reason()).collect();

    assert_eq!(numbers, Vec::from_iter((1..=26).chain([34])));
    assert_eq!(reasons.len(), 27);
    assert!(
        reasons
            .iter()
            .all(|reason| !reason.is_empty() && reason.trim() == *reason)
    );
    assert_eq!(
        Refusal::Text.to_string(),
        "a text that would not read back: a line end in it, a comment that begins with #, or a region's or build's name that is \
         empty or has white space in it (refusal 20)"
    );
}

#[test]
fn a_refusal_goes_through_a_question_mark() {
    fn read() -> Result<u64, Box<dyn std::error::Error + Send + Sync>> {
        Ok(Record::new(b"a")?.start()?)
    }
    assert_eq!(read().unwrap_err().downcast_ref(), Some(&Refusal::Columns));
}

/// The strand and the phase of a byte are what the library reads of a column that is this byte.
#[test]
fn signs_are_those_of_the_columns() {
    for byte in (0..=255).filter(|byte| *byte != b'\t') {
        let line = [b"\t\t\t\t\t\t", &[byte][..], b"\t", &[byte], b"\t"].concat();
        let record = Record::new(&line).unwrap();

        assert_eq!(record.strand(), Strand::try_from(byte));
        assert_eq!(record.strand(), Strand::try_from(char::from(byte)));
        let phase = match byte {
            b'.' => Ok(None),
            _ => Phase::try_from(byte.wrapping_sub(b'0')).map(Some),
        };
        assert_eq!(record.phase(), phase);
    }
}

#[test]
fn enums_have_words() {
    for sign in ['.', '+', '-', '?'] {
        assert_eq!(
            Strand::try_from(sign).map(|strand| strand.to_string()),
            Ok(sign.to_string())
        );
    }
    assert_eq!(Strand::try_from('ń'), Err(Refusal::Strand));
    assert_eq!(
        [Phase::Zero, Phase::One, Phase::Two].map(|phase| phase.to_string()),
        ["0", "1", "2"]
    );
    let kinds = [Kind::Directive, Kind::Comment, Kind::Record];
    assert_eq!(kinds.map(|kind| kind.to_string()), ["directive", "comment", "record"]);

    let numbers: Vec<_> = (0..=255).filter(|number| Column::try_from(*number).is_ok()).collect();
    assert_eq!(numbers, Vec::from_iter(1..=9));
    assert_eq!(
        Column::ALL.map(|column| column.to_string()),
        [
            "seqid",
            "source",
            "type",
            "start",
            "end",
            "score",
            "strand",
            "phase",
            "attributes"
        ]
    );
}

#[test]
fn typed_values_are_converted() {
    for text in ["3", "3.1", "3.1.26"] {
        let version: Version = text.parse().unwrap();
        assert_eq!(version.to_string(), text);
        assert_eq!(Version::try_from(text.as_bytes()), Ok(version));
    }
    let patch_alone = Version {
        major: 3,
        minor: None,
        patch: Some(1),
    };
    assert_eq!(patch_alone.to_string(), "3");
    assert_eq!("3.x".parse::<Version>(), Err(Refusal::Minor));
    assert_eq!(
        Region::try_from(&b"sq0 8 13"[..]).map(|region| region.name),
        Ok(&b"sq0"[..])
    );
    assert_eq!(Build::try_from(&b"NCBI"[..]), Err(Refusal::BuildNameMissing));
}

#[test]
fn loops() {
    let mut lengths = Vec::new();
    for line in lines(b"a\nbc\n") {
        lengths.push(line.bytes().len());
    }
    assert_eq!(lengths, [1, 2]);

    let attributes = Attributes(b"a=1,2;b=3");
    let mut values = Vec::new();
    for field in &attributes {
        for value in field.unwrap().values() {
            values.push(value);
        }
    }
    assert_eq!(values, [b"1", b"2", b"3"]);
    assert_eq!(attributes.into_iter().count(), 2);
}
