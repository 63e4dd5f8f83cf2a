//! Samples of percent-decoding, and the three escape sets byte by byte.

use oracle::io::api::coding;

use crate::Samples;

pub fn decoding(samples: &mut Samples) {
    samples.title("percent-decoding");

    for (text, expected) in [
        ("%2541", "'%41'"),
        ("%%41", "'%A'"),
        ("%4", "'%4'"),
        ("%", "'%'"),
        ("%4g", "'%4g'"),
        ("%fF%Ff", r"'\xff\xff'"),
        ("%4%41", "'%4A'"),
        ("%+1", "'%+1'"),
        ("a+b", "'a+b'"),
        ("%00", r"'\x00'"),
    ] {
        samples.of(text, coding::percent_decode(text.as_bytes()), expected);
    }
}

/// The bytes that each encoder escapes, found byte by byte.
pub fn sets(samples: &mut Samples) {
    type Encode = fn(&[u8]) -> Vec<u8>;
    type Rule = fn(u8) -> bool;

    let control: Rule = |b| b < 0x20 || b == 0x7f || b == b'%' || b >= 0x80;
    let control_or_reserved: Rule = |b| b < 0x20 || b == 0x7f || b >= 0x80 || b"%;=&,".contains(&b);
    let not_kept: Rule = |b| !(b.is_ascii_alphanumeric() || b".:^*$@!+_?-|".contains(&b));

    samples.title("bytes escaped, of 256, and bytes whose escape differs from its rule");

    for (name, encode, rule, expected) in [
        (
            "column 1",
            coding::encode_reference_sequence_name as Encode,
            not_kept,
            "(182, 0)",
        ),
        ("source", coding::encode_source, control, "(162, 0)"),
        ("type", coding::encode_type, control, "(162, 0)"),
        ("tag", coding::encode_tag, control_or_reserved, "(166, 0)"),
        ("value", coding::encode_value, control_or_reserved, "(166, 0)"),
    ] {
        let plain = |b: u8| {
            if rule(b) {
                format!("%{b:02X}").into_bytes()
            } else {
                vec![b]
            }
        };
        let escaped = (0..=255).filter(|&b| encode(&[b]).len() == 3).count();
        let differ = (0..=255).filter(|&b| encode(&[b]) != plain(b)).count();
        samples.of(name, (escaped, differ), expected);
    }
}
