//! The forms that append to a buffer.

use gff3_lines::{
    Attributes, Record, Refusal, Region, Set, Sheet, Value, decode, decode_into, encode, encode_into,
    write_comment_into, write_directive_into,
};

const LINE: &[u8] = b"sq%200\tl%61b\tCDS\t8\t13\t.\t-\t2\ta=1";

#[test]
fn what_is_written_is_appended() {
    let record = Record::new(LINE).unwrap();
    let sheet = Sheet::of_line(LINE).unwrap();
    let mut out = b"[".to_vec();

    decode_into(b"%41", &mut out);
    encode_into(Set::Name, b" ", &mut out).unwrap();
    record.reference_sequence_name_into(&mut out);
    record.source_into(&mut out);
    record.ty_into(&mut out);
    sheet.line_into(&mut out).unwrap();
    write_comment_into(b"b", &mut out).unwrap();
    write_directive_into(b"c", Value::Text(b"d"), &mut out).unwrap();

    assert_eq!(out, b"[A%20sq 0labCDSsq%200\tlab\tCDS\t8\t13\t.\t-\t2\ta=1#b##c d");
}

#[test]
fn a_refused_call_appends_nothing() {
    let sheet = Sheet {
        start: 0,
        ..Sheet::of_line(LINE).unwrap()
    };
    let mut out = b"a".to_vec();

    assert_eq!(sheet.line_into(&mut out), Err(Refusal::Position));
    assert_eq!(encode_into(Set::Name, &[0; 1_048_577], &mut out), Err(Refusal::TooLong));
    assert_eq!(write_comment_into(b"#", &mut out), Err(Refusal::Text));
    assert_eq!(write_directive_into(b" ", Value::None, &mut out), Err(Refusal::Key));
    assert_eq!(out, b"a");
}

#[test]
fn a_buffer_with_room_is_kept() {
    let sheet = Sheet::of_line(LINE).unwrap();
    let mut out = Vec::with_capacity(1024);
    let before = (out.as_ptr(), out.capacity());

    for _ in 0..100 {
        out.clear();
        sheet.line_into(&mut out).unwrap();
        write_comment_into(b"a", &mut out).unwrap();
        assert_eq!((out.as_ptr(), out.capacity()), before);
    }
}

#[test]
fn the_longest_directive_has_room() {
    let value = Value::Region(Region {
        name: b"n",
        start: u64::MAX,
        end: u64::MAX,
    });
    let mut out = Vec::new();
    write_directive_into(b"sequence-region", value, &mut out).unwrap();

    assert_eq!(out, b"##sequence-region n 18446744073709551615 18446744073709551615");
}

#[test]
fn more_room_is_made_where_it_is_needed() {
    assert_eq!(encode(Set::Column, &[0; 1000]).unwrap(), b"%00".repeat(1000));
    assert_eq!(decode(&[b'a'; 3_000_000]), [b'a'; 3_000_000]);

    let line = [b"\t\t\t1\t1\t.\t.\t.\t", &b"=;".repeat(1000)[..]].concat();
    let sheet = Sheet::of_line(&line).unwrap();
    assert_eq!(sheet.attributes, vec![(Vec::new(), vec![Vec::new()]); 1000]);
    assert_eq!(Attributes(&sheet.line().unwrap()[13..]).into_iter().count(), 1000);
}

/// Four texts and a count of attributes take 20 bytes beside the name. The line has three for each of its bytes, 40 digits, eight tabs,
/// and one for each of score, strand, phase and attributes.
#[test]
fn the_longest_line_is_written() {
    let mut sheet = Sheet {
        reference_sequence_name: vec![0; 1_048_576 - 20],
        source: Vec::new(),
        ty: Vec::new(),
        start: u64::MAX,
        end: u64::MAX,
        attributes: Vec::new(),
        ..Sheet::of_line(LINE).unwrap()
    };
    assert_eq!(sheet.line().unwrap().len(), 3 * (1_048_576 - 20) + 40 + 8 + 4);

    sheet.source.push(b'a');
    assert_eq!(sheet.line(), Err(Refusal::TooLong));
}
