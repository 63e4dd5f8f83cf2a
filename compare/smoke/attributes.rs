//! Samples of column 9.

use oracle::io::api::attributes;

use crate::Samples;

pub fn walks(samples: &mut Samples) {
    samples.title("walk: raw fields, and the place of refusal 5");

    for (text, expected) in [
        ("a=1;b;c=2", "[('a', '1'), ('b;c', '2')]"),
        ("a=1;", "[('a', '1')]"),
        ("a=1;b", "[('a', '1')] !5 at 4"),
        ("=", "[('', '')]"),
        ("a=1;;b=2", "[('a', '1'), (';b', '2')]"),
        ("a=1;;", "[('a', '1')] !5 at 4"),
        ("a=1;.", "[('a', '1')] !5 at 4"),
        ("a=b=c", "[('a', 'b=c')]"),
        (";", "[] !5 at 0"),
        (".", "[]"),
        ("", "[]"),
        ("..", "[] !5 at 0"),
    ] {
        samples.of(text, attributes::walk(text.as_bytes()), expected);
    }

    samples.title("one step: tag, value, bytes left");

    for (text, expected) in [
        ("a=1;b", "('a', '1', 1)"),
        ("a=1", "('a', '1', 0)"),
        ("b", "!5, 1 left"),
        (".", "!5, 1 left"),
        ("", "done"),
    ] {
        samples.of(text, attributes::step(text.as_bytes()), expected);
    }

    samples.title("attributes decoded");

    for (text, expected) in [
        ("a=x%2Cy", "[('a', 'x,y')]"),
        ("a=x,y", "[('a', ['x', 'y'])]"),
        ("a=,", "[('a', ['', ''])]"),
        ("%61=%2541;b", "[('a', '%41')] !5"),
        (".", "[]"),
    ] {
        samples.of(text, attributes::decoded(text.as_bytes()), expected);
    }

    samples.title("value by itself");

    for (text, expected) in [
        ("", "''"),
        ("a,", "['a', '']"),
        ("x%2Cy,z", "['x,y', 'z']"),
        ("a+b", "'a+b'"),
    ] {
        samples.of(text, attributes::parse_value(text.as_bytes()), expected);
    }

    samples.title("lookup of the tag a, and whether there is no attribute");

    for (text, expected) in [
        ("a=1;a=2", "('1', no)"),
        ("%61=", "('', no)"),
        ("a=1;b", "('1', no)"),
        ("b;c=1", "(-, no)"),
        ("b", "(!5, no)"),
        ("b=1;.", "(!5, no)"),
        ("b=1", "(-, no)"),
        (".", "(-, yes)"),
        ("", "(-, yes)"),
    ] {
        let column = text.as_bytes();
        let answers = (attributes::get(column, b"a"), attributes::is_empty(column));
        samples.of(text, answers, expected);
    }

    samples.title("lookup of the tag %61, which is not decoded");
    samples.of("%61=1", attributes::get(b"%61=1", b"%61"), "-");
    samples.of("%2561=1", attributes::get(b"%2561=1", b"%61"), "'1'");
}
