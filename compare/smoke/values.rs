//! Samples of the three typed values of directives.

use oracle::io::api::values;

use crate::Samples;

pub fn typed_values(samples: &mut Samples) {
    samples.title("version: major, minor, patch");

    for (text, expected) in [
        ("3.1.26", "(3, 1, 26)"),
        ("3.1.26.4", "!9"),
        ("3.", "!8"),
        ("3.1.", "!9"),
        ("+3", "(3, -, -)"),
        ("-3", "!7"),
        ("-0", "!7"),
        ("+", "!7"),
        ("", "!6"),
        (".", "!7"),
        (" 3", "!7"),
        ("2", "(2, -, -)"),
        ("000000000000000000000003", "(3, -, -)"),
        ("4294967295", "(4294967295, -, -)"),
        ("4294967296", "!7"),
    ] {
        samples.of(text, values::parse_version(text), expected);
    }

    samples.title("region: name, start, end");

    for (text, expected) in [
        ("sq0 8 13", "('sq0', 8, 13)"),
        (" sq0\t8\r\n13 x", "('sq0', 8, 13)"),
        ("sq0 +8 013", "('sq0', 8, 13)"),
        ("sq0 13 8", "('sq0', 13, 8)"),
        ("%41 8 13", "('%41', 8, 13)"),
        (" ", "!10"),
        ("", "!6"),
        ("sq0", "!11"),
        ("sq0 8", "!13"),
        ("sq0 0 9", "!12"),
        ("sq0 x", "!12"),
        ("sq0 -0 9", "!12"),
        ("sq0 9 0", "!14"),
        ("sq0 1 18446744073709551615", "('sq0', 1, 18446744073709551615)"),
        ("sq0 1 18446744073709551616", "!14"),
        ("sq0\x0b8 9", "!13"),
    ] {
        samples.of(text, values::parse_region(text), expected);
    }

    samples.title("build: source, name");

    for (text, expected) in [
        ("NDLS r1", "('NDLS', 'r1')"),
        ("NDLS r1 x", "('NDLS', 'r1')"),
        ("NDLS", "!16"),
        (" ", "!15"),
        ("", "!6"),
    ] {
        samples.of(text, values::parse_build(text), expected);
    }
}
