//! Samples of lines, kinds, comments and directives.

use oracle::io::api::lines;

use crate::Samples;

pub fn split(samples: &mut Samples) {
    samples.title("lines of a text (inner read_line)");

    for (text, expected) in [
        ("", "[]"),
        ("\n", "['']"),
        ("\r\n", "['']"),
        ("\r", r"['\r']"),
        ("a\r\r\nb\r", r"['a\r', 'b\r']"),
        ("a\n\nb", "['a', '', 'b']"),
        ("a\n \t\n", r"['a', ' \t']"),
        ("a\rb\n", r"['a\rb']"),
    ] {
        samples.of(text, lines::read_all_lines(text.as_bytes()), expected);
    }

    samples.title("lines of a text that have a byte (inner read_line, empty ones left out)");

    for (text, expected) in [
        ("\n\r\n\n", "[]"),
        ("\n \n\r\n\na\r\n\r\r\n\n\r", r"[' ', 'a', '\r', '\r']"),
    ] {
        samples.of(text, lines::read_lines(text.as_bytes()), expected);
    }

    samples.title("25: a line of 65,537 bytes, and how long it is as the Rust reads it");
    let long = vec![b'a'; 65_537];

    for (name, end) in [
        ("a line feed", "\n"),
        ("CR and a line feed", "\r\n"),
        ("the end of the text", ""),
    ] {
        let lines = lines::read_lines(&[&long, end.as_bytes()].concat());
        samples.of(name, lines.first().map_or(0, Vec::len), "65537");
    }

    samples.title("lines of a text (public reader, skips white space)");
    samples.of("a\n \t\n\nb", lines::read_lines_not_blank(b"a\n \t\n\nb"), "['a', 'b']");
}

pub fn kinds(samples: &mut Samples) {
    samples.title("kind: 0 directive, 1 comment, 2 record");

    for (text, expected) in [
        ("##a", "0"),
        ("##", "0"),
        ("###", "0"),
        ("#", "1"),
        ("# #", "1"),
        ("", "2"),
        (" #", "2"),
    ] {
        samples.of(text, lines::kind(text.as_bytes()), expected);
    }

    samples.title("comment text");

    for (text, expected) in [("#", "''"), ("#a", "'a'"), ("# a", "' a'"), ("##", "-"), ("a", "-")] {
        samples.of(text, lines::comment(text.as_bytes()), expected);
    }

    samples.title("directive: key, value");

    for (text, expected) in [
        ("##", "('', -)"),
        ("## ", "('', '')"),
        ("##gff-version 3", "('gff-version', '3')"),
        ("##gff-version  3", "('gff-version', ' 3')"),
        ("##k\tv w", "('k', 'v w')"),
        ("##k\x0cv", "('k', 'v')"),
        ("##k\x0bv", r"('k\x0bv', -)"),
        ("###", "('#', -)"),
        ("#a", "-"),
    ] {
        samples.of(text, lines::directive(text.as_bytes()), expected);
    }
}
