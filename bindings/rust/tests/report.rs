//! A text counted.

use gff3_lines::{Refusal, Report, lines, report};

/// A record's line, from one position to another.
fn record(start: u64, end: u64) -> String {
    format!("sq0\tlab\texon\t{start}\t{end}\t.\t+\t.\tID=a\n")
}

fn counted(text: &str) -> Report {
    report(text.as_bytes()).unwrap()
}

/// The powers of two in which lengths lie, with their counts.
fn powers(report: &Report) -> Vec<(usize, u64)> {
    let counts = report.lengths.iter().copied().enumerate();
    counts.filter(|&(_, count)| count > 0).collect()
}

#[test]
fn no_text_has_nothing() {
    for text in ["", "\n", "\r\n\n"] {
        let report = counted(text);
        assert_eq!((report.lines(), report.sum, powers(&report)), (0, 0, vec![]));
    }
}

#[test]
fn each_line_is_counted_once() {
    let [directive, comment, blank] = ["##gff-version x\n", "# a\r\n", "\r\n"];
    let text = [
        directive,
        comment,
        &record(8, 13),
        blank,
        &record(9, 8),
        &record(2, 2),
        "x\n",
        "##",
    ]
    .concat();
    let report = counted(&text);

    assert_eq!((report.records, report.directives, report.comments), (3, 2, 1));
    assert_eq!((report.reversed, report.sum, report.refused_lines()), (1, 7, 1));
    assert_eq!(powers(&report), [(0, 1), (2, 1)]);
    assert_eq!(report.lines(), lines(text.as_bytes()).count() as u64);
}

#[test]
fn each_refusal_has_its_count() {
    let long = format!("sq0\t.\tg\t8\t13\t.\t+\t.\ta={}", "a".repeat(4_194_304));
    let cases = [
        (Refusal::TooLong, long.as_str()),
        (Refusal::Columns, "sq0\t.\tg\t8\t13\t.\t+\t."),
        (Refusal::Position, "sq0\t.\tg\t0\t13\t.\t+\t.\ta=1"),
        (Refusal::Position, "sq0\t.\tg\t8\t18446744073709551616\t.\t+\t.\ta=1"),
        (Refusal::Score, "sq0\t.\tg\t8\t13\tx\t+\t.\ta=1"),
        (Refusal::Strand, "sq0\t.\tg\t8\t13\t.\t\t.\ta=1"),
        (Refusal::Phase, "sq0\t.\tg\t8\t13\t.\t+\t3\ta=1"),
        (Refusal::Attribute, "sq0\t.\tg\t8\t13\t.\t+\t.\ta=1;b"),
    ];

    for (refusal, line) in cases {
        let report = counted(&format!("# a\n{line}\n{line}\n{}", record(1, 4)));
        let refused = report.refused();
        let by = refused.iter().filter(|(_, count)| *count > 0).collect::<Vec<_>>();

        assert_eq!(by, [&(refusal, 2)]);
        assert_eq!((report.lines(), report.records, report.sum), (4, 1, 4));
    }
}

#[test]
fn a_long_comment_is_one() {
    let report = counted(&format!("##{0}\n#{0}\n", "a".repeat(4_194_304)));
    assert_eq!((report.directives, report.comments, report.lines()), (1, 1, 2));
}

#[test]
fn lengths_lie_in_the_power_they_have_reached() {
    for power in 0..64 {
        let least = 1 << power;
        let most = least + (least - 1);

        for length in [least, most] {
            for (start, end) in [(1, length), (u64::MAX - length + 1, u64::MAX)] {
                let report = counted(&record(start, end));
                assert_eq!((report.sum, powers(&report)), (length, vec![(power, 1)]));
            }
        }
    }
}

#[test]
fn the_sum_may_be_the_largest_number_and_no_more() {
    let [half, rest, one] = [record(1, 1 << 63), record(2, 1 << 63), record(5, 5)];
    let most = [half.as_str(), "x\n", &record(u64::MAX, 1), &rest].concat();

    assert_eq!(counted(&most).sum, u64::MAX);
    assert_eq!(report(format!("{most}{one}").as_bytes()), Err(Refusal::Sum));
    assert_eq!(report(format!("{one}{most}").as_bytes()), Err(Refusal::Sum));
    assert_eq!(
        Refusal::Sum.to_string(),
        "the lengths add up to more than 18446744073709551615 (refusal 26)"
    );
}

#[test]
fn reports_of_pieces_add_up() {
    let lines = [
        "##a\n",
        "#b\n",
        "\n",
        &record(1, 3),
        &record(9, 8),
        "c\n",
        &record(1, 300),
        "sq0\t.\tg\t0\t1\t.\t.\t.\t.\n",
    ];
    let whole = counted(&lines.concat());

    for place in 0..=lines.len() {
        let (first, second) = lines.split_at(place);
        let mut both = counted(&first.concat());
        assert_eq!(both.add(&counted(&second.concat())), Ok(()));
        assert_eq!(both, whole);
    }
}

#[test]
fn a_sum_that_passes_leaves_the_report_as_it_is() {
    let mut report = counted(&record(1, u64::MAX));
    let before = report.clone();

    assert_eq!(report.add(&counted(&record(5, 5))), Err(Refusal::Sum));
    assert_eq!(report, before);
    assert_eq!(report.add(&counted(&record(5, 4))), Ok(()));
    assert_eq!((report.records, report.reversed, report.sum), (2, 1, u64::MAX));
}

#[test]
fn lines_too_long_for_a_hold_are_refused_ones() {
    let mut report = counted("c\n");
    report.refused_line_too_long = 2;

    assert_eq!((report.refused_lines(), report.lines()), (3, 3));
    assert!(
        report
            .to_string()
            .contains("by 25         2  the line has more than 65,536 bytes\n")
    );
}

#[test]
fn many_lines() {
    let text = ["##a\n", "#b\n", &record(1, 3), &record(1, 300), "c\n"]
        .concat()
        .repeat(100_000);
    let report = counted(&text);

    assert_eq!(
        (report.records, report.directives, report.comments),
        (200_000, 100_000, 100_000)
    );
    assert_eq!((report.refused_columns, report.sum), (100_000, 30_300_000));
    assert_eq!(powers(&report), [(1, 100_000), (8, 100_000)]);
}

#[test]
fn the_sheet() {
    let text = [record(1, 1).repeat(3), record(1, u64::MAX - 3), "x\n".repeat(12)].concat();

    assert_eq!(
        counted(&text).to_string(),
        "\
records                                                           4
  reversed                                                        0
directives                                                        0
comments                                                          0
refused                                                          12
  by 1                                                           12  \
the line has fewer than eight tabs, the bounds are not its own, or there is no such column
lines                                                            16
sum of lengths                                 18446744073709551615
  1                                                               3  ########################################
  9223372036854775808 to 18446744073709551615                     1  #############
"
    );
}
