//! A text counted: the morning's sheet.

use std::fmt::{self, Display};

use crate::{Refusal, ffi};

/// The lines of a text by what they are, and how long its records are.
///
/// Records, directives, comments and refused lines add up to the lines that [`lines`](crate::lines) hands out; `lengths` and `reversed`
/// add up to the records. Printed, it is the sheet for the file: totals, refused lines by their numbers, and a bar for each power of two
/// in which lengths lie.
///
/// ```
/// let text = b"##gff-version 3\nsq0\t.\texon\t8\t13\t.\t+\t.\tID=a\nsq0\t.\texon\t9\t8\t.\t+\t.\t.\nsq0\texon\n";
/// let report = gff3_lines::report(text)?;
///
/// assert_eq!((report.records, report.directives, report.refused_columns), (2, 1, 1));
/// assert_eq!((report.reversed, report.sum, report.lengths[2]), (1, 6, 1));
/// assert_eq!(
///     report.to_string(),
///     "\
/// records         2
///   reversed      1
/// directives      1
/// comments        0
/// refused         1
///   by 1          1  the line has fewer than eight tabs, the bounds are not its own, or there is no such column
/// lines           4
/// sum of lengths  6
///   4 to 7        1  ########################################
/// "
/// );
/// # Ok::<(), gff3_lines::Refusal>(())
/// ```
#[derive(Clone, Debug, PartialEq, Eq)]
#[non_exhaustive]
pub struct Report {
    /// Lines that unfold, the reversed ones among them.
    pub records: u64,
    /// Lines that begin with `##`.
    pub directives: u64,
    /// Lines that begin with one `#`.
    pub comments: u64,
    /// Records whose start lies above their end.
    pub reversed: u64,
    /// The lengths of all other records, end minus start plus 1, added up.
    pub sum: u64,
    /// Lines refused by [`Refusal::TooLong`].
    pub refused_too_long: u64,
    /// Lines refused by [`Refusal::Columns`].
    pub refused_columns: u64,
    /// Lines refused by [`Refusal::Position`].
    pub refused_position: u64,
    /// Lines refused by [`Refusal::Score`].
    pub refused_score: u64,
    /// Lines refused by [`Refusal::Strand`].
    pub refused_strand: u64,
    /// Lines refused by [`Refusal::Phase`].
    pub refused_phase: u64,
    /// Lines refused by [`Refusal::Attribute`].
    pub refused_attribute: u64,
    /// Lines refused by [`Refusal::LineTooLong`], for one who counts a text that comes in parts; [`report`] answers 0 here.
    pub refused_line_too_long: u64,
    /// How many lengths lie in each power of two: `lengths[i]` counts those of at least 2^i and below 2^(i + 1).
    pub lengths: [u64; 64],
}

/// The report of a text. Refused by [`Refusal::Sum`] where the lengths add up to more than a [`u64`] holds.
///
/// ```
/// use gff3_lines::{Refusal, report};
///
/// let line = "sq0\t.\texon\t1\t18446744073709551615\t.\t+\t.\t.\n";
///
/// assert_eq!(report(line.as_bytes())?.lengths[63], 1);
/// assert_eq!(report(line.repeat(2).as_bytes()), Err(Refusal::Sum));
/// # Ok::<(), Refusal>(())
/// ```
pub fn report(text: &[u8]) -> Result<Report, Refusal> {
    // SAFETY: the text is a slice.
    let morning = unsafe { ffi::gff3_report(text.as_ptr(), text.len()) };
    Refusal::check(morning.refused)?;
    Ok(Report {
        records: morning.records,
        directives: morning.directives,
        comments: morning.comments,
        reversed: morning.reversed,
        sum: morning.sum,
        refused_too_long: morning.refused_too_long,
        refused_columns: morning.refused_columns,
        refused_position: morning.refused_position,
        refused_score: morning.refused_score,
        refused_strand: morning.refused_strand,
        refused_phase: morning.refused_phase,
        refused_attribute: morning.refused_attribute,
        refused_line_too_long: 0,
        lengths: morning.lengths,
    })
}

impl Report {
    /// All lines that were counted.
    ///
    /// ```
    /// assert_eq!(gff3_lines::report(b"# a\n\n##b\nc\n")?.lines(), 3);
    /// # Ok::<(), gff3_lines::Refusal>(())
    /// ```
    pub fn lines(&self) -> u64 {
        self.records + self.directives + self.comments + self.refused_lines()
    }

    /// The lines that were refused, whatever the number.
    ///
    /// ```
    /// assert_eq!(gff3_lines::report(b"# a\nb\nc\n")?.refused_lines(), 2);
    /// # Ok::<(), gff3_lines::Refusal>(())
    /// ```
    pub fn refused_lines(&self) -> u64 {
        self.refused().iter().map(|(_, count)| count).sum()
    }

    /// The eight reasons to refuse a line, in the order of their numbers, and how many lines each refuses.
    ///
    /// ```
    /// use gff3_lines::Refusal;
    ///
    /// let refused = gff3_lines::report(b"a\n")?.refused();
    ///
    /// assert_eq!(refused[0], (Refusal::Columns, 1));
    /// assert_eq!(refused[7], (Refusal::LineTooLong, 0));
    /// # Ok::<(), Refusal>(())
    /// ```
    pub fn refused(&self) -> [(Refusal, u64); 8] {
        [
            (Refusal::Columns, self.refused_columns),
            (Refusal::Position, self.refused_position),
            (Refusal::Strand, self.refused_strand),
            (Refusal::Phase, self.refused_phase),
            (Refusal::Attribute, self.refused_attribute),
            (Refusal::Score, self.refused_score),
            (Refusal::TooLong, self.refused_too_long),
            (Refusal::LineTooLong, self.refused_line_too_long),
        ]
    }

    /// Adds the report of another text. What comes out is the report of the one text behind the other, if the first is empty or ends by a
    /// line feed. Refused by [`Refusal::Sum`], and left as it is, where the lengths of both add up to more than a [`u64`] holds.
    ///
    /// ```
    /// use gff3_lines::report;
    ///
    /// let (first, second) = ("# a\nb\n", "sq0\t.\texon\t8\t13\t.\t+\t.\t.\n");
    /// let mut both = report(first.as_bytes())?;
    /// both.add(&report(second.as_bytes())?)?;
    ///
    /// assert_eq!(both, report([first, second].concat().as_bytes())?);
    /// # Ok::<(), gff3_lines::Refusal>(())
    /// ```
    pub fn add(&mut self, other: &Report) -> Result<(), Refusal> {
        self.sum = self.sum.checked_add(other.sum).ok_or(Refusal::Sum)?;
        self.records += other.records;
        self.directives += other.directives;
        self.comments += other.comments;
        self.reversed += other.reversed;
        self.refused_too_long += other.refused_too_long;
        self.refused_columns += other.refused_columns;
        self.refused_position += other.refused_position;
        self.refused_score += other.refused_score;
        self.refused_strand += other.refused_strand;
        self.refused_phase += other.refused_phase;
        self.refused_attribute += other.refused_attribute;
        self.refused_line_too_long += other.refused_line_too_long;
        for (length, more) in self.lengths.iter_mut().zip(other.lengths) {
            *length += more;
        }
        Ok(())
    }
}

/// A line of the sheet: what is counted, how many there are, and what stands behind that.
type Row = (String, u64, String);

/// The longest bar.
const BAR: u64 = 40;

/// A bar for a count, against the largest; not even the smallest is without a mark.
fn bar(count: u64, largest: u64) -> String {
    let marks = u128::from(BAR) * u128::from(count) / u128::from(largest);
    "#".repeat(marks.max(1) as usize)
}

impl Report {
    fn totals(&self) -> Vec<Row> {
        let row = |label: &str, count| (label.to_owned(), count, String::new());
        let refused = self.refused().into_iter().filter(|&(_, count)| count > 0);
        let mut rows = vec![
            row("records", self.records),
            row("  reversed", self.reversed),
            row("directives", self.directives),
            row("comments", self.comments),
            row("refused", self.refused_lines()),
        ];
        rows.extend(refused.map(|(refusal, count)| {
            let label = format!("  by {}", refusal.number());
            (label, count, refusal.reason().to_owned())
        }));
        rows.extend([row("lines", self.lines()), row("sum of lengths", self.sum)]);
        rows
    }

    fn powers(&self) -> impl Iterator<Item = Row> + '_ {
        let largest = self.lengths.iter().copied().max().unwrap_or(0);
        let counted = (0..).zip(self.lengths).filter(|&(_, count)| count > 0);
        counted.map(move |(power, count)| {
            let (first, last) = (1_u64 << power, u64::MAX >> (63 - power));
            let label = if power == 0 {
                "  1".to_owned()
            } else {
                format!("  {first} to {last}")
            };
            (label, count, bar(count, largest))
        })
    }
}

impl Display for Report {
    /// The sheet: one line each, with a line feed behind the last one too.
    fn fmt(&self, f: &mut fmt::Formatter<'_>) -> fmt::Result {
        let rows: Vec<Row> = self.totals().into_iter().chain(self.powers()).collect();
        let widest = rows.iter().map(|(label, _, _)| label.len()).max().unwrap_or(0);
        let digits = rows
            .iter()
            .map(|(_, count, _)| count.to_string().len())
            .max()
            .unwrap_or(0);
        for (label, count, words) in rows {
            let line = format!("{label:<widest$}  {count:>digits$}  {words}");
            writeln!(f, "{}", line.trim_end())?;
        }
        Ok(())
    }
}
