//! The words of the command line. The help, the manual page and the completions are all made of these.

use std::path::PathBuf;

use clap::{Args, Parser, Subcommand, ValueEnum, builder::PossibleValue};
use clap_complete::Shell;

/// Checks, rewrites and counts GFF3 files of any size.
///
/// Lines are read, judged and written by a library whose every function is proved to keep its rules. A FILE that is `-`, or none, is
/// standard input. What is compressed by gzip or bgzip is unpacked, by its first bytes and not by its name. Blank lines are skipped.
#[derive(Parser)]
#[command(name = "gff3", version, after_help = STATUS, after_long_help = format!("{STATUS}\n\n{EXAMPLES}"))]
pub struct Options {
    #[command(subcommand)]
    pub command: Command,

    /// When to use colours
    #[arg(long, global = true, value_enum, value_name = "WHEN", default_value_t = Color::Auto)]
    pub color: Color,
}

/// How the command ends.
pub const STATUS: &str = "\
Status: 0 where no line is refused, 1 where one is, 2 for trouble: a file that cannot be read, an output that cannot be written, \
compressed data that is cut off.";

/// Calls that are made often.
pub const EXAMPLES: &str = "\
Examples:
  gff3 check panel.gff3.gz
  gff3 check --off cut,percent --max 20 *.gff3
  gff3 check --format tsv panel.gff3 | cut -f 2,5,6
  gff3 rewrite panel.gff3 -o panel.gff3
  gff3 rewrite --refused drop panel.gff3.gz | bgzip >clean.gff3.gz
  gff3 count *.gff3";

#[derive(Subcommand)]
pub enum Command {
    /// Says which lines are refused, and why, and what a person would want to know before ordering
    ///
    /// Each refused line is said with its number, its column, the reason and its text; then warnings, for what the rules let pass; at the
    /// end the counts, by reason. Warnings do not change the status.
    Check(Check),

    /// Writes each record again in one agreed form, and leaves every other line as it is
    ///
    /// A refused line is said on standard error. OUT is written beside its place and moved there when it is whole; it may be FILE.
    Rewrite(Rewrite),

    /// The morning's sheet: lines by what they are, and how long the records are
    ///
    /// For each file its records, directives, comments and refused lines, the exact sum of the lengths of its records, and a bar for each
    /// power of two in which lengths lie.
    Count(Count),

    /// Writes a script that completes the words of this command in a shell
    Completions {
        /// The shell
        #[arg(value_enum)]
        shell: Shell,
    },

    /// Writes the manual page, for `man -l -`
    Manual,
}

#[derive(Args)]
pub struct Check {
    /// The files; standard input where there is none
    #[arg(value_name = "FILE")]
    pub files: Vec<PathBuf>,

    /// What is printed: for people, or for machines a line each
    #[arg(long, value_enum, value_name = "FORMAT", default_value_t = Format::Text)]
    pub format: Format,

    /// Switch warnings off by name, several with commas between them
    ///
    /// `gtf` and `fasta` stand for refused lines, too, and are said once for a file: switched off, each such line is said by itself.
    #[arg(long, value_enum, value_name = "NAME", value_delimiter = ',')]
    pub off: Vec<Warning>,

    #[command(flatten)]
    pub limits: Limits,
}

#[derive(Args)]
pub struct Rewrite {
    /// The file; standard input where there is none
    #[arg(value_name = "FILE")]
    pub file: Option<PathBuf>,

    /// Where to write; standard output where it is `-` or not given
    #[arg(short, long, value_name = "OUT")]
    pub output: Option<PathBuf>,

    /// What becomes of a refused line
    #[arg(long, value_enum, value_name = "WHAT", default_value_t = Fate::Mark)]
    pub refused: Fate,

    #[command(flatten)]
    pub limits: Limits,
}

#[derive(Args)]
pub struct Count {
    /// The files; standard input where there is none
    #[arg(value_name = "FILE")]
    pub files: Vec<PathBuf>,

    /// What is printed: for people, or for machines a line each
    #[arg(long, value_enum, value_name = "FORMAT", default_value_t = Format::Text)]
    pub format: Format,
}

/// How much is said of what is found.
#[derive(Args, Clone, Copy)]
pub struct Limits {
    /// Say at most N lines of each file; all are counted
    #[arg(long, value_name = "N", default_value_t = u64::MAX, hide_default_value = true)]
    pub max: u64,

    /// Say nothing: the status tells
    #[arg(short, long)]
    pub quiet: bool,
}

#[derive(Clone, Copy, PartialEq, Eq, ValueEnum)]
pub enum Color {
    /// On a terminal, unless NO_COLOR is set
    Auto,
    /// Wherever it goes
    Always,
    /// Nowhere
    Never,
}

#[derive(Clone, Copy, PartialEq, Eq, ValueEnum)]
pub enum Format {
    /// For people
    Text,
    /// Columns with tabs between them, and a line that names them
    Tsv,
    /// A JSON object a line
    Json,
}

/// What becomes of a refused line.
#[derive(Clone, Copy, PartialEq, Eq, ValueEnum)]
pub enum Fate {
    /// `! ` and the number of the reason, as the rewriting program has it
    Mark,
    /// The line as it is
    Keep,
    /// Nothing
    Drop,
}

/// What the rules let pass, and a person would want to know. Each is said by its name.
#[derive(Clone, Copy, Debug, PartialEq, Eq)]
pub enum Warning {
    TagSemicolon,
    TagSpace,
    ExtraColumns,
    Reversed,
    PhaseMissing,
    Gtf,
    Percent,
    Utf8,
    Directive,
    Fasta,
    Cut,
}

impl Warning {
    pub const ALL: [Warning; 11] = [
        Warning::TagSemicolon,
        Warning::TagSpace,
        Warning::ExtraColumns,
        Warning::Reversed,
        Warning::PhaseMissing,
        Warning::Gtf,
        Warning::Percent,
        Warning::Utf8,
        Warning::Directive,
        Warning::Fasta,
        Warning::Cut,
    ];

    pub fn name(self) -> &'static str {
        match self {
            Warning::TagSemicolon => "tag-semicolon",
            Warning::TagSpace => "tag-space",
            Warning::ExtraColumns => "extra-columns",
            Warning::Reversed => "reversed",
            Warning::PhaseMissing => "phase-missing",
            Warning::Gtf => "gtf",
            Warning::Percent => "percent",
            Warning::Utf8 => "utf8",
            Warning::Directive => "directive",
            Warning::Fasta => "fasta",
            Warning::Cut => "cut",
        }
    }

    pub fn words(self) -> &'static str {
        match self {
            Warning::TagSemicolon => "a tag holds a semicolon",
            Warning::TagSpace => "a tag begins or ends with a space",
            Warning::ExtraColumns => "more than nine columns, folded into column 9",
            Warning::Reversed => "the start lies above the end",
            Warning::PhaseMissing => "a CDS without a phase reads, and cannot be written",
            Warning::Gtf => "looks like GTF, and not like GFF3",
            Warning::Percent => "a percent sign begins no escape",
            Warning::Utf8 => "bytes that are not UTF-8",
            Warning::Directive => "a version other than 3, or the value of a directive is not valid",
            Warning::Fasta => "sequence behind ##FASTA, whose lines are not GFF3",
            Warning::Cut => "the end is missing: the transfer may have been cut off",
        }
    }
}

impl ValueEnum for Warning {
    fn value_variants<'a>() -> &'a [Self] {
        &Self::ALL
    }

    fn to_possible_value(&self) -> Option<PossibleValue> {
        Some(PossibleValue::new(self.name()).help(self.words()))
    }
}
