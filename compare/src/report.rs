//! The run: comparisons counted by function, and differences shown by the smallest input that was found.

use crate::{
    case::{By, Case, Verdict},
    desk::Desk,
    shrink::smallest,
    watch,
};

macro_rules! calls {
    ($($call:ident = $name:literal),*) => {
        /// A function of the library.
        #[derive(Clone, Copy, Debug, Eq, PartialEq)]
        pub enum Call {
            $($call),*
        }

        impl Call {
            pub const ALL: &[Self] = &[$(Self::$call),*];

            pub fn name(self) -> &'static str {
                match self {
                    $(Self::$call => $name),*
                }
            }
        }
    };
}

calls! {
    NextLine = "gff3_next_line",
    Kind = "gff3_kind",
    Comment = "gff3_comment",
    Directive = "gff3_directive",
    TakePart = "gff3_take_part",
    EndParts = "gff3_end_parts",
    Index = "gff3_index",
    Record = "gff3_record",
    Column = "gff3_column",
    Start = "gff3_start",
    End = "gff3_end",
    Strand = "gff3_strand",
    Phase = "gff3_phase",
    Score = "gff3_score",
    Text = "gff3_text",
    NextField = "gff3_next_field",
    NextValue = "gff3_next_value",
    FindTag = "gff3_find_tag",
    NoAttributes = "gff3_no_attributes",
    Version = "gff3_version",
    Region = "gff3_region",
    Build = "gff3_build",
    Decode = "gff3_decode",
    Encode = "gff3_encode",
    Position = "gff3_position",
    Judge = "gff3_judge",
    Unfold = "gff3_unfold",
    WriteRecord = "gff3_write_record",
    WriteDirective = "gff3_write_directive",
    WriteComment = "gff3_write_comment",
    Report = "gff3_report"
}

/// Makes one call, and compares its answer.
pub type Check = fn(&mut Desk, Case<'_>) -> Verdict;

#[derive(Clone, Copy, Default)]
struct Tally {
    rust: u64,
    checker: u64,
    differ: u64,
}

impl Tally {
    fn add(&mut self, other: &Self) {
        self.rust += other.rust;
        self.checker += other.checker;
        self.differ += other.differ;
    }

    fn print(&self, name: &str) {
        println!("{name:<22} {:>14} {:>14} {:>14}", self.rust, self.checker, self.differ);
    }
}

/// The comparisons of each function.
pub struct Counts(Vec<Tally>);

impl Counts {
    pub fn new() -> Self {
        Self(vec![Tally::default(); Call::ALL.len()])
    }

    fn all(&self) -> Tally {
        let mut all = Tally::default();
        self.0.iter().for_each(|tally| all.add(tally));
        all
    }

    pub fn compared(&self) -> u64 {
        let all = self.all();
        all.rust + all.checker
    }

    pub fn differ(&self) -> u64 {
        self.all().differ
    }

    pub fn add(&mut self, other: &Self) {
        for (tally, other) in self.0.iter_mut().zip(&other.0) {
            tally.add(other);
        }
    }

    /// The counts by function and by who decided, and the last line.
    pub fn print(&self) {
        println!(
            "{:<22} {:>14} {:>14} {:>14}",
            "function", "by the Rust", "by the checker", "differences"
        );

        for (call, tally) in Call::ALL.iter().zip(&self.0) {
            tally.print(call.name());
        }

        self.all().print("all");
        println!("{} comparisons, {} differences", self.compared(), self.differ());
    }
}

pub struct Report {
    desk: Desk,
    pub counts: Counts,
    /// What is under way, for whoever wants to see a difference again.
    stage: String,
}

impl Report {
    pub fn new() -> Self {
        Self {
            desk: Desk::new(),
            counts: Counts::new(),
            stage: String::new(),
        }
    }

    pub fn stage(&mut self, stage: String) {
        self.stage = stage;
    }

    /// Compares one call. The first difference of a function is shown, all of them are counted.
    pub fn check(&mut self, call: Call, case: Case<'_>, check: Check) {
        watch::begins(call, case);
        self.desk.turn();
        let verdict = check(&mut self.desk, case);
        let tally = &mut self.counts.0[call as usize];

        match verdict.by {
            By::Rust => tally.rust += 1,
            By::Checker => tally.checker += 1,
        }

        if verdict.compared.is_err() {
            tally.differ += 1;

            if tally.differ == 1 {
                self.show(call, case, check);
            }
        }
    }

    fn show(&mut self, call: Call, case: Case<'_>, check: Check) {
        let desk = &mut self.desk;
        let mut differs = |case: Case<'_>| {
            watch::begins(call, case);
            // In every way that memory is lent, since the difference may need one of them.
            (0..Desk::WAYS).find_map(|way| {
                desk.take(way);
                check(desk, case).compared.err()
            })
        };

        let least = smallest(case, |case| differs(case).is_some());
        let answers = match differs(least.case()) {
            Some(difference) => format!("  ours     {}\n  expected {}", difference.ours, difference.expected),
            None => "  the same when called again: the answer depends on more than the input".to_owned(),
        };
        // In one piece, since each group has a thread.
        println!(
            "DIFFERENCE in {} ({})\n{}{answers}\n",
            call.name(),
            self.stage,
            least.case()
        );
    }
}
