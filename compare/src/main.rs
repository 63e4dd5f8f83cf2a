//! Compares the library, called by its C functions, with the Rust, on many texts.
//!
//!     compare [--seconds N | --cases N] [--seed S] [--only GROUP]
//!
//! The calls are in groups, each of which has a thread of its own. First each sweeps over lengths, places, limits and orders of
//! refusals, to the end; then it takes every short text, in order of length, while half of the N seconds are not over; and when
//! all are through, random texts, until the N seconds are over or it has had N cases. A random case depends on the seed, its
//! group and its number alone.
//!
//! The first difference of each function is printed with the smallest input that was found; then what each group did, and the
//! comparisons of each function, by who decided them. The last line is `N comparisons, D differences`. The status is 1 where D
//! is not 0, or where the sweeps left no time for anything else.

mod attributes;
mod case;
mod coding;
mod columns;
mod desk;
mod directives;
mod fence;
mod hold;
mod lines;
mod marks;
mod morning;
mod numbers;
mod options;
mod ours;
mod parts;
mod records;
mod report;
mod score;
mod sheet;
mod shrink;
mod texts;
mod unfolding;
mod watch;

use std::{
    env,
    process::ExitCode,
    sync::Barrier,
    thread,
    time::{Duration, Instant},
};

use options::{End, Options};
use report::{Counts, Report};
use texts::Dice;

/// The length up to which some group tries every text of an alphabet.
const EVERY: usize = 12;

struct Group {
    name: &'static str,
    every: fn(&mut Report, usize),
    sweep: fn(&mut Report),
    random: fn(&mut Report, &mut Dice),
}

/// A group and its number among all, so that a case is the same when its group is run alone.
type Numbered = (u64, &'static Group);

macro_rules! groups {
    ($($name:ident),*) => {
        [$(Group {
            name: stringify!($name),
            every: $name::every,
            sweep: $name::sweep,
            random: $name::random,
        }),*]
    };
}

static GROUPS: [Group; 10] = groups![
    lines, columns, attributes, directives, coding, unfolding, records, marks, parts, morning
];

/// What a group did.
struct Done {
    name: &'static str,
    counts: Counts,
    /// The comparisons of the sweep, and when it ended.
    swept: u64,
    swept_at: Duration,
    /// Every text of fewer bytes was taken.
    every: usize,
    cases: u64,
}

fn main() -> ExitCode {
    let names: Vec<&str> = GROUPS.iter().map(|group| group.name).collect();
    let options = match Options::read(env::args().skip(1), &names) {
        Ok(options) => options,
        Err(what) => {
            eprintln!("compare: {what}");
            eprintln!(
                "usage: compare [--seconds N | --cases N] [--seed S] [--only {}]",
                names.join("|")
            );
            return ExitCode::from(2);
        }
    };

    let groups: Vec<Numbered> = (0..)
        .zip(&GROUPS)
        .filter(|(_, group)| options.only.as_ref().is_none_or(|only| only == group.name))
        .collect();
    let run = Run {
        options,
        started: Instant::now(),
        together: Barrier::new(groups.len()),
    };
    let all = run.groups(&groups);
    let mut counts = Counts::new();
    all.iter().for_each(|done| counts.add(&done.counts));
    let is_late = run.print(&all);
    counts.print();
    ExitCode::from(u8::from(counts.differ() > 0 || is_late))
}

/// What all groups share.
struct Run {
    options: Options,
    started: Instant,
    together: Barrier,
}

impl Run {
    /// Whether so many times the time so far is more than was given.
    fn is_over(&self, times: u32) -> bool {
        matches!(self.options.end, End::Seconds(n) if (self.started.elapsed() * times).as_secs() >= n)
    }

    /// All groups, each in a thread of its own.
    fn groups(&self, groups: &[Numbered]) -> Vec<Done> {
        watch::start();
        let all = thread::scope(|scope| {
            let threads: Vec<_> = groups
                .iter()
                .map(|&numbered| scope.spawn(move || self.group(numbered)))
                .collect();
            let done = threads
                .into_iter()
                .map(|thread| thread.join().expect("no thread panics"));
            done.collect()
        });
        watch::stop();
        all
    }

    /// One group: its sweep, its short texts, its random texts.
    fn group(&self, (place, group): Numbered) -> Done {
        watch::takes(place);
        let mut report = Report::new();
        report.stage(format!("{}: sweep over lengths and places", group.name));
        (group.sweep)(&mut report);
        let swept = report.counts.compared();
        let swept_at = self.started.elapsed();
        self.wait();
        let mut every = 0;

        while every <= EVERY && !self.is_over(2) {
            report.stage(format!("{}: every text of {every} bytes of an alphabet", group.name));
            (group.every)(&mut report, every);
            every += 1;
        }

        self.wait();
        let cases = self.at_random(&mut report, (place, group));
        watch::rests();

        Done {
            name: group.name,
            counts: report.counts,
            swept,
            swept_at,
            every,
            cases,
        }
    }

    /// Until all groups have come as far.
    fn wait(&self) {
        watch::rests();
        self.together.wait();
    }

    /// Random cases of a group, and how many there were.
    fn at_random(&self, report: &mut Report, (place, group): Numbered) -> u64 {
        let seed = self.options.seed;
        let cases = match self.options.end {
            End::Cases(n) => n,
            End::Seconds(_) => u64::MAX,
        };
        let mut number = 0;

        while number < cases && !self.is_over(1) {
            report.stage(format!("{}: case {number} of seed {seed}", group.name));
            (group.random)(report, &mut Dice::new([seed, place, number]));
            number += 1;
        }

        number
    }

    /// Prints what each group did; whether the time was over before short and random texts.
    fn print(&self, all: &[Done]) -> bool {
        println!(
            "{:<12} {:>14} {:>10} {:>20} {:>14}",
            "group", "sweep", "ended", "every short text", "random cases"
        );

        for done in all {
            let every = match done.every {
                0 => "none".to_owned(),
                n if n > EVERY => "all".to_owned(),
                n => format!("up to {} bytes", n - 1),
            };
            let at = format!("{:.1} s", done.swept_at.as_secs_f64());
            println!(
                "{:<12} {:>14} {at:>10} {every:>20} {:>14}",
                done.name, done.swept, done.cases
            );
        }

        println!(
            "seed {}, {:.1} s in all\n",
            self.options.seed,
            self.started.elapsed().as_secs_f64()
        );
        let is_late = all.iter().any(|done| done.every == 0 || done.cases == 0) && self.is_over(1);

        if is_late {
            println!("the time was over before each group had short and random texts: give more seconds\n");
        }

        is_late
    }
}
