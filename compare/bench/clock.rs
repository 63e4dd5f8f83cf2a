//! Times of calls that take turns.

use std::{
    hint::black_box,
    time::{Duration, Instant},
};

/// A count and a sum, which show that all the work was done.
pub type Sum = (u64, u64);

/// What is timed.
pub type Call<'a> = Box<dyn FnMut() -> Sum + 'a>;

/// The seconds of one call, by rounds, the least first.
pub struct Times(Vec<f64>);

impl Times {
    pub fn least(&self) -> f64 {
        self.0[0]
    }

    pub fn median(&self) -> f64 {
        let count = self.0.len();
        (self.0[(count - 1) / 2] + self.0[count / 2]) / 2.0
    }
}

/// Rounds of calls, each repeated until its round takes this long. Who is first changes from round to round, so that neither always
/// finds the caches warm. All must come to the same sum.
pub fn in_turn<const N: usize>(rounds: usize, round: Duration, mut calls: [Call<'_>; N]) -> Result<[Times; N], String> {
    let mut sums = [(0, 0); N];
    let mut counts = [0; N];

    for (i, call) in calls.iter_mut().enumerate() {
        sums[i] = call();
        counts[i] = repetitions(round, call);
    }

    if sums.iter().any(|&sum| sum != sums[0]) {
        return Err(format!("ours and the Rust's do not come to the same: {sums:?}"));
    }

    let mut times = [const { Vec::new() }; N];

    for round in 0..rounds {
        for place in 0..N {
            let i = if round % 2 == 0 { place } else { N - 1 - place };
            times[i].push(seconds(&mut calls[i], counts[i], sums[i]));
        }
    }

    Ok(times.map(|mut times| {
        times.sort_by(f64::total_cmp);
        Times(times)
    }))
}

/// How often a call is made in a round, by the time that one takes.
fn repetitions(round: Duration, call: &mut Call<'_>) -> u32 {
    let start = Instant::now();
    black_box(call());
    let one = start.elapsed().as_nanos().max(1);
    round.as_nanos().div_ceil(one).try_into().unwrap_or(u32::MAX)
}

/// The time of one call among so many.
fn seconds(call: &mut Call<'_>, count: u32, sum: Sum) -> f64 {
    let start = Instant::now();

    for _ in 0..count {
        assert_eq!(black_box(call()), sum, "a call comes to another sum when repeated");
    }

    start.elapsed().as_secs_f64() / f64::from(count)
}
