//! The time of one call, as the best of many short rounds.

use std::hint::black_box;
use std::time::{Duration, Instant};

/// The passes over all rows lie two seconds apart, and there are many, so that
/// a slow phase of the machine doesn't hold all rounds of one row.
pub const PASSES: usize = 24;

/// Rounds of each row in one pass.
pub const ROUNDS: usize = 12;

/// A round is so short that most of them run without an interruption.
const ROUND: Duration = Duration::from_micros(1_000);

/// Something that can be called many times in a row.
pub type Contender<'a> = Box<dyn FnMut(u64) + 'a>;

/// What the call gives counts as used, so that no call is left out.
pub fn contender<'a, R>(mut call: impl FnMut() -> R + 'a) -> Contender<'a> {
    Box::new(move |times| {
        for _ in 0..times {
            black_box(call());
        }
    })
}

/// One entry on one input, with those that are measured on it.
pub struct Row<'a> {
    pub entry: &'static str,
    pub input: &'static str,
    contenders: Vec<Contender<'a>>,
    /// Nanoseconds for one call of each contender: library, Rust, and where
    /// there is one, a third: C for the check.
    pub best: Vec<f64>,
}

impl<'a> Row<'a> {
    pub fn new(
        entry: &'static str,
        input: &'static str,
        contenders: Vec<Contender<'a>>,
    ) -> Row<'a> {
        let best = vec![f64::INFINITY; contenders.len()];
        Row {
            entry,
            input,
            contenders,
            best,
        }
    }

    /// The rounds alternate between the contenders, so that a slow phase meets
    /// all of them alike.
    fn pass(&mut self) {
        let times: Vec<u64> = self.contenders.iter_mut().map(calls).collect();
        for _ in 0..ROUNDS {
            for (index, contender) in self.contenders.iter_mut().enumerate() {
                let taken = time(contender, times[index]).as_nanos() as f64;
                self.best[index] = self.best[index].min(taken / times[index] as f64);
            }
        }
    }
}

/// Measures all rows, so many times.
pub fn measure(rows: &mut [Row], passes: usize) {
    for _ in 0..passes {
        rows.iter_mut().for_each(Row::pass);
    }
}

fn time(contender: &mut Contender, times: u64) -> Duration {
    let start = Instant::now();
    contender(times);
    start.elapsed()
}

/// How many calls fill a round; finding out warms up, too.
fn calls(contender: &mut Contender) -> u64 {
    let mut times = 1;
    while time(contender, times) < ROUND && times < 1 << 30 {
        times *= 2;
    }
    times
}
