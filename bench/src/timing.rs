//! Two pieces of work, timed in turn.

use std::time::{Duration, Instant};

/// One side's time is taken over at least so long.
const STRETCH: Duration = Duration::from_millis(4);
const ROUNDS: usize = 41;

/// What one call takes on either side, in nanoseconds, and ours divided by theirs.
pub struct Measured {
    pub ours: f64,
    pub theirs: f64,
    pub ratio: f64,
    pub low: f64,
    pub high: f64,
}

fn passes(work: &mut dyn FnMut()) -> u32 {
    let mut passes = 1;
    loop {
        if timed(work, passes) >= STRETCH {
            return passes;
        }
        passes *= 2;
    }
}

fn timed(work: &mut dyn FnMut(), passes: u32) -> Duration {
    let start = Instant::now();
    for _ in 0..passes {
        work();
    }
    start.elapsed()
}

fn sorted(mut numbers: Vec<f64>) -> Vec<f64> {
    numbers.sort_by(f64::total_cmp);
    numbers
}

/// Both pieces make `calls` calls. They take turns, so that what slows the machine slows both; a ratio is of two
/// neighbours. Given are the medians, and between which ratios four of five rounds lie.
pub fn measure(calls: usize, ours: &mut dyn FnMut(), theirs: &mut dyn FnMut()) -> Measured {
    let (our_passes, their_passes) = (passes(ours), passes(theirs));
    let each = |time: Duration, passes: u32| time.as_nanos() as f64 / f64::from(passes) / calls as f64;
    let rounds: Vec<(f64, f64)> = (0..ROUNDS)
        .map(|_| (each(timed(ours, our_passes), our_passes), each(timed(theirs, their_passes), their_passes)))
        .collect();
    let ratios = sorted(rounds.iter().map(|(ours, theirs)| ours / theirs).collect());
    Measured {
        ours: sorted(rounds.iter().map(|round| round.0).collect())[ROUNDS / 2],
        theirs: sorted(rounds.iter().map(|round| round.1).collect())[ROUNDS / 2],
        ratio: ratios[ROUNDS / 2],
        low: ratios[ROUNDS / 10],
        high: ratios[ROUNDS - 1 - ROUNDS / 10],
    }
}
