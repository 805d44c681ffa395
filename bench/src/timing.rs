//! Times, as the least of many rounds.

use std::array;
use std::hint::black_box;
use std::time::{Duration, Instant};

use independent::report::LONGEST_LINE;

use crate::cases::Case;
use crate::programs::{REWRITES, Reported};

/// Microseconds that the programs take, in the order of their names.
pub type Times = Vec<f64>;

const ROUNDS: usize = 150;

/// The least time of each job over the rounds, in which the jobs take turns.
fn least(jobs: usize, mut job: impl FnMut(usize)) -> Times {
    let mut best = vec![Duration::MAX; jobs];
    for _ in 0..ROUNDS {
        for (number, best) in best.iter_mut().enumerate() {
            let begun = Instant::now();
            let mut made = 0;
            while made < 3 || begun.elapsed() < Duration::from_micros(500) {
                job(number);
                made += 1;
            }
            *best = (*best).min(begun.elapsed() / made);
        }
    }
    best.iter().map(|time| time.as_secs_f64() * 1e6).collect()
}

/// One report on each case, all of them in the same rounds.
pub fn report_times<F: Reported, const N: usize>(cases: [&Case; N]) -> [Times; N] {
    let programs = F::REPORTS.len();
    let mut out = [0; LONGEST_LINE];
    let times = least(N * programs, |job| {
        let case = cases[job / programs];
        black_box(F::REPORTS[job % programs](&case.first, &case.second, &mut out));
    });
    array::from_fn(|case| times[case * programs..][..programs].to_vec())
}

/// Reading and writing a text.
pub fn rewrite_times(text: &[u8]) -> Times {
    let mut out = vec![0; text.len()];
    least(REWRITES.len(), |program| {
        black_box(REWRITES[program](text, &mut out));
    })
}

/// What is left of times without other times, which are of a part of the same job.
pub fn without(whole: &[f64], part: &[f64]) -> Times {
    whole.iter().zip(part).map(|(whole, part)| (whole - part).max(0.0)).collect()
}
