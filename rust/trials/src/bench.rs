//! `trials bench`: a judge's time beside the reference's, on the same bytes,
//! in turn, the best of many.

use crate::bench_pieces;
use crate::drawn::AMPLE;
use crate::judge::Judge;
use crate::rows::{self, Input};
use crate::run::compare;
use maker::cases::Job;
use std::hint::black_box;
use std::time::{Duration, Instant};

/// How long one input is measured, and how often at least.
const PATIENCE: Duration = Duration::from_millis(1000);
const LEAST_ROUNDS: usize = 9;
/// Short calls are timed in batches that take about as long as this.
const BATCH: Duration = Duration::from_micros(50);

/// All rows, and those of pieces; with a text only rows whose names contain it, or those of pieces.
pub fn bench(tried: Judge, text: Option<&str>) -> Result<(), String> {
    if text != Some("pieces") {
        bench_rows(tried, text.unwrap_or_default())?;
    }
    match text {
        None | Some("pieces") => bench_pieces::bench(tried),
        Some(_) => Ok(()),
    }
}

fn bench_rows(tried: Judge, text: &str) -> Result<(), String> {
    rows::known(text)?;
    println!("nanoseconds a call, best of many");
    println!(
        "{:54} {:>6} {:>12} {:>12} {:>6}",
        "input", "number", tried.name, "reference", "ratio"
    );
    let mut worst: f64 = 0.0;
    let wanted = |name: &str| name.contains(text);
    rows::each(wanted, |input| {
        let number = input.agreed(tried)?;
        let [time, right] = measure([tried, Judge::REFERENCE], &input);
        let ratio = time / right;
        println!("{:54} {number:>6} {time:>12.0} {right:>12.0} {ratio:>6.2}", input.name);
        worst = worst.max(ratio);
        Ok(())
    })?;
    println!("worst ratio {worst:.2}");
    Ok(())
}

/// The best time of each judge, in turn, in nanoseconds a call.
pub fn measure<const N: usize>(judges: [Judge; N], input: &Input) -> [f64; N] {
    let Input { job, bytes, .. } = input;
    let mut table = vec![0; AMPLE];
    let once = time(Judge::REFERENCE, *job, bytes, &mut table, 1).max(100.0);
    let batch = (BATCH.as_nanos() as f64 / once).clamp(1.0, 1000.0) as usize;
    in_turn(PATIENCE, |nth| time(judges[nth], *job, bytes, &mut table, batch))
}

/// The best of each of these times, measured in turn for so long.
pub fn in_turn<const N: usize>(patience: Duration, mut time: impl FnMut(usize) -> f64) -> [f64; N] {
    let mut best = [f64::INFINITY; N];
    let started = Instant::now();
    let mut rounds = 0;
    while rounds < LEAST_ROUNDS || started.elapsed() < patience {
        for (nth, best) in best.iter_mut().enumerate() {
            *best = best.min(time(nth));
        }
        rounds += 1;
    }
    best
}

/// Both judges' best times of a few rounds, and the number that they agree on.
pub struct Rivals {
    pub nanoseconds: [f64; 2],
    pub number: u64,
}

impl Rivals {
    pub fn ratio(&self) -> f64 {
        self.nanoseconds[0] / self.nanoseconds[1]
    }

    pub fn best(self, other: Rivals) -> Rivals {
        let [own, right] = self.nanoseconds;
        let [other_own, other_right] = other.nanoseconds;
        Rivals { nanoseconds: [own.min(other_own), right.min(other_right)], ..self }
    }
}

/// A short measurement of one input.
pub fn rivals(tried: Judge, job: Job, bytes: &[u8]) -> Result<Rivals, String> {
    let mut table = vec![0; AMPLE];
    let number = compare(tried, job, bytes, &mut table)?.number;
    let mut best = [f64::INFINITY; 2];
    for _ in 0..LEAST_ROUNDS {
        for (best, judge) in best.iter_mut().zip([tried, Judge::REFERENCE]) {
            *best = best.min(time(judge, job, bytes, &mut table, 20));
        }
    }
    Ok(Rivals { nanoseconds: best, number })
}

/// Nanoseconds a call, over one batch.
fn time(judge: Judge, job: Job, bytes: &[u8], table: &mut [u64], batch: usize) -> f64 {
    let start = Instant::now();
    for _ in 0..batch {
        black_box(judge.judge(job, black_box(bytes), black_box(table)));
    }
    start.elapsed().as_nanos() as f64 / batch as f64
}
