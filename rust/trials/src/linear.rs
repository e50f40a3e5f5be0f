//! `trials linear`: nanoseconds a box where there are 4,096, four times and sixteen times as many.

use crate::bench::{in_turn, measure};
use crate::judge::Judge;
use crate::rows::Input;
use crate::tracks::{bundle, crowded, crowded_in, large, runs_of_one, Shape, Together};
use maker::cases::Job;
use maker::node::{self, Node};
use std::hint::black_box;
use std::time::{Duration, Instant};

const SIZES: [usize; 3] = [4096, 16_384, 65_536];
const PATIENCE: Duration = Duration::from_millis(1000);
/// What the most a box takes may be of the least.
const LIMIT: f64 = 1.2;

/// A good track of about so many boxes.
type Made = fn(usize) -> Vec<Node>;

const SHAPES: [(&str, Made); 6] = [
    ("empty boxes at the top level", crowded),
    ("empty boxes in moov", |boxes| crowded_in(boxes, &[(*b"moov", 0)], true)),
    ("empty boxes in moof", |boxes| crowded_in(boxes, &[(*b"moof", 1)], false)),
    ("fragments", |boxes| large(0, Shape::ManyChunks(boxes), Together(1))),
    ("chunks by 40", |boxes| large(0, Shape::ManyChunks(boxes), Together(40))),
    ("runs of a sample", runs_of_one),
];

/// Prints a line for each job and shape; an error if the judge and the reference differ, or if the
/// time a box differs by more than the limit.
pub fn linear(tried: Judge) -> Result<(), String> {
    println!("nanoseconds a box, best of many, at {SIZES:?} boxes, and the most over the least");
    let mut over = 0;
    for (name, made) in SHAPES {
        let tracks = SIZES.map(made);
        let boxes = tracks.each_ref().map(|track| node::count(track) as f64);
        for job in Job::ALL {
            let whole = |track: &Vec<Node>| match job {
                Job::Set => bundle(&[&track[..], track]),
                _ => track.clone(),
            };
            let mut times = [0.0; SIZES.len()];
            for (time, track) in times.iter_mut().zip(&tracks) {
                let bytes = node::bytes(&whole(track));
                let input = Input { name: format!("{} {name}", job.name()), job, bytes };
                input.agreed(tried)?;
                [*time] = measure([tried], &input);
            }
            let tracks = if matches!(job, Job::Set) { 2.0 } else { 1.0 };
            let boxes = boxes.map(|boxes| tracks * boxes);
            over += print(&format!("{} {name}", job.name()), times, boxes);
        }
        // A box over rule 29's limit is refused, and nothing inside it is looked at.
        if reference::pieces_whole(&node::bytes(&tracks[2])).verdict.number == 29 {
            continue;
        }
        for step in [1, 1500] {
            let mut times = [0.0; SIZES.len()];
            for (time, track) in times.iter_mut().zip(&tracks) {
                *time = in_pieces(tried, track, step)?;
            }
            over += print(&format!("pieces of {step}, {name}"), times, boxes);
        }
    }
    match over {
        0 => Ok(()),
        _ => Err(format!("{over} rows over {LIMIT}")),
    }
}

/// Nanoseconds for a track in pieces of so many bytes.
fn in_pieces(tried: Judge, track: &[Node], step: usize) -> Result<f64, String> {
    let bytes = node::bytes(track);
    let answer = tried.form().steps(&bytes, step);
    if answer != reference::pieces_whole(&bytes) {
        return Err(format!("in pieces of {step} the {} says {answer:?}", tried.name));
    }
    let [best] = in_turn(PATIENCE, |_| {
        let start = Instant::now();
        black_box(tried.form().steps(black_box(&bytes), step));
        start.elapsed().as_nanos() as f64
    });
    Ok(best)
}

/// Prints a line; 1 if the times a box are too far apart.
fn print(name: &str, times: [f64; SIZES.len()], boxes: [f64; SIZES.len()]) -> usize {
    let mut each = times;
    each.iter_mut().zip(boxes).for_each(|(time, boxes)| *time /= boxes);
    let most = each.into_iter().fold(0.0, f64::max);
    let least = each.into_iter().fold(f64::INFINITY, f64::min);
    let ratio = most / least;
    let over = ratio > LIMIT;
    let [a, b, c] = each;
    println!(
        "{name:44} {a:>8.2} {b:>8.2} {c:>8.2} {ratio:>6.2}{}",
        if over { "  over" } else { "" }
    );
    usize::from(over)
}
