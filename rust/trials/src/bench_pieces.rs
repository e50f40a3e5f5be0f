//! The rows `pieces` of `trials bench`: a good track in pieces of one length beside the same
//! judge's track check of the joined bytes, in turn, the best of many.

use crate::bench::in_turn;
use crate::drawn::AMPLE;
use crate::judge::Judge;
use crate::tracks::{crowded, full, large, one_data_box, Shape, Together, APART};
use maker::cases::Job;
use maker::node::{self, Node};
use std::hint::black_box;
use std::time::{Duration, Instant};

const PATIENCE: Duration = Duration::from_millis(2000);
/// What pieces may take: so many times the whole, and so many nanoseconds for each piece.
const TIMES: f64 = 2.0;
const A_PIECE: f64 = 30.0;
/// Rows of many boxes have so many.
const BOXES: usize = 4096;

pub fn bench(tried: Judge) -> Result<(), String> {
    println!("pieces beside the whole slice, nanoseconds, best of many");
    println!(
        "{:48} {:>9} {:>12} {:>12} {:>9} {:>9}",
        "input", "pieces", "in pieces", "whole", "a piece", "within"
    );
    rows().into_iter().try_for_each(|row| bench_row(tried, &row))
}

/// A good track in pieces of so many bytes.
pub struct Row {
    pub name: &'static str,
    boxes: Vec<Node>,
    step: usize,
}

pub fn rows() -> Vec<Row> {
    let row = |name, boxes, step| Row { name, boxes, step };
    let by_40 = Together(40);
    let few = large(500 << 20, Shape::FewLarge, APART);
    let mebibyte = |together| full(BOXES, (1 << 20) - (250 << 10), together);
    let small = |together| large(0, Shape::ManyChunks(BOXES), together);
    vec![
        row("500 MiB, 4,096 boxes, pieces of 64 KiB", full(BOXES, 500 << 20, APART), 1 << 16),
        row("500 MiB, few large, pieces of 64 KiB", few, 1 << 16),
        row("1 MiB, 582 fragments, pieces of 1,500", mebibyte(APART), 1500),
        row("582 fragments, pieces of 1 byte", small(APART), 1),
        row("4,096 boxes, pieces of 1 byte", crowded(BOXES), 1),
        row("a data box of 30 KiB, pieces of 1 byte", one_data_box(30 << 10), 1),
        row("500 MiB, 582 chunks by 40, pieces of 64 KiB", full(BOXES, 500 << 20, by_40), 1 << 16),
        row("1 MiB, 582 chunks by 40, pieces of 1,500", mebibyte(by_40), 1500),
        row("582 chunks by 40, pieces of 1 byte", small(by_40), 1),
    ]
}

impl Row {
    pub fn bytes(&self) -> Vec<u8> {
        node::bytes(&self.boxes)
    }

    /// An error unless the judge accepts the pieces, as the reference does the joined bytes.
    pub fn agreed(&self, tried: Judge, bytes: &[u8]) -> Result<(), String> {
        let answer = tried.form().steps(bytes, self.step);
        if answer != reference::pieces_whole(bytes) || answer.verdict.number != 0 {
            return Err(format!("{}: the {} says {answer:?}", self.name, tried.name));
        }
        Ok(())
    }

    /// Nanoseconds in pieces, once.
    pub fn time(&self, tried: Judge, bytes: &[u8]) -> f64 {
        time(|| {
            black_box(tried.form().steps(black_box(bytes), self.step));
        })
    }
}

/// Prints a line.
fn bench_row(tried: Judge, row: &Row) -> Result<(), String> {
    let bytes = row.bytes();
    row.agreed(tried, &bytes)?;
    let mut table = vec![0; AMPLE];
    let [in_pieces, whole] = in_turn(PATIENCE, |nth| match nth {
        0 => row.time(tried, &bytes),
        _ => time(|| {
            black_box(tried.judge(Job::Track, black_box(&bytes), black_box(&mut table)));
        }),
    });
    let pieces = bytes.len().div_ceil(row.step) as f64;
    let limit = TIMES * whole + A_PIECE * pieces;
    let within = if in_pieces <= limit { "yes" } else { "NO" };
    let each = in_pieces / pieces;
    let name = row.name;
    println!("{name:48} {pieces:>9} {in_pieces:>12.0} {whole:>12.0} {each:>9.2} {within:>9}");
    Ok(())
}

/// Nanoseconds of one call.
fn time(call: impl FnOnce()) -> f64 {
    let start = Instant::now();
    call();
    start.elapsed().as_nanos() as f64
}
