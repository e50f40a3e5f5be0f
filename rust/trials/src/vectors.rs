//! `trials vectors`: `cases.bin`, what a program reads; `expected.txt`, what it
//! then writes; `names.txt`, one line a case. The same of the program `stream`, under names
//! that begin so.

use crate::drawn::Drawn;
use crate::streams::Streams;
use crate::wire::{self, MAX_ROOM};
use maker::cases::{Case, Job};
use maker::examples::examples;
use std::collections::BTreeMap;

/// What the drawn cases may take, so that the three files stay below 800,000 bytes.
const BUDGET: usize = 198_140;
/// A longer table than most cases need.
const LONG_ROOM: usize = 4096;
/// For each job, its share in a hundred of that, and the longest drawn case.
const SHARES: [(Job, usize, usize); 3] =
    [(Job::Index, 20, 400), (Job::Track, 40, 1000), (Job::Set, 40, 1900)];

#[derive(Default)]
struct Files {
    cases: Vec<u8>,
    expected: String,
    names: String,
    count: usize,
}

pub fn vectors(seed: u64, cases: u64, max: usize) -> Result<(), String> {
    let mut files = Files::default();
    files.add_examples(max);
    files.add_drawn(seed, cases as usize, max)?;
    let write = |name: &str, bytes: &[u8]| {
        std::fs::write(name, bytes).map_err(|error| format!("{name}: {error}"))
    };
    write("cases.bin", &files.cases)?;
    write("expected.txt", files.expected.as_bytes())?;
    write("names.txt", files.names.as_bytes())?;
    println!("{} cases in {} bytes", files.count, files.cases.len());

    let streams = Streams::make();
    write("stream-cases.bin", &streams.cases)?;
    write("stream-expected.txt", streams.expected.as_bytes())?;
    write("stream-names.txt", streams.names.as_bytes())?;
    println!("{} cases of stream in {} bytes", streams.count, streams.cases.len());
    Ok(())
}

impl Files {
    fn add(&mut self, name: &str, case: &Case, room: usize) {
        let room = room.min(MAX_ROOM);
        wire::put(case, room, &mut self.cases);
        self.expected += &(wire::answer(case, room).1 + "\n");
        self.names += &format!("{name}, room {room}\n");
        self.count += 1;
    }

    /// The examples that take no more than so many bytes; those that take few and are accepted also
    /// with a table one too short, and with a long one.
    fn add_examples(&mut self, max: usize) {
        for example in examples() {
            let case = &example.case;
            let sent = wire::sent(&case.bytes);
            if sent > max {
                continue;
            }
            let need = case.expected.as_ref().map_or(0, |answer| answer.table.len());
            self.add(&example.name, case, need + 2);
            if need > 0 && sent < 300 {
                self.add(&example.name, case, need - 1);
                if need < LONG_ROOM {
                    self.add(&example.name, case, LONG_ROOM);
                }
            }
        }
    }

    /// Drawn cases of every job.
    fn add_drawn(&mut self, seed: u64, cases: usize, max: usize) -> Result<(), String> {
        for (job, share, longest) in SHARES {
            let drawn = draw_by_number(job, seed, 3 * cases as u64, longest.min(max))?;
            let budget = self.cases.len() + BUDGET * share / 100;
            self.add_in_turn(&drawn, self.count + cases / SHARES.len(), budget);
        }
        Ok(())
    }

    /// One of each number in turn, up to so many cases and bytes in all.
    fn add_in_turn(&mut self, drawn: &ByNumber, cases: usize, budget: usize) {
        for turn in 0..drawn.values().map(Vec::len).max().unwrap_or(0) {
            for (name, case, room) in drawn.values().filter_map(|cases| cases.get(turn)) {
                let length = self.cases.len() + wire::sent(&case.bytes);
                if length <= budget && self.count < cases {
                    self.add(name, case, *room);
                }
            }
        }
    }
}

/// Names, cases and rooms by the number that they are refused with.
type ByNumber = BTreeMap<u64, Vec<(String, Case, usize)>>;

fn draw_by_number(job: Job, seed: u64, cases: u64, max: usize) -> Result<ByNumber, String> {
    let mut by_number = ByNumber::new();
    for number in 0..cases {
        let mut case = Drawn::make(job, seed, number);
        if case.case.bytes.len() > max {
            continue;
        }
        let room = case.room().map_err(|difference| case.report(&difference))?.min(MAX_ROOM);
        let (verdict, _) = wire::answer(&case.case, room);
        by_number.entry(verdict.number).or_default().push((case.name(), case.case, room));
    }
    Ok(by_number)
}
