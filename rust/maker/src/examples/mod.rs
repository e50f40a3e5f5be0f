//! Document 01's examples, request 2's, and both sides of their bounds, each with its answer.

mod chunk;
mod framing;
mod header;
mod set;

use crate::cases::{Answer, Case, Job};
use crate::node::{self, Node, Step};
use crate::track::{Fill, Run, Track};

/// A case with a name.
pub struct Example {
    pub name: String,
    pub case: Case,
}

/// The examples of the paper, then the bounds by rule, then some long ones.
pub fn examples() -> Vec<Example> {
    let mut list = List(Vec::new());
    list.smallest();
    list.cut();
    list.track_t();
    list.track_u();
    list.order();
    list.header();
    list.chunks();
    list.indexes();
    list.sets();
    list.many_boxes();
    list.many_rows();
    list.0
}

/// Track T's boxes.
pub fn track_t() -> Vec<Node> {
    Track::example(2).boxes(&mut Fill::Zeros)
}

/// Track U's boxes.
pub fn track_u() -> Vec<Node> {
    Track::example_u().boxes(&mut Fill::Zeros)
}

struct List(Vec<Example>);

impl List {
    fn add(&mut self, name: &str, job: Job, bytes: Vec<u8>, expected: Answer) {
        let case = Case { job, bytes, expected: Some(expected) };
        self.0.push(Example { name: format!("{} {name}", job.name()), case });
    }

    fn track(&mut self, name: &str, bytes: Vec<u8>, number: u64, place: u64) {
        self.add(name, Job::Track, bytes, Answer::refused(number, place));
    }

    /// T with its boxes changed, refused at the box that the path leads to.
    fn boxes_refused(
        &mut self,
        name: &str,
        number: u64,
        path: &[Step],
        change: impl FnOnce(&mut Vec<Node>),
    ) {
        let mut boxes = track_t();
        change(&mut boxes);
        let place = node::place(&boxes, path);
        self.track(name, node::bytes(&boxes), number, place);
    }

    /// T with its boxes changed, but accepted.
    fn boxes_accepted(&mut self, name: &str, change: impl FnOnce(&mut Vec<Node>)) {
        let mut boxes = track_t();
        change(&mut boxes);
        self.add(name, Job::Track, node::bytes(&boxes), t_accepted());
    }

    /// T told in other words, refused at the box that the path leads to.
    fn refused(&mut self, name: &str, number: u64, path: &[Step], change: impl FnOnce(&mut Track)) {
        let mut track = Track::example(2);
        change(&mut track);
        let boxes = track.boxes(&mut Fill::Zeros);
        self.track(name, node::bytes(&boxes), number, node::place(&boxes, path));
    }

    /// T told in other words, but accepted with the boundaries that they give.
    fn accepted(&mut self, name: &str, change: impl FnOnce(&mut Track)) {
        let mut track = Track::example(2);
        change(&mut track);
        let bytes = node::bytes(&track.boxes(&mut Fill::Zeros));
        let expected = Answer::accepted(track.timescale, track.boundaries());
        self.add(name, Job::Track, bytes, expected);
    }
}

/// What every good judge says of T.
fn t_accepted() -> Answer {
    Answer::accepted(90_000, vec![0, 180_000, 360_000])
}

fn first_run(track: &mut Track) -> &mut Run {
    &mut track.chunks[0].runs[0]
}
