//! Document 01's examples and request 2's, each with tables of several lengths.

use crate::judge::{check_case, judge};
use maker::cases::Job;
use maker::examples::examples;
use reference::Verdict;

#[test]
fn examples_of_the_paper() {
    for example in examples() {
        let need = example.case.expected.as_ref().unwrap().table.len();
        for room in [need, need + 1, need + 100, need.saturating_sub(1), 0] {
            check_case(&example.name, &example.case, room);
        }
    }
}

#[test]
fn names_are_unique() {
    let mut names: Vec<String> = examples().into_iter().map(|example| example.name).collect();
    let all = names.len();
    names.sort();
    names.dedup();
    assert_eq!(names.len(), all);
}

/// Rule 1, on either side of its bound. The pages are never touched.
#[test]
fn longest_slice() {
    let mut bytes = vec![0; reference::MAX_BYTES + 1];
    for job in Job::ALL {
        let refused = |number| Verdict { number, ..Verdict::default() };
        assert_eq!(judge(job, &bytes, &mut []), refused(1), "{job:?}");
        let (longest, _) = bytes.split_at(reference::MAX_BYTES);
        let number = if job == Job::Set { 24 } else { 3 };
        assert_eq!(judge(job, longest, &mut []), refused(number), "{job:?}");
    }
    // One box that fills the longest slice.
    bytes.pop();
    bytes[..8].copy_from_slice(b"\x40\0\0\0free");
    let mut row = [0; 4];
    let verdict = reference::index(&bytes, &mut row);
    assert_eq!(verdict, Verdict { count: 1, ..Verdict::default() });
    assert_eq!(row, [0, 1 << 30, 0x66726565, 0]);
}

#[test]
fn shape_of_t() {
    use maker::node::Node;
    let boxes = maker::examples::track_t();
    assert_eq!(boxes[2..].iter().map(Node::size).collect::<Vec<_>>(), [100, 38, 100, 38]);
}

/// T's header and T's chunks, each with first-sample flags. In a table of F + 1 numbers
/// there is no room for a chunk's start.
#[test]
fn shape_of_u() {
    use maker::node::{self, Node};
    let [t, u] = [maker::examples::track_t(), maker::examples::track_u()];
    assert_eq!(node::bytes(&t[..2]), node::bytes(&u[..2]));
    assert_eq!(u[2..].iter().map(Node::size).collect::<Vec<_>>(), [104, 38, 104, 38, 104, 38]);
    let mut table = [7; 4];
    let verdict = reference::track(&node::bytes(&u), &mut table[..3]);
    assert_eq!(verdict, Verdict { count: 2, timescale: 90_000, ..Verdict::default() });
    assert_eq!(table, [0, 360_000, 540_000, 7]);
}
