//! `trials stack`: the worst inputs, each with 64 KiB of stack.

use crate::drawn::AMPLE;
use crate::judge::Judge;
use crate::run::compare;
use crate::small_stack::with_stack;
use crate::tracks::{bundle, crowded, crowded_in, large, many_runs, runs_in, runs_of_one, unusual};
use crate::tracks::{Dress, Shape, Together, APART, MAX_CHUNKS};
use maker::cases::Job;
use maker::layout::{is_container, join};
use maker::node::{self, Header, Kind, Node};
use maker::pieces::large_t;
use reference::MAX_BOXES;
use std::io::Write;

const STACK: usize = 64 * 1024;
/// More pieces than this show nothing new.
const MOST_PIECES: usize = 2_000_000;

/// An overflow ends the process; what was being tried is the last line.
pub fn stack(tried: Judge) -> Result<(), String> {
    println!("trying the {} in {STACK} bytes of stack", tried.name);
    for (name, bytes) in worst() {
        for job in Job::ALL {
            print!("{} {name}: ", job.name());
            std::io::stdout().flush().map_err(|error| error.to_string())?;
            let verdict = compare(tried, job, &bytes, &mut vec![7; AMPLE])?;
            let bytes = bytes.clone();
            // The table is the caller's and no part of the check's stack.
            let mut table = vec![7; AMPLE];
            let again = with_stack(STACK, move || tried.judge(job, &bytes, &mut table))?;
            if again != verdict {
                return Err(format!("{again:?} in the thread, {verdict:?} outside"));
            }
            println!("fits, number {}", verdict.number);
        }
        for step in [1, 4096, usize::MAX] {
            if bytes.len() / step < MOST_PIECES {
                pieces(tried, &name, &bytes, step)?;
            }
        }
    }
    Ok(())
}

/// The same bytes as a track in pieces of that many bytes.
fn pieces(tried: Judge, name: &str, bytes: &[u8], step: usize) -> Result<(), String> {
    let cut = if step > bytes.len() { "at once".to_string() } else { format!("by {step}") };
    print!("pieces {name}, {cut}: ");
    std::io::stdout().flush().map_err(|error| error.to_string())?;
    let right = reference::pieces_whole(bytes);
    let bytes = bytes.to_vec();
    // The form's memory is the caller's too and no part of its stack.
    let mut form = tried.form();
    let answer = with_stack(STACK, move || form.steps(&bytes, step))?;
    if answer != right {
        return Err(format!("{answer:?} in the thread, the joined bytes are answered {right:?}"));
    }
    println!("fits, number {}", right.verdict.number);
    Ok(())
}

/// Every name with its bytes.
type Inputs = Vec<(String, Vec<u8>)>;

fn worst() -> Inputs {
    let few = vec![
        ("no bytes", vec![]),
        ("deepest nesting", vec![deepest()]),
        ("long runs", large(1 << 20, Shape::ManySmall, APART)),
        ("a moov of 32768 bytes", large_t(b"moov", Header::Short, 32_768, true)),
        ("a moof of 32768 bytes", large_t(b"moof", Header::Long, 32_768, false)),
    ];
    let named = |(name, boxes): (&str, Vec<Node>)| (name.to_string(), node::bytes(&boxes));
    let mut all: Inputs = few.into_iter().map(named).collect();
    for (name, boxes) in crowds() {
        all.push((format!("16 records of {name}"), node::bytes(&bundle(&[&boxes[..]; 16]))));
        all.push((name, node::bytes(&boxes)));
    }
    all
}

/// As many boxes as there may be, in many ways.
fn crowds() -> Vec<(String, Vec<Node>)> {
    const MOST: usize = MAX_BOXES;
    const CHUNKS: usize = MAX_CHUNKS;
    let flat = |kind: &Kind| vec![Node::leaf(kind, vec![]); MOST];
    let deep = |node: Node| vec![node.clone(); MOST / node::count(&[node])];
    let chunk = nested("", &[b"moof", b"traf", b"trun"]);
    let small = |together| large(0, Shape::ManyChunks(MOST), Together(together));
    let empty_first = unusual(MOST, Dress::EmptyRun, Together(40));
    vec![
        (format!("{MOST} boxes"), flat(b"free")),
        (format!("{MOST} moov"), flat(b"moov")),
        ("deepest nesting, many times".to_string(), deep(deepest())),
        ("chunks of nothing, many times".to_string(), deep(chunk)),
        (format!("a good track of {MOST} boxes"), crowded(MOST)),
        (format!("{MOST} boxes, most in moov"), crowded_in(MOST, &[(*b"moov", 0)], true)),
        (format!("{MOST} boxes, most in moof"), crowded_in(MOST, &[(*b"moof", 1)], false)),
        (format!("a good track of {CHUNKS} fragments"), small(1)),
        (format!("{CHUNKS} chunks by 40"), small(40)),
        (format!("{CHUNKS} chunks in one fragment"), small(CHUNKS)),
        ("chunks by 40, an empty run first".to_string(), empty_first),
        (format!("65536 samples in {} runs", runs_in(MOST)), many_runs(MOST)),
        (format!("{} runs of a sample", runs_in(MOST)), runs_of_one(MOST)),
    ]
}

fn deepest() -> Node {
    nested("", &[b"moov", b"trak", b"mdia", b"minf", b"stbl", b"stsd"])
}

/// A box in a box in a box; the last one is empty.
fn nested(path: &str, kinds: &[&Kind]) -> Node {
    let (kind, deeper) = kinds.split_first().expect("a kind");
    let inside = join(path, kind);
    match deeper {
        [] => Node::leaf(kind, vec![]),
        _ if is_container(&inside) => Node::container(kind, vec![nested(&inside, deeper)]),
        _ => panic!("{inside} is no container"),
    }
}

#[cfg(test)]
mod tests {
    use super::*;

    #[test]
    fn fits() {
        assert_eq!(stack(Judge::archive().unwrap_or(Judge::REFERENCE)), Ok(()));
    }
}
