//! Where a byte stands: the box that begins there, its path, its chunk. Computed from the bytes
//! and the proved index to explain a verdict; it never changes the verdict.
//!
//! A path names a box by the types from the top level down, `moof[1]/traf/tfdt`. A type that
//! stands more than once in its container, or at the top level, has an index, counted from 0 in
//! byte order. Where the top-level order is good, `moof[k]` and `mdat[k]` are those of chunk k.

use crate::judge::{BoxAt, Kind};
use crate::layout::letters;
use crate::view::View;
use std::collections::HashMap;

/// A refused place in a track.
#[derive(Clone, Debug, Default)]
pub struct Spot {
    /// The box that begins there, with its path.
    pub named: Option<(BoxAt, String)>,
    /// Where no box begins: the container around it; `None` at the top level.
    pub around: Option<String>,
    /// The chunk that it belongs to, counted from 0, with the offset of its `moof`.
    pub chunk: Option<(u64, u64)>,
}

pub fn spot(view: View, place: u64) -> Spot {
    let Some(nth) = view.at(place) else {
        let around = container_around(view, place);
        let path = around.map(|nth| paths(view.boxes).swap_remove(nth));
        return Spot { named: None, around: path, chunk: around.and_then(|nth| chunk(view, nth)) };
    };
    let path = paths(view.boxes).swap_remove(nth);
    Spot { named: Some((view.boxes[nth], path)), around: None, chunk: chunk(view, nth) }
}

/// The innermost box around a place at which no box begins; such a box is a container.
pub fn container_around(view: View, place: u64) -> Option<usize> {
    let holds = |one: &BoxAt| one.offset < place && place < one.offset.saturating_add(one.size);
    view.boxes.iter().rposition(holds)
}

/// The chunk of a box: a `moof` or what it holds, or the `mdat` directly after it.
fn chunk(view: View, nth: usize) -> Option<(u64, u64)> {
    let top = view.top(nth);
    let before = || view.boxes[..top].iter().rev().find(|one| one.depth == 0);
    match &view.boxes[top].kind {
        b"moof" => {}
        b"mdat" if before().is_some_and(|one| one.kind == *b"moof") => {}
        _ => return None,
    }
    let moofs = view.boxes[..=top].iter().filter(|one| one.depth == 0 && one.kind == *b"moof");
    let (number, moof) = moofs.enumerate().last()?;
    Some((number as u64, moof.offset))
}

/// Where the box directly before a place at the top level is a `moof`: that one. Its `mdat` is not
/// there.
pub fn bare_moof(view: View, place: u64) -> Option<u64> {
    let before = view.boxes.iter().rfind(|one| one.depth == 0 && one.offset < place)?;
    (before.kind == *b"moof").then_some(before.offset)
}

/// The path of every box.
pub fn paths(boxes: &[BoxAt]) -> Vec<String> {
    // Of each box its container, and which of its kind it is there.
    let mut rows: Vec<(Option<usize>, usize)> = Vec::with_capacity(boxes.len());
    let mut counts: HashMap<(Option<usize>, Kind), usize> = HashMap::new();
    let mut around: Vec<usize> = Vec::new();
    for (nth, one) in boxes.iter().enumerate() {
        around.truncate(one.depth);
        let parent = around.last().copied();
        let count = counts.entry((parent, one.kind)).or_default();
        rows.push((parent, *count));
        *count += 1;
        around.push(nth);
    }
    let mut paths: Vec<String> = Vec::with_capacity(boxes.len());
    for (one, (parent, which)) in boxes.iter().zip(rows) {
        let mut path = parent.map_or(String::new(), |parent| format!("{}/", paths[parent]));
        path += &letters(one.kind);
        if counts[&(parent, one.kind)] > 1 {
            path += &format!("[{which}]");
        }
        paths.push(path);
    }
    paths
}

#[cfg(test)]
mod tests {
    use super::*;
    use crate::judge;
    use maker::node::{self, Node};

    /// Two chunks, the second with two runs, and a `styp` before each.
    fn track() -> Vec<u8> {
        let leaf = |kind| Node::leaf(kind, vec![0; 4]);
        let moof = |runs| {
            let traf = Node::container(b"traf", vec![leaf(b"trun"); runs]);
            Node::container(b"moof", vec![leaf(b"mfhd"), traf])
        };
        let moov = Node::container(b"moov", vec![leaf(b"mvhd")]);
        let first = [leaf(b"styp"), moof(1), leaf(b"mdat")];
        let second = [leaf(b"styp"), moof(2), leaf(b"mdat")];
        node::bytes(&[vec![leaf(b"ftyp"), moov], first.to_vec(), second.to_vec()].concat())
    }

    #[test]
    fn indices_where_a_type_repeats() {
        let boxes = judge::index(&track()).unwrap();
        let expected = "ftyp moov moov/mvhd styp[0] moof[0] moof[0]/mfhd moof[0]/traf moof[0]/traf/trun mdat[0] \
            styp[1] moof[1] moof[1]/mfhd moof[1]/traf moof[1]/traf/trun[0] moof[1]/traf/trun[1] mdat[1]";
        assert_eq!(paths(&boxes).join(" "), expected);
    }

    #[test]
    fn one_chunk_has_no_index() {
        let bytes = track();
        let boxes = judge::index(&bytes[..bytes.len() / 2 + 14]).map(|boxes| paths(&boxes));
        assert_eq!(boxes, None, "cut inside a box");
        let boxes = judge::index(&bytes).unwrap();
        assert_eq!(paths(&boxes[..9]).last().unwrap(), "mdat");
    }

    #[test]
    fn chunks() {
        let bytes = track();
        let boxes = judge::index(&bytes).unwrap();
        let view = View { bytes: &bytes, boxes: &boxes };
        let number = |nth: usize| spot(view, boxes[nth].offset).chunk.map(|(number, _)| number);
        let numbers: Vec<_> = (0..boxes.len()).map(number).collect();
        let expected = [vec![None; 4], vec![Some(0); 5], vec![None], vec![Some(1); 6]].concat();
        assert_eq!(numbers, expected);
        let (_, moof) = spot(view, boxes[15].offset).chunk.unwrap();
        assert_eq!(moof, boxes[10].offset);
    }

    #[test]
    fn a_moof_without_its_mdat() {
        let bytes = track();
        let boxes = judge::index(&bytes).unwrap();
        let view = View { bytes: &bytes, boxes: &boxes };
        assert_eq!(bare_moof(view, boxes[15].offset), Some(boxes[10].offset));
        assert_eq!(bare_moof(view, boxes[9].offset), None, "after an mdat");
        assert_eq!(bare_moof(view, boxes[10].offset), None, "after a styp");
        assert_eq!(bare_moof(view, 0), None);
    }

    #[test]
    fn a_byte_without_a_box() {
        let bytes = track();
        let boxes = judge::index(&bytes).unwrap();
        let view = View { bytes: &bytes, boxes: &boxes };
        let inside = spot(view, boxes[13].offset - 1);
        assert_eq!(inside.around.as_deref(), Some("moof[1]/traf"));
        assert_eq!(inside.chunk.map(|(number, _)| number), Some(1));
        let end = spot(view, bytes.len() as u64);
        assert!(end.named.is_none() && end.around.is_none() && end.chunk.is_none());
    }
}
