//! Boxes as a tree: parents' sizes follow from what they hold.

pub type Kind = [u8; 4];

#[derive(Clone, Copy, Debug, PartialEq)]
pub enum Header {
    Short,
    Long,
    /// Bare bytes where a box should be.
    None,
}

#[derive(Clone, Debug)]
pub enum Content {
    Bytes(Vec<u8>),
    /// So many bytes of 0, never written out one by one.
    Zeros(usize),
    Boxes(Vec<Node>),
}

#[derive(Clone, Debug)]
pub struct Node {
    pub kind: Kind,
    pub header: Header,
    pub content: Content,
}

impl Node {
    pub fn leaf(kind: &Kind, body: Vec<u8>) -> Node {
        Node { kind: *kind, header: Header::Short, content: Content::Bytes(body) }
    }

    pub fn zeros(kind: &Kind, len: usize) -> Node {
        Node { kind: *kind, header: Header::Short, content: Content::Zeros(len) }
    }

    pub fn container(kind: &Kind, boxes: Vec<Node>) -> Node {
        Node { kind: *kind, header: Header::Short, content: Content::Boxes(boxes) }
    }

    pub fn bare(bytes: Vec<u8>) -> Node {
        Node { kind: *b"    ", header: Header::None, content: Content::Bytes(bytes) }
    }

    pub fn header_len(&self) -> usize {
        match self.header {
            Header::Short => 8,
            Header::Long => 16,
            Header::None => 0,
        }
    }

    pub fn size(&self) -> usize {
        let content = match &self.content {
            Content::Bytes(bytes) => bytes.len(),
            Content::Zeros(len) => *len,
            Content::Boxes(boxes) => total_size(boxes),
        };
        self.header_len() + content
    }

    pub fn children(&self) -> &[Node] {
        match &self.content {
            Content::Boxes(boxes) => boxes,
            _ => &[],
        }
    }

    /// The boxes of a container; panics on a leaf.
    pub fn boxes(&mut self) -> &mut Vec<Node> {
        match &mut self.content {
            Content::Boxes(boxes) => boxes,
            _ => panic!("{:?} is no container", self.kind),
        }
    }

    /// The body of a leaf; panics on a container.
    pub fn body(&mut self) -> &mut Vec<u8> {
        if let Content::Zeros(len) = self.content {
            self.content = Content::Bytes(vec![0; len]);
        }
        match &mut self.content {
            Content::Bytes(bytes) => bytes,
            _ => panic!("{:?} is no leaf", self.kind),
        }
    }

    pub fn put_u32(&mut self, at: usize, value: u32) {
        self.body()[at..at + 4].copy_from_slice(&value.to_be_bytes());
    }

    pub fn get_u32(&mut self, at: usize) -> u32 {
        u32::from_be_bytes(self.body()[at..at + 4].try_into().unwrap())
    }

    /// Writes the box to the start of `out`, which is all zeros.
    fn write(&self, out: &mut [u8]) {
        let size = self.size();
        match self.header {
            Header::Short => {
                let size = u32::try_from(size).expect("a short size");
                out[..4].copy_from_slice(&size.to_be_bytes());
                out[4..8].copy_from_slice(&self.kind);
            }
            Header::Long => {
                out[3] = 1;
                out[4..8].copy_from_slice(&self.kind);
                out[8..16].copy_from_slice(&(size as u64).to_be_bytes());
            }
            Header::None => (),
        }
        let out = &mut out[self.header_len()..size];
        match &self.content {
            Content::Bytes(bytes) => out.copy_from_slice(bytes),
            Content::Zeros(_) => (),
            Content::Boxes(boxes) => write_all(boxes, out),
        }
    }
}

pub fn total_size(boxes: &[Node]) -> usize {
    boxes.iter().map(Node::size).sum()
}

fn write_all(boxes: &[Node], out: &mut [u8]) {
    let mut at = 0;
    for node in boxes {
        node.write(&mut out[at..]);
        at += node.size();
    }
}

/// The bytes of a run of boxes. Long stretches of zeros stay untouched
/// memory, so that a track of 500 MiB costs what its boxes cost.
pub fn bytes(boxes: &[Node]) -> Vec<u8> {
    let mut out = vec![0; total_size(boxes)];
    write_all(boxes, &mut out);
    out
}

/// One step down the tree: the n-th box of this kind.
pub type Step = (Kind, usize);

/// The place of a step among its siblings.
pub fn position(boxes: &[Node], (kind, nth): Step) -> Option<usize> {
    let of_kind = boxes.iter().enumerate().filter(|(_, node)| node.kind == kind);
    of_kind.map(|(position, _)| position).nth(nth)
}

/// The offset of a box, counted from the start of the run.
pub fn place(boxes: &[Node], path: &[Step]) -> u64 {
    let (&step, deeper) = path.split_first().expect("a path has a step");
    let position = position(boxes, step).unwrap_or_else(|| panic!("no box at {path:?}"));
    let before = total_size(&boxes[..position]);
    let node = &boxes[position];
    match deeper {
        [] => before as u64,
        _ => (before + node.header_len()) as u64 + place(node.children(), deeper),
    }
}

/// The box at a path, if it is there.
pub fn find<'a>(boxes: &'a [Node], path: &[Step]) -> Option<&'a Node> {
    let (&step, deeper) = path.split_first()?;
    let node = &boxes[position(boxes, step)?];
    match deeper {
        [] => Some(node),
        _ => find(node.children(), deeper),
    }
}

/// The box at a path.
pub fn at<'a>(boxes: &'a mut [Node], path: &[Step]) -> &'a mut Node {
    let (&step, deeper) = path.split_first().expect("a path has a step");
    let position = position(boxes, step).unwrap_or_else(|| panic!("no box at {path:?}"));
    match deeper {
        [] => &mut boxes[position],
        _ => at(boxes[position].boxes(), deeper),
    }
}

/// The boxes inside the container at a path; the top level for no path.
pub fn inside<'a>(boxes: &'a mut Vec<Node>, path: &[Step]) -> &'a mut Vec<Node> {
    match path {
        [] => boxes,
        _ => at(boxes, path).boxes(),
    }
}

/// How many boxes there are at any depth.
pub fn count(boxes: &[Node]) -> usize {
    boxes.iter().map(|node| 1 + count(node.children())).sum()
}

/// Empty boxes at the end, up to so many boxes in all.
pub fn fill_up(boxes: &mut Vec<Node>, total: usize) {
    let missing = total - count(boxes);
    boxes.extend((0..missing).map(|_| Node::leaf(b"free", vec![])));
}

/// The paths of all containers.
pub fn containers(boxes: &[Node]) -> Vec<Vec<Step>> {
    let mut paths = Vec::new();
    collect_containers(boxes, &mut Vec::new(), &mut paths);
    paths
}

fn collect_containers(boxes: &[Node], path: &mut Vec<Step>, paths: &mut Vec<Vec<Step>>) {
    for (i, node) in boxes.iter().enumerate() {
        if let Content::Boxes(children) = &node.content {
            let nth = boxes[..i].iter().filter(|other| other.kind == node.kind).count();
            path.push((node.kind, nth));
            paths.push(path.clone());
            collect_containers(children, path, paths);
            path.pop();
        }
    }
}

/// The offset of the n-th box, parents before children, in byte order.
pub fn place_of_nth(boxes: &[Node], nth: usize) -> Option<u64> {
    fn search(boxes: &[Node], mut at: usize, left: &mut usize) -> Option<usize> {
        for node in boxes {
            if *left == 0 {
                return Some(at);
            }
            *left -= 1;
            let found = search(node.children(), at + node.header_len(), left);
            if found.is_some() {
                return found;
            }
            at += node.size();
        }
        None
    }
    let mut left = nth;
    search(boxes, 0, &mut left).map(|at| at as u64)
}

/// What the index lists: offset, whole size, type and depth of each box.
pub fn rows(boxes: &[Node]) -> Vec<[u64; 4]> {
    fn list(boxes: &[Node], mut at: usize, depth: u64, rows: &mut Vec<[u64; 4]>) {
        for node in boxes {
            let kind = u64::from(u32::from_be_bytes(node.kind));
            rows.push([at as u64, node.size() as u64, kind, depth]);
            list(node.children(), at + node.header_len(), depth + 1, rows);
            at += node.size();
        }
    }
    let mut rows = Vec::new();
    list(boxes, 0, 0, &mut rows);
    rows
}

#[cfg(test)]
mod tests {
    use super::*;

    /// `moov` (long) around `free` and `trak` around `tkhd`, then `mdat`.
    fn tree() -> Vec<Node> {
        let trak = Node::container(b"trak", vec![Node::leaf(b"tkhd", vec![1, 2])]);
        let mut moov = Node::container(b"moov", vec![Node::leaf(b"free", vec![]), trak]);
        moov.header = Header::Long;
        vec![moov, Node::zeros(b"mdat", 3)]
    }

    #[test]
    fn bytes_and_places() {
        let expected = b"\0\0\0\x01moov\0\0\0\0\0\0\0\x2A\
            \0\0\0\x08free\0\0\0\x12trak\0\0\0\x0Atkhd\x01\x02\0\0\0\x0Bmdat\0\0\0";
        assert_eq!(bytes(&tree()), expected);
        let tkhd = [(*b"moov", 0), (*b"trak", 0), (*b"tkhd", 0)];
        assert_eq!(place(&tree(), &tkhd), 32);
        assert_eq!(place(&tree(), &[(*b"mdat", 0)]), 42);
        assert_eq!(find(&tree(), &tkhd).map(Node::size), Some(10));
        assert_eq!(count(&tree()), 5);
        assert_eq!(place_of_nth(&tree(), 3), Some(32));
        assert_eq!(place_of_nth(&tree(), 5), None);
        assert_eq!(containers(&tree()), [vec![(*b"moov", 0)], vec![(*b"moov", 0), (*b"trak", 0)]]);
    }

    #[test]
    fn rows_of_the_index() {
        let offsets_and_depths: Vec<_> = rows(&tree()).iter().map(|row| (row[0], row[3])).collect();
        assert_eq!(offsets_and_depths, [(0, 0), (16, 1), (24, 1), (32, 2), (42, 0)]);
    }
}
