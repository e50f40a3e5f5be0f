//! A track's bytes beside its boxes: finding a box, reading its fields. Explains a verdict and
//! never changes it; nothing here fails on any bytes, it answers `None`.

use crate::judge::{BoxAt, Kind};

#[derive(Clone, Copy)]
pub struct View<'a> {
    pub bytes: &'a [u8],
    pub boxes: &'a [BoxAt],
}

impl<'a> View<'a> {
    /// The number of the box that begins at a byte.
    pub fn at(&self, place: u64) -> Option<usize> {
        self.boxes.binary_search_by_key(&place, |one| one.offset).ok()
    }

    /// The numbers of the boxes in a container, or at the top level.
    pub fn inside(&self, container: Option<usize>) -> impl Iterator<Item = usize> + 'a {
        let boxes = self.boxes;
        let (first, depth) = container.map_or((0, 0), |nth| (nth + 1, boxes[nth].depth + 1));
        let deep = move |nth: &usize| boxes[*nth].depth >= depth;
        (first..boxes.len()).take_while(deep).filter(move |nth| boxes[*nth].depth == depth)
    }

    /// The first box of a kind in a container, or at the top level.
    pub fn child(&self, container: Option<usize>, kind: &Kind) -> Option<usize> {
        self.inside(container).find(|nth| self.boxes[*nth].kind == *kind)
    }

    /// The first box on a path from the top level.
    pub fn find(&self, path: &[&Kind]) -> Option<usize> {
        path.iter().try_fold(None, |container, kind| Some(Some(self.child(container, kind)?)))?
    }

    /// The container of a box; `None` at the top level.
    pub fn parent(&self, nth: usize) -> Option<usize> {
        let depth = self.boxes[nth].depth.checked_sub(1)?;
        (0..nth).rev().find(|other| self.boxes[*other].depth == depth)
    }

    /// The box at the top level that a box belongs to.
    pub fn top(&self, nth: usize) -> usize {
        (0..=nth).rev().find(|other| self.boxes[*other].depth == 0).unwrap_or(nth)
    }

    /// Where a container, or the track, ends.
    pub fn end(&self, container: Option<usize>) -> u64 {
        let of = |nth: usize| self.boxes[nth].offset.saturating_add(self.boxes[nth].size);
        container.map_or(self.bytes.len() as u64, of)
    }

    /// The bytes of a box from behind its header, cut off where the track ends.
    pub fn body(&self, nth: usize) -> Body<'a> {
        let one = self.boxes[nth];
        let start = usize::try_from(one.offset).unwrap_or(usize::MAX);
        let end = usize::try_from(one.offset.saturating_add(one.size)).unwrap_or(usize::MAX);
        let whole = self.bytes.get(start..end.min(self.bytes.len())).unwrap_or_default();
        let header = if whole.starts_with(&[0, 0, 0, 1]) { 16 } else { 8 };
        Body { bytes: whole.get(header..).unwrap_or_default(), header: header as u64 }
    }
}

/// A box from behind its header, and the header's length.
#[derive(Clone, Copy)]
pub struct Body<'a> {
    pub bytes: &'a [u8],
    pub header: u64,
}

impl Body<'_> {
    pub fn word(&self, at: usize) -> Option<u32> {
        Some(u32::from_be_bytes(*self.bytes.get(at..)?.first_chunk()?))
    }

    pub fn long(&self, at: usize) -> Option<u64> {
        Some(u64::from_be_bytes(*self.bytes.get(at..)?.first_chunk()?))
    }

    /// Four letters, as a brand or a handler has them.
    pub fn kind(&self, at: usize) -> Option<Kind> {
        Some(*self.bytes.get(at..)?.first_chunk()?)
    }

    pub fn version(&self) -> Option<u8> {
        self.bytes.first().copied()
    }

    pub fn flags(&self) -> Option<u32> {
        Some(self.word(0)? & 0xFF_FFFF)
    }

    /// The word behind two times: 4 bytes each in version 0, else 8. `tkhd` has its track ID there,
    /// `mdhd` its timescale.
    pub fn word_after_times(&self) -> Option<u32> {
        self.word(if self.version()? == 0 { 12 } else { 20 })
    }

    /// The decode time of a `tfdt`.
    pub fn decode_time(&self) -> Option<u64> {
        match self.version()? {
            0 => self.word(4).map(u64::from),
            _ => self.long(4),
        }
    }
}
