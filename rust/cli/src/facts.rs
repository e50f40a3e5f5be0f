//! What is known of a set and of its tracks once they are judged, as plain data.

use crate::bundle::Bundle;
use crate::judge::{self, BoxAt, Judged};
use crate::view::View;
use crate::walk::walk;
use flangemint::Verdict;

/// A set, or one track, as it was given and judged.
pub struct Set {
    /// The files as they were given.
    pub files: Vec<String>,
    /// The name of each track: its file's.
    pub names: Vec<String>,
    pub bundle: Bundle,
    /// By the track job for one file, else by the set job.
    pub judged: Judged,
}

impl Set {
    /// Judges what was read: one file by the track job, several by the set job.
    pub fn of_files(files: Vec<String>, bundle: Bundle) -> Set {
        let judged = match bundle.tracks()[..] {
            [track] => judge::track(track),
            _ => judge::set(bundle.bytes()),
        };
        Set { names: files.clone(), files, bundle, judged }
    }

    /// Judges a file that is a bundle already.
    pub fn of_bundle(file: String, bundle: Bundle) -> Set {
        let judged = judge::set(bundle.bytes());
        let names = (0..bundle.tracks().len()).map(|nth| format!("{file}, track {nth}")).collect();
        Set { files: vec![file], names, bundle, judged }
    }

    /// A track by itself; `None` where the bundle has no such record.
    pub fn track(&self, nth: usize) -> Option<Track<'_>> {
        Some(Track::of(self.names.get(nth)?, self.bundle.tracks().get(nth)?))
    }
}

/// A track by itself.
pub struct Track<'a> {
    pub name: &'a str,
    pub bytes: &'a [u8],
    /// What the track job says of it, whatever stands beside it.
    pub alone: Judged,
    pub listing: Listing,
}

/// The boxes of a track, parents before children, in byte order.
pub struct Listing {
    pub boxes: Vec<BoxAt>,
    /// By the proved index. Else the framing is refused and the command read them from the bytes, up
    /// to the refused place.
    pub proved: bool,
}

impl<'a> Track<'a> {
    pub fn of(name: &'a str, bytes: &'a [u8]) -> Track<'a> {
        let alone = judge::track(bytes);
        let listing = Listing::of(bytes, &alone.verdict);
        Track { name, bytes, alone, listing }
    }

    pub fn view(&self) -> View<'_> {
        View { bytes: self.bytes, boxes: &self.listing.boxes }
    }

    /// The byte that the track's own refusal points to; 1 and 23 point to none.
    pub fn refused_place(&self) -> Option<u64> {
        let Verdict { number, place, .. } = self.alone.verdict;
        (!matches!(number, 0 | 1 | 23)).then_some(place)
    }

    /// The number of the box that begins there.
    pub fn refused_box(&self) -> Option<usize> {
        self.view().at(self.refused_place()?)
    }
}

impl Listing {
    fn of(bytes: &[u8], verdict: &Verdict) -> Listing {
        if let Some(boxes) = judge::index(bytes) {
            return Listing { boxes, proved: true };
        }
        // Of an input that is too long no box is looked at.
        let too_long = verdict.number == 1;
        Listing { boxes: if too_long { vec![] } else { walk(bytes, verdict.place) }, proved: false }
    }
}
