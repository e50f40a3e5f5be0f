//! The bundle, and rules 24 to 28.

use super::chunk::non_sync;
use super::{first_run, t_accepted, track_t, List};
use crate::bundle::{bundle, record, MARK};
use crate::cases::{Answer, Job};
use crate::layout::{steps, steps_in_chunk};
use crate::node::{self, Step};
use crate::track::{Fill, Track};

impl List {
    pub fn sets(&mut self) {
        self.bundles();
        self.sets_of_chunks();
        self.differs("other handler", 25, &steps("moov/trak/mdia/hdlr"), |t| {
            (t.handler, t.media_header) = (*b"soun", *b"smhd");
        });
        self.differs("other timescale", 26, &steps("moov/trak/mdia/mdhd"), |t| t.timescale = 1);
        self.differs("other first boundary", 28, &steps("moof"), |t| {
            t.chunks.iter_mut().for_each(|chunk| chunk.start += 1);
        });
        self.differs("other second boundary", 28, &[(*b"moof", 1)], |t| {
            first_run(t).samples[0].duration += 1;
            t.chunks[1].start += 1;
            t.chunks[1].runs[0].samples[0].duration -= 1;
        });
        self.differs("other last boundary", 28, &[(*b"moof", 1)], |t| {
            t.chunks[1].runs[0].samples[1].duration += 1;
        });
        for fragments in [1, 3] {
            let other = node::bytes(&Track::example(fragments).boxes(&mut Fill::Zeros));
            let expected = Answer::refused(27, other.len() as u64).of_track(1);
            let name = format!("{fragments} fragments beside two");
            self.add(&name, Job::Set, bundle(&[t(), other]), expected);
        }
    }

    /// Tracks whose fragments have several chunks.
    fn sets_of_chunks(&mut self) {
        let u = |change: fn(&mut Track)| {
            let mut track = Track::example_u();
            change(&mut track);
            track
        };
        let u_accepted = Answer::accepted(90_000, vec![0, 360_000, 540_000]);
        let set = |tracks: &[&Track]| bundle(&tracks.iter().map(|t| bytes(t)).collect::<Vec<_>>());
        let [t, plain_u, halved, quartered] = [Track::example(2), u(|_| ()), halves(2), halves(4)];
        self.add("U twice", Job::Set, set(&[&plain_u, &plain_u]), u_accepted.clone());
        self.add("T beside other chunks", Job::Set, set(&[&t, &halved, &quartered]), t_accepted());
        self.add("other chunks beside T", Job::Set, set(&[&quartered, &t, &halved]), t_accepted());
        let whole = u(|u| {
            // Both chunks of the first fragment in one.
            let second = u.chunks.remove(1);
            u.chunks[0].runs.extend(second.runs);
        });
        self.add(
            "U beside its fragments as chunks",
            Job::Set,
            set(&[&plain_u, &whole]),
            u_accepted,
        );

        // Track 0, the other, 28's moof.
        let late = |mut track: Track, chunk: usize| {
            // Only the boundary at this chunk moves, to a tick later.
            let before = track.chunks[chunk - 1].runs.last_mut().expect("a run");
            before.samples.last_mut().expect("a sample").duration += 1;
            track.chunks[chunk].start += 1;
            track.chunks[chunk].runs[0].samples[0].duration -= 1;
            track
        };
        let late_end = |mut track: Track| {
            let last = track.chunks.last_mut().expect("a chunk").runs.last_mut().expect("a run");
            last.samples.last_mut().expect("a sample").duration += 1;
            track
        };
        let all_late = u(|u| u.chunks.iter_mut().for_each(|chunk| chunk.start += 1));
        for (name, track_0, other, moof) in [
            ("T beside U", &t, &plain_u, 2),
            ("U beside T", &plain_u, &t, 1),
            ("T beside U', other second boundary", &t, &late(halves(2), 2), 2),
            ("T beside U', other last boundary", &t, &late_end(halves(2)), 2),
            ("T beside four chunks a fragment, other second boundary", &t, &late(halves(4), 4), 4),
            ("T beside four chunks a fragment, other last boundary", &t, &late_end(halves(4)), 4),
            ("U, other first boundary", &plain_u, &all_late, 0),
            ("U beside its chunks in other fragments", &plain_u, &regrouped(), 1),
        ] {
            let place = node::place(&other.boxes(&mut Fill::Zeros), &[(*b"moof", moof)]);
            let expected = Answer::refused(28, place).of_track(1);
            self.add(name, Job::Set, set(&[track_0, other]), expected);
        }
        // A chunk's end alone may differ.
        let inner = late(halves(4), 1);
        self.add("T beside a moved chunk", Job::Set, set(&[&t, &inner]), t_accepted());
        let three = Track::example(3);
        let merged = u(|u| non_sync(&mut u.chunks[2]));
        for (name, track_0, other) in [
            ("U beside three fragments", &plain_u, &three),
            ("three fragments beside U", &three, &plain_u),
            ("U beside one fragment of its chunks", &plain_u, &merged),
        ] {
            let expected = Answer::refused(27, bytes(other).len() as u64).of_track(1);
            self.add(name, Job::Set, set(&[track_0, other]), expected);
        }
        // Rules 14 to 22 of the other track come first.
        let boxes = u(|u| u.chunks[1].start += 1).boxes(&mut Fill::Zeros);
        let place = node::place(&boxes, &steps_in_chunk("moof/traf/tfdt", 1));
        let expected = Answer::refused(19, place).of_track(1);
        let late_u = bundle(&[bytes(&t), node::bytes(&boxes)]);
        self.add("T beside U, second chunk a tick late", Job::Set, late_u, expected);
    }

    /// Rule 24 and its bounds.
    fn bundles(&mut self) {
        let refused = |good: usize, place: usize| Answer::refused(24, place as u64).of_track(good);
        self.add("no bytes", Job::Set, vec![], refused(0, 0));
        self.add("T twice", Job::Set, bundle(&[t(), t()]), t_accepted());
        self.add("T once", Job::Set, bundle(&[t()]), t_accepted());
        self.add("16 records", Job::Set, bundle(&vec![t(); 16]), t_accepted());
        self.add("17 records", Job::Set, bundle(&[[]; 17]), refused(16, 16 * 6));
        let one_more = [bundle(&[[]; 16]), vec![0]].concat();
        self.add("a byte after 16 records", Job::Set, one_more, refused(16, 16 * 6));

        let place = record(&t()).len();
        let after_t = |rest: &[u8]| [&record(&t()), &MARK[..], rest].concat();
        self.add("5 bytes after T", Job::Set, after_t(&[0; 3]), refused(1, place));
        self.add(
            "a byte less than the length",
            Job::Set,
            after_t(&[0, 0, 0, 1]),
            refused(1, place),
        );
        let mut swapped = after_t(&[0; 4]);
        swapped[place..place + 2].copy_from_slice(&[MARK[1], MARK[0]]);
        self.add("wrong mark", Job::Set, swapped, refused(1, place));
        let empty = Answer::refused(6, 0).of_track(1);
        self.add("a record of length 0", Job::Set, after_t(&[0; 4]), empty);
    }

    /// T beside a good track that differs.
    fn differs(&mut self, name: &str, number: u64, path: &[Step], change: impl FnOnce(&mut Track)) {
        let mut track = Track::example(2);
        change(&mut track);
        let boxes = track.boxes(&mut Fill::Zeros);
        let expected = Answer::refused(number, node::place(&boxes, path)).of_track(1);
        self.add(name, Job::Set, bundle(&[t(), node::bytes(&boxes)]), expected);
    }
}

fn t() -> Vec<u8> {
    node::bytes(&track_t())
}

fn bytes(track: &Track) -> Vec<u8> {
    node::bytes(&track.boxes(&mut Fill::Zeros))
}

/// T's two fragments in so many chunks each, as long as another.
fn halves(chunks: u64) -> Track {
    let mut track = Track::example(2 * chunks);
    for (nth, chunk) in track.chunks.iter_mut().enumerate() {
        chunk.start /= chunks;
        chunk.runs[0].samples.iter_mut().for_each(|sample| sample.duration /= chunks as u32);
        if !(nth as u64).is_multiple_of(chunks) {
            non_sync(chunk);
        }
    }
    track
}

/// U's chunks, but the third belongs to the second.
fn regrouped() -> Track {
    let mut track = Track::example(3);
    non_sync(&mut track.chunks[2]);
    track
}
