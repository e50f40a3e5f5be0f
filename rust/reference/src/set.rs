//! A switching set: the bundle's records, each one's track, and rules 24 to 28.

use crate::header::Header;
use crate::timeline::Timeline;
use crate::track::{check, Checked};
use crate::verdict::{Refusal, Verdict};
use crate::{MAX_BYTES, MAX_TRACKS};

/// The mark that each record begins with.
const MARK: [u8; 2] = [0x53, 0x57];

/// Checks a bundle; on acceptance the table gets the F + 1 boundaries that all tracks share.
pub fn set(data: &[u8], table: &mut [u64]) -> Verdict {
    check_set(data, table).unwrap_or_else(|refused| refused)
}

fn check_set(data: &[u8], table: &mut [u64]) -> Result<Verdict, Verdict> {
    if data.len() > MAX_BYTES {
        return Err(Refusal::new(1, 0).into());
    }
    frame_bundle(data)?;

    let mut tracks = Records::new(data).map_while(Result::ok).enumerate();
    let mut timeline = Timeline::new();
    let (_, track_0) = tracks.next().ok_or(Refusal::new(24, 0))?;
    let track_0 = check(track_0, |tick, _| timeline.push(tick))?;

    // Rules 25 to 28 wait until every track has passed 1 to 22.
    let mut difference = None;
    for (number, data) in tracks {
        let mut expected = timeline.ticks();
        let mut astray = None;
        let track = check(data, |tick, moof| {
            if expected.next().is_some_and(|expected| *expected != tick) {
                astray.get_or_insert(moof);
            }
        });
        let track = track.map_err(|refusal| refusal.of_track(number))?;
        if difference.is_none() {
            let compared = compare(&track_0, &track, data.len(), astray);
            difference = compared.err().map(|refusal| refusal.of_track(number));
        }
    }
    if let Some(refused) = difference {
        return Err(refused);
    }

    timeline.write(table)?;
    Ok(Verdict::accepted(track_0.fragments, track_0.header.timescale))
}

/// Rules 25 to 28 for one track. `astray` is rule 28's place, should any
/// boundary differ as far as both tracks go.
fn compare(
    track_0: &Checked,
    track: &Checked,
    length: usize,
    astray: Option<usize>,
) -> Result<(), Refusal> {
    let Header { handler, hdlr_at, timescale, mdhd_at, .. } = track.header;
    if handler != track_0.header.handler {
        return Err(Refusal::new(25, hdlr_at));
    }
    if timescale != track_0.header.timescale {
        return Err(Refusal::new(26, mdhd_at));
    }
    if track.fragments != track_0.fragments {
        return Err(Refusal::new(27, length));
    }
    match astray {
        Some(moof) => Err(Refusal::new(28, moof)),
        None => Ok(()),
    }
}

/// Rule 24 for the whole bundle, before any track is looked into.
fn frame_bundle(data: &[u8]) -> Result<(), Verdict> {
    let mut records = Records::new(data);
    for good in 0.. {
        let place = records.at;
        let refused = || Refusal::new(24, place).of_track(good);
        match records.next() {
            None if good == 0 => return Err(refused()),
            None => break,
            Some(_) if good == MAX_TRACKS => return Err(refused()),
            Some(Err(BadRecord)) => return Err(refused()),
            Some(Ok(_)) => (),
        }
    }
    Ok(())
}

/// The records of a bundle: mark, length, that many bytes of track.
struct Records<'a> {
    rest: &'a [u8],
    at: usize,
}

struct BadRecord;

impl<'a> Records<'a> {
    fn new(bundle: &'a [u8]) -> Self {
        Records { rest: bundle, at: 0 }
    }

    fn read(&self) -> Option<(&'a [u8], &'a [u8])> {
        let (mark, rest) = self.rest.split_first_chunk()?;
        let (length, rest) = rest.split_first_chunk()?;
        if *mark != MARK {
            return None;
        }
        let length = usize::try_from(u32::from_be_bytes(*length)).ok()?;
        rest.split_at_checked(length)
    }
}

impl<'a> Iterator for Records<'a> {
    type Item = Result<&'a [u8], BadRecord>;

    fn next(&mut self) -> Option<Self::Item> {
        if self.rest.is_empty() {
            return None;
        }
        Some(self.read().ok_or(BadRecord).map(|(track, rest)| {
            self.at += self.rest.len() - rest.len();
            self.rest = rest;
            track
        }))
    }
}
