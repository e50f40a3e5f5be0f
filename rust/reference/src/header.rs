//! The track header: rules 7 to 13.

use crate::fields::{words, Fields};
use crate::framing::{Framed, SHORT_HEADER};
use crate::kinds::*;
use crate::moov::{HeaderBoxes, Moov};
use crate::run::SampleDefaults;
use crate::verdict::Refusal;

/// What the chunks and the set need from a good header.
pub struct Header {
    pub track_id: u32,
    pub timescale: u32,
    pub handler: Kind,
    pub mdhd_at: usize,
    pub hdlr_at: usize,
    pub defaults: SampleDefaults,
}

/// Rules 7 to 13, in their order.
pub fn check(ftyp: &Framed, moov: &Moov) -> Result<Header, Refusal> {
    let boxes = moov.count()?;
    let HeaderBoxes { mvhd, tkhd, mdhd, hdlr, stsd, stts, stsc, stsz, stco, trex, .. } = boxes;

    // Rule 8: every body is read before any of its fields is judged.
    let has_brand = ftyp.parsed(8, has_brand)?;
    mvhd.parsed(8, |body| word_after_times(body, [108, 120]))?;
    let track_id = tkhd.parsed(8, |body| word_after_times(body, [92, 104]))?;
    let timescale = mdhd.parsed(8, |body| word_after_times(body, [32, 44]))?;
    let handler = hdlr.parsed(8, handler)?;
    let stsd_entries = stsd.parsed(8, entry_count)?;
    let stts_entries = stts.parsed(8, entry_count)?;
    let stsc_entries = stsc.parsed(8, entry_count)?;
    let stco_entries = stco.parsed(8, entry_count)?;
    let stsz_samples = stsz.parsed(8, sample_count)?;
    let (trex_track_id, defaults) = trex.parsed(8, trex_fields)?;

    ensure(has_brand, 9, ftyp)?;
    ensure(timescale != 0, 10, mdhd)?;
    ensure(track_id != 0, 11, tkhd)?;
    ensure(trex_track_id == track_id, 11, trex)?;
    ensure(pair(handler, boxes.media_header), 12, hdlr)?;
    ensure(stsd_entries == 1, 13, stsd)?;
    ensure(stts_entries == 0, 13, stts)?;
    ensure(stsc_entries == 0, 13, stsc)?;
    ensure(stsz_samples == 0, 13, stsz)?;
    ensure(stco_entries == 0, 13, stco)?;

    let (mdhd_at, hdlr_at) = (mdhd.at, hdlr.at);
    Ok(Header { track_id, timescale, handler, mdhd_at, hdlr_at, defaults })
}

/// The rule is broken at this box, unless it holds.
fn ensure(holds: bool, rule: u64, framed: &Framed) -> Result<(), Refusal> {
    if holds {
        Ok(())
    } else {
        Err(framed.refused(rule))
    }
}

/// Rule 8 for `ftyp`; tells whether rule 9 holds. The major brand and the
/// minor version come first and don't count.
fn has_brand(body: &[u8]) -> Option<bool> {
    if body.len() < 8 || !body.len().is_multiple_of(4) {
        return None;
    }
    Some(words(body).skip(2).any(|brand| matches!(brand, CMFC | CMF2)))
}

/// `mvhd`, `tkhd` and `mdhd` begin alike: version and flags, then two times
/// whose width the version decides, as it decides the whole size. The word
/// after the times is the timescale, and in `tkhd` the track ID.
fn word_after_times(body: &[u8], whole_sizes: [usize; 2]) -> Option<u32> {
    let mut fields = Fields::of(body);
    let (version, _) = fields.version_and_flags()?;
    let (whole_size, times) = match version {
        0 => (whole_sizes[0], 8),
        1 => (whole_sizes[1], 16),
        _ => return None,
    };
    if body.len() + SHORT_HEADER != whole_size {
        return None;
    }
    fields.skip(times)?;
    fields.u32()
}

/// Rule 8 for `hdlr`: the handler type, if the box has its fixed fields.
fn handler(body: &[u8]) -> Option<Kind> {
    if body.len() + SHORT_HEADER < 32 {
        return None;
    }
    words(body).nth(2)
}

/// Rule 8 for `stsd`, `stts`, `stsc` and `stco`, which begin alike.
fn entry_count(body: &[u8]) -> Option<u32> {
    words(body).nth(1)
}

/// Rule 8 for `stsz`, whose sample count follows the sample size.
fn sample_count(body: &[u8]) -> Option<u32> {
    words(body).nth(2)
}

/// Rule 8 for `trex`: the track ID and the defaults, if it is 32 bytes of version 0.
fn trex_fields(body: &[u8]) -> Option<(u32, SampleDefaults)> {
    let mut fields = Fields::of(body);
    let (version, _) = fields.version_and_flags()?;
    let track_id = fields.u32()?;
    let _description_index = fields.u32()?;
    let defaults =
        SampleDefaults { duration: fields.u32()?, size: fields.u32()?, flags: fields.u32()? };
    (version == 0 && fields.rest().is_empty()).then_some((track_id, defaults))
}

/// Rule 12.
fn pair(handler: Kind, media_header: Kind) -> bool {
    matches!((handler, media_header), (VIDE, VMHD) | (SOUN, SMHD) | (SUBT, STHD))
}
