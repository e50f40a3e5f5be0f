//! One chunk, a `moof` and its `mdat`: rules 14 to 22.

use crate::fields::Fields;
use crate::framing::Framed;
use crate::header::Header;
use crate::moof::Moof;
use crate::run::{Run, SampleDefaults, Tfhd};
use crate::verdict::Refusal;
use crate::MAX_SAMPLES;

const NON_SYNC: u32 = 0x0001_0000;
const LAST_TICK: u64 = (1 << 63) - 1;

/// What the track keeps of a good chunk.
pub struct Chunk {
    /// The tick at which it starts.
    pub start: u64,
    pub end: u64,
    /// Its first sample is sync, so that it begins a fragment.
    pub is_sync: bool,
}

/// A data box, whose bytes no rule reads.
pub struct DataBox {
    pub at: usize,
    /// The header's length.
    pub header: usize,
    pub payload: u64,
}

impl From<Framed<'_>> for DataBox {
    fn from(mdat: Framed) -> DataBox {
        DataBox { at: mdat.at, header: mdat.header(), payload: mdat.body.len() as u64 }
    }
}

/// Rules 14 to 22, in their order; `clock` is the end of the chunk before. The track's first
/// chunk has none before: 21 is for that one alone, and 19 for all others.
pub fn check(
    header: &Header,
    moof: &Moof,
    mdat: &DataBox,
    clock: Option<u64>,
) -> Result<Chunk, Refusal> {
    let mfhd = moof.mfhd.one(14, moof.at)?;
    let traf = moof.traf.one(14, moof.at)?;
    let tfhd = moof.tfhd.one(14, traf.at)?;
    let tfdt = moof.tfdt.one(14, traf.at)?;
    let runs = &moof.runs;
    let Some(first_run) = runs.first_at else {
        return Err(traf.refused(14));
    };

    mfhd.parsed(15, mfhd_fields)?;
    let tfhd_fields = tfhd.parsed(15, |body| Tfhd::parse(body, &header.defaults))?;
    let start = tfdt.parsed(15, start)?;
    if let Some(place) = runs.bad_body {
        return Err(Refusal::new(15, place));
    }
    if !tfhd_fields.has_good_flags() {
        return Err(tfhd.refused(16));
    }
    if let Some(place) = runs.flags_twice {
        return Err(Refusal::new(16, place));
    }
    if tfhd_fields.track_id != header.track_id {
        return Err(tfhd.refused(17));
    }
    if !(1..=MAX_SAMPLES).contains(&runs.samples) {
        return Err(traf.refused(18));
    }
    if clock.is_some_and(|clock| clock != start) {
        return Err(tfdt.refused(19));
    }

    // Only now are samples summed: rule 18 keeps every sum below far from 2^64.
    let payload = (moof.size + mdat.header) as u64;
    let mut totals = Totals::new(payload);
    runs.each(|at, run| totals.add(at, run, &tfhd_fields.defaults));
    let end = start.checked_add(totals.duration).filter(|end| *end <= LAST_TICK);
    let (Some(end), 1..) = (end, totals.duration) else {
        return Err(Refusal::new(20, first_run));
    };
    // Rule 18: there is a first sample.
    let is_sync = totals.first_flags.is_none_or(|flags| flags & NON_SYNC == 0);
    if clock.is_none() && !is_sync {
        return Err(Refusal::new(21, first_run));
    }
    if let Some(place) = totals.wrong_run {
        return Err(Refusal::new(22, place));
    }
    if totals.next - payload != mdat.payload {
        return Err(Refusal::new(22, mdat.at));
    }
    Ok(Chunk { start, end, is_sync })
}

/// Rule 15 for `mfhd`: 16 bytes of version 0.
#[inline(always)]
fn mfhd_fields(body: &[u8]) -> Option<()> {
    let mut fields = Fields::of(body);
    let (version, _) = fields.version_and_flags()?;
    let _sequence_number = fields.u32()?;
    (version == 0 && fields.rest().is_empty()).then_some(())
}

/// Rule 15 for `tfdt`: the start of the chunk.
#[inline(always)]
fn start(body: &[u8]) -> Option<u64> {
    let mut fields = Fields::of(body);
    let start = match fields.version_and_flags()? {
        (0, _) => u64::from(fields.u32()?),
        (1, _) => fields.u64()?,
        _ => return None,
    };
    fields.rest().is_empty().then_some(start)
}

/// What the runs of a chunk come to, as far as they were added.
struct Totals {
    duration: u64,
    /// Where the next run's bytes begin, counted from the `moof`.
    next: u64,
    /// No run was added yet.
    is_first: bool,
    /// Of the chunk's first sample.
    first_flags: Option<u32>,
    /// The first run whose offset breaks rule 22.
    wrong_run: Option<usize>,
}

impl Totals {
    /// `payload` is where the samples begin, counted from the `moof`.
    fn new(payload: u64) -> Self {
        Totals { duration: 0, next: payload, is_first: true, first_flags: None, wrong_run: None }
    }

    /// Takes the next run, which stands at this place.
    #[inline(always)]
    fn add(&mut self, at: usize, run: &Run, defaults: &SampleDefaults) {
        let is_right = match run.offset {
            Some(offset) => u64::try_from(offset) == Ok(self.next),
            None => !self.is_first,
        };
        if !is_right {
            self.wrong_run.get_or_insert(at);
        }
        self.is_first = false;
        let [duration, size] = run.duration_and_size(defaults);
        self.duration += duration;
        self.next += size;
        self.first_flags = self.first_flags.or_else(|| run.first_flags(defaults));
    }
}
