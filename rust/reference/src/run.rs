//! `tfhd` and `trun`: where a sample's duration, size and flags come from.

use crate::fields::{words, Fields};
use crate::sums;

/// The values of a sample whose run carries none of its own.
#[derive(Clone, Copy)]
pub struct SampleDefaults {
    pub duration: u32,
    pub size: u32,
    pub flags: u32,
}

/// `tfhd`: its defaults stand before those of `trex`.
pub struct Tfhd {
    flags: u32,
    pub track_id: u32,
    pub defaults: SampleDefaults,
}

impl Tfhd {
    /// Rule 15 for `tfhd`: the flags decide the size, to the byte.
    #[inline(always)]
    pub fn parse(body: &[u8], trex: &SampleDefaults) -> Option<Tfhd> {
        let mut fields = Fields::of(body);
        let (version, flags) = fields.version_and_flags()?;
        let track_id = fields.u32()?;
        if flags & 0x1 != 0 {
            fields.skip(8)?; // base data offset
        }
        if flags & 0x2 != 0 {
            fields.skip(4)?; // sample description index
        }
        let mut field_or = |flag: u32, default: u32| match flags & flag {
            0 => Some(default),
            _ => fields.u32(),
        };
        let defaults = SampleDefaults {
            duration: field_or(0x8, trex.duration)?,
            size: field_or(0x10, trex.size)?,
            flags: field_or(0x20, trex.flags)?,
        };
        (version == 0 && fields.rest().is_empty()).then_some(Tfhd { flags, track_id, defaults })
    }

    /// Rule 16: no base data offset, not empty, and offsets count from the `moof`.
    pub fn has_good_flags(&self) -> bool {
        self.flags & 0x03_0001 == 0x02_0000
    }
}

/// One `trun`. Its rows hold, of duration, size, flags and composition
/// offset, those that the run carries.
pub struct Run<'a> {
    flags: u32,
    pub count: u32,
    pub offset: Option<i32>,
    first_sample_flags: Option<u32>,
    rows: &'a [u8],
}

const DURATION: u32 = 0x100;
const SIZE: u32 = 0x200;
const FLAGS: u32 = 0x400;
const COMPOSITION_OFFSET: u32 = 0x800;

impl<'a> Run<'a> {
    /// Rule 15 for `trun`: flags and count decide the size, to the byte.
    #[inline(always)]
    pub fn parse(body: &'a [u8]) -> Option<Run<'a>> {
        let mut fields = Fields::of(body);
        let (version, flags) = fields.version_and_flags()?;
        let count = fields.u32()?;
        let mut field_if = |flag: u32| match flags & flag {
            0 => Some(None),
            _ => fields.u32().map(Some),
        };
        let offset = field_if(0x1)?.map(u32::cast_signed);
        let first_sample_flags = field_if(0x4)?;
        let rows = fields.rest();
        let run = Run { flags, count, offset, first_sample_flags, rows };
        // Count times width needs more than 32 bits.
        let whole = u64::from(count) * 4 * run.columns() as u64;
        (version <= 1 && rows.len() as u64 == whole).then_some(run)
    }

    /// Rule 16: first-sample flags beside flags for every sample.
    pub fn has_flags_twice(&self) -> bool {
        self.first_sample_flags.is_some() && self.has(FLAGS)
    }

    /// Duration and size of all samples. What the run carries is summed, what it doesn't carry
    /// is a product.
    #[inline(always)]
    pub fn duration_and_size(&self, defaults: &SampleDefaults) -> [u64; 2] {
        let (has_duration, has_size) = (self.has(DURATION), self.has(SIZE));
        let [first, second] = if has_duration || has_size { self.first_two_sums() } else { [0; 2] };
        let product = |value: u32| u64::from(self.count) * u64::from(value);
        let duration = if has_duration { first } else { product(defaults.duration) };
        let size = match (has_duration, has_size) {
            (true, true) => second,
            (false, true) => first,
            (_, false) => product(defaults.size),
        };
        [duration, size]
    }

    /// The flags of the run's first sample, if it has one.
    pub fn first_flags(&self, defaults: &SampleDefaults) -> Option<u32> {
        if self.count == 0 {
            return None;
        }
        if self.first_sample_flags.is_some() {
            return self.first_sample_flags;
        }
        if self.has(FLAGS) {
            return words(self.rows).nth(self.count_of([DURATION, SIZE]));
        }
        Some(defaults.flags)
    }

    /// Durations and sizes are the first two columns, or the first, of those there are.
    fn first_two_sums(&self) -> [u64; 2] {
        match self.columns() {
            1 => [sums::of_words(self.rows), 0],
            2 => sums::of_pairs(self.rows.as_chunks::<8>().0),
            3 => sums::of_pairs(self.rows.as_chunks::<12>().0),
            _ => sums::of_pairs(self.rows.as_chunks::<16>().0),
        }
    }

    /// How many fields a row has.
    fn columns(&self) -> usize {
        self.count_of([DURATION, SIZE, FLAGS, COMPOSITION_OFFSET])
    }

    /// How many of these fields the run carries.
    fn count_of<const N: usize>(&self, fields: [u32; N]) -> usize {
        fields.iter().filter(|field| self.has(**field)).count()
    }

    /// Does the run carry this field?
    fn has(&self, field: u32) -> bool {
        self.flags & field != 0
    }
}
