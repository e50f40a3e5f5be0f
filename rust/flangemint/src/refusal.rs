//! The rules that a slice, a track or a set can break.

use std::fmt;

/// A number that no rule has.
#[derive(Clone, Copy, Debug, PartialEq, Eq)]
pub struct UnknownNumber(pub u64);

impl fmt::Display for UnknownNumber {
    fn fmt(&self, f: &mut fmt::Formatter) -> fmt::Result {
        write!(f, "No rule has the number {}.", self.0)
    }
}

impl std::error::Error for UnknownNumber {}

/// One line a rule: its number, its name, its sentence.
macro_rules! refusals {
    ($($number:literal $name:ident $sentence:literal)*) => {
        /// The rule that is broken; its number is that of the verdict.
        #[derive(Clone, Copy, Debug, PartialEq, Eq, Hash, PartialOrd, Ord)]
        #[repr(u64)]
        pub enum Refusal {
            $(#[doc = $sentence] $name = $number,)*
        }

        impl Refusal {
            /// Every rule, in the order of the numbers.
            pub const ALL: &'static [Refusal] = &[$(Refusal::$name),*];

            /// What is wrong, in one sentence.
            pub fn sentence(self) -> &'static str {
                match self {
                    $(Refusal::$name => $sentence,)*
                }
            }
        }

        impl TryFrom<u64> for Refusal {
            type Error = UnknownNumber;

            fn try_from(number: u64) -> Result<Refusal, UnknownNumber> {
                match number {
                    $($number => Ok(Refusal::$name),)*
                    _ => Err(UnknownNumber(number)),
                }
            }
        }
    };
}

refusals! {
    1 TooLong "The slice is longer than 1,073,741,824 bytes."
    2 HeaderCut "Too few bytes are left in the parent for a box header."
    3 SizeTooSmall "The size of the box is 0 or smaller than its own header."
    4 BeyondParent "The box ends beyond its parent."
    5 TooManyBoxes "Bytes remain after 65,536 boxes."
    6 TopLevelOrder "The top level is not ftyp, moov, then pairs of moof and mdat."
    7 HeaderCount "A box of the header is missing, or there is one too many."
    8 HeaderBody "A box of the header has the wrong size or version."
    9 NoCmafBrand "Neither cmfc nor cmf2 is among the compatible brands."
    10 ZeroTimescale "The timescale in mdhd is 0."
    11 TrackId "The track ID in tkhd is 0, or trex has another one."
    12 HandlerPair "The handler and the media header do not belong together."
    13 SampleTable "A sample table of the header is not empty, or stsd has not exactly one entry."
    14 ChunkCount "A box of the chunk is missing, or there is one too many."
    15 ChunkBody "A box of the chunk has the wrong size or version."
    16 ChunkFlags "A flag of the chunk is forbidden or missing."
    17 ChunkTrackId "The track ID in tfhd is not that in tkhd."
    18 SampleCount "The chunk has no sample, or more than 65,536."
    19 ChunkStart "The chunk does not start where the one before it ended."
    20 ChunkDuration "The chunk lasts no time, or ends after tick 2^63 - 1."
    21 NonSyncStart "The first sample of the track is not a sync sample."
    22 SampleBytes "The bytes of the samples do not fill the data box exactly, one after the other."
    23 TableTooShort "The lent table is too short."
    24 Bundle "The bundle is not a run of 1 to 16 well-framed records."
    25 OtherHandler "The handler is not that of track 0."
    26 OtherTimescale "The timescale is not that of track 0."
    27 OtherFragmentCount "The number of fragments is not that of track 0."
    28 OtherBoundary "A fragment boundary is not where track 0 has it."
    29 LargeBox "A ftyp, moov or moof of a track in pieces declares over 32,768 bytes."
}

impl Refusal {
    pub fn number(self) -> u64 {
        self as u64
    }
}

impl fmt::Display for Refusal {
    fn fmt(&self, f: &mut fmt::Formatter) -> fmt::Result {
        f.write_str(self.sentence())
    }
}

impl std::error::Error for Refusal {}

#[cfg(test)]
mod tests {
    use super::*;

    #[test]
    fn one_variant_a_number() {
        let numbers: Vec<u64> = Refusal::ALL.iter().map(|refusal| refusal.number()).collect();
        assert_eq!(numbers, (1..=29).collect::<Vec<_>>());
        for refusal in Refusal::ALL {
            assert_eq!(Refusal::try_from(refusal.number()), Ok(*refusal));
            assert!(refusal.to_string().ends_with('.'));
        }
        assert_eq!(Refusal::try_from(0), Err(UnknownNumber(0)));
        assert_eq!(Refusal::try_from(30), Err(UnknownNumber(30)));
    }
}
