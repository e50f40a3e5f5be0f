//! Box types, handlers and brands as big-endian numbers.

pub type Kind = u32;

macro_rules! kinds {
    ($($name:ident $letters:literal),* $(,)?) => {
        $(pub const $name: Kind = Kind::from_be_bytes(*$letters);)*
    };
}

kinds! {
    FTYP b"ftyp", MOOV b"moov", MOOF b"moof", MDAT b"mdat",
    MVHD b"mvhd", TRAK b"trak", MVEX b"mvex",
    TKHD b"tkhd", EDTS b"edts", MDIA b"mdia", ELST b"elst",
    MDHD b"mdhd", HDLR b"hdlr", ELNG b"elng", MINF b"minf",
    VMHD b"vmhd", SMHD b"smhd", STHD b"sthd", DINF b"dinf", STBL b"stbl", DREF b"dref",
    STSD b"stsd", STTS b"stts", STSC b"stsc", STSZ b"stsz", STCO b"stco", TREX b"trex",
    MFHD b"mfhd", TRAF b"traf", TFHD b"tfhd", TFDT b"tfdt", TRUN b"trun",
    VIDE b"vide", SOUN b"soun", SUBT b"subt",
    CMFC b"cmfc", CMF2 b"cmf2",
}
