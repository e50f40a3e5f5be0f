//! The boxes of a `moov`: framed, sorted and counted, which is rule 7.

use crate::counts::Tally;
use crate::framing::{Allowance, Framed};
use crate::kinds::*;
use crate::verdict::Refusal;

/// All boxes that rule 7 counts, whatever container they were met in: where there
/// are two containers of one type, the second is refused before what they hold is counted.
#[derive(Default)]
pub struct Moov<'a> {
    at: usize,
    mvhd: Tally<'a>,
    trak: Tally<'a>,
    tkhd: Tally<'a>,
    edts: Tally<'a>,
    elst: Tally<'a>,
    mdia: Tally<'a>,
    mdhd: Tally<'a>,
    hdlr: Tally<'a>,
    elng: Tally<'a>,
    minf: Tally<'a>,
    media_header: Tally<'a>,
    dinf: Tally<'a>,
    dref: Tally<'a>,
    stbl: Tally<'a>,
    stsd: Tally<'a>,
    stts: Tally<'a>,
    stsc: Tally<'a>,
    stsz: Tally<'a>,
    stco: Tally<'a>,
    mvex: Tally<'a>,
    trex: Tally<'a>,
}

/// The boxes that rule 7 asks for and a later rule reads.
pub struct HeaderBoxes<'m, 'a> {
    pub mvhd: &'m Framed<'a>,
    pub tkhd: &'m Framed<'a>,
    pub mdhd: &'m Framed<'a>,
    pub hdlr: &'m Framed<'a>,
    pub media_header: Kind,
    pub stsd: &'m Framed<'a>,
    pub stts: &'m Framed<'a>,
    pub stsc: &'m Framed<'a>,
    pub stsz: &'m Framed<'a>,
    pub stco: &'m Framed<'a>,
    pub trex: &'m Framed<'a>,
}

impl<'a> Moov<'a> {
    /// Rule 7: container by container in the order of the paper, type by type in each.
    pub fn count(&self) -> Result<HeaderBoxes<'_, 'a>, Refusal> {
        let mvhd = self.mvhd.one(7, self.at)?;
        let trak = self.trak.one(7, self.at)?.at;
        let mvex = self.mvex.one(7, self.at)?.at;

        let tkhd = self.tkhd.one(7, trak)?;
        let edts = self.edts.at_most_one(7)?;
        let mdia = self.mdia.one(7, trak)?.at;
        if let Some(edts) = edts {
            self.elst.one(7, edts.at)?;
        }

        let mdhd = self.mdhd.one(7, mdia)?;
        let hdlr = self.hdlr.one(7, mdia)?;
        self.elng.at_most_one(7)?;
        let minf = self.minf.one(7, mdia)?.at;

        let media_header = self.media_header.one(7, minf)?.kind;
        let dinf = self.dinf.one(7, minf)?.at;
        let stbl = self.stbl.one(7, minf)?.at;

        self.dref.one(7, dinf)?;
        let stsd = self.stsd.one(7, stbl)?;
        let stts = self.stts.one(7, stbl)?;
        let stsc = self.stsc.one(7, stbl)?;
        let stsz = self.stsz.one(7, stbl)?;
        let stco = self.stco.one(7, stbl)?;
        let trex = self.trex.one(7, mvex)?;
        Ok(HeaderBoxes { mvhd, tkhd, mdhd, hdlr, media_header, stsd, stts, stsc, stsz, stco, trex })
    }

    /// Frames what the `moov` holds, and sorts it; gives the allowance that is left.
    pub fn read(
        &mut self,
        moov: Framed<'a>,
        mut allowance: Allowance,
    ) -> Result<Allowance, Refusal> {
        self.at = moov.at;
        let mut boxes = moov.inside();
        while let Some(framed) = boxes.next(&mut allowance)? {
            match framed.kind {
                MVHD => self.mvhd.add(&framed),
                TRAK => self.read_trak(&framed, &mut allowance)?,
                MVEX => self.read_mvex(&framed, &mut allowance)?,
                _ => (),
            }
        }
        Ok(allowance)
    }

    fn read_trak(&mut self, trak: &Framed<'a>, allowance: &mut Allowance) -> Result<(), Refusal> {
        self.trak.add(trak);
        let mut boxes = trak.inside();
        while let Some(framed) = boxes.next(allowance)? {
            match framed.kind {
                TKHD => self.tkhd.add(&framed),
                EDTS => self.read_edts(&framed, allowance)?,
                MDIA => self.read_mdia(&framed, allowance)?,
                _ => (),
            }
        }
        Ok(())
    }

    fn read_edts(&mut self, edts: &Framed<'a>, allowance: &mut Allowance) -> Result<(), Refusal> {
        self.edts.add(edts);
        let mut boxes = edts.inside();
        while let Some(framed) = boxes.next(allowance)? {
            if framed.kind == ELST {
                self.elst.add(&framed);
            }
        }
        Ok(())
    }

    fn read_mdia(&mut self, mdia: &Framed<'a>, allowance: &mut Allowance) -> Result<(), Refusal> {
        self.mdia.add(mdia);
        let mut boxes = mdia.inside();
        while let Some(framed) = boxes.next(allowance)? {
            match framed.kind {
                MDHD => self.mdhd.add(&framed),
                HDLR => self.hdlr.add(&framed),
                ELNG => self.elng.add(&framed),
                MINF => self.read_minf(&framed, allowance)?,
                _ => (),
            }
        }
        Ok(())
    }

    fn read_minf(&mut self, minf: &Framed<'a>, allowance: &mut Allowance) -> Result<(), Refusal> {
        self.minf.add(minf);
        let mut boxes = minf.inside();
        while let Some(framed) = boxes.next(allowance)? {
            match framed.kind {
                VMHD | SMHD | STHD => self.media_header.add(&framed),
                DINF => self.read_dinf(&framed, allowance)?,
                STBL => self.read_stbl(&framed, allowance)?,
                _ => (),
            }
        }
        Ok(())
    }

    fn read_dinf(&mut self, dinf: &Framed<'a>, allowance: &mut Allowance) -> Result<(), Refusal> {
        self.dinf.add(dinf);
        let mut boxes = dinf.inside();
        while let Some(framed) = boxes.next(allowance)? {
            if framed.kind == DREF {
                self.dref.add(&framed);
            }
        }
        Ok(())
    }

    fn read_stbl(&mut self, stbl: &Framed<'a>, allowance: &mut Allowance) -> Result<(), Refusal> {
        self.stbl.add(stbl);
        let mut boxes = stbl.inside();
        while let Some(framed) = boxes.next(allowance)? {
            match framed.kind {
                STSD => self.stsd.add(&framed),
                STTS => self.stts.add(&framed),
                STSC => self.stsc.add(&framed),
                STSZ => self.stsz.add(&framed),
                STCO => self.stco.add(&framed),
                _ => (),
            }
        }
        Ok(())
    }

    fn read_mvex(&mut self, mvex: &Framed<'a>, allowance: &mut Allowance) -> Result<(), Refusal> {
        self.mvex.add(mvex);
        let mut boxes = mvex.inside();
        while let Some(framed) = boxes.next(allowance)? {
            if framed.kind == TREX {
                self.trex.add(&framed);
            }
        }
        Ok(())
    }
}
