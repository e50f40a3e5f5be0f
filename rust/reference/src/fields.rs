//! Reading a box body field by field; a read beyond the body gives `None`.

pub struct Fields<'a>(&'a [u8]);

impl<'a> Fields<'a> {
    pub fn of(body: &'a [u8]) -> Self {
        Fields(body)
    }

    fn array<const N: usize>(&mut self) -> Option<[u8; N]> {
        let (field, rest) = self.0.split_first_chunk()?;
        self.0 = rest;
        Some(*field)
    }

    pub fn u32(&mut self) -> Option<u32> {
        self.array().map(u32::from_be_bytes)
    }

    pub fn u64(&mut self) -> Option<u64> {
        self.array().map(u64::from_be_bytes)
    }

    /// The first word of a full box: version, then 24 bits of flags.
    pub fn version_and_flags(&mut self) -> Option<(u32, u32)> {
        let word = self.u32()?;
        Some((word >> 24, word & 0x00FF_FFFF))
    }

    pub fn skip(&mut self, bytes: usize) -> Option<()> {
        self.0 = self.0.get(bytes..)?;
        Some(())
    }

    /// What is left to read.
    pub fn rest(&self) -> &'a [u8] {
        self.0
    }
}

/// The body as four-byte words; odd bytes at the end belong to none.
pub fn words(body: &[u8]) -> impl Iterator<Item = u32> + '_ {
    body.as_chunks().0.iter().copied().map(u32::from_be_bytes)
}
