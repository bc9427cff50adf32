//! Stands in for the repository's bit reader. Assumed from linepack.rs: its module comment reads
//! the octet maps as a stream with the least significant bit of each octet first, and
//! `FrameWriter` mirrors the reader's order. A read past the end is assumed to be an error. Only
//! `unpack_frame` uses it, and the oracle calls no function that does.

use crate::stubs::core::{Error, Result};

pub struct BitReader<'a> {
    data: &'a [u8],
    place: usize,
}

impl<'a> BitReader<'a> {
    /// Starts at the first bit.
    pub fn new(data: &'a [u8]) -> Self {
        Self { data, place: 0 }
    }

    /// The next `count` bits, the first of them least significant.
    pub fn read_u32(&mut self, count: u32) -> Result<u32> {
        let mut value = 0;
        for i in 0..count {
            let Some(octet) = self.data.get(self.place / 8) else {
                return Err(Error::invalid("bit reader: past the end"));
            };
            value |= u32::from(octet >> (self.place % 8) & 1) << i;
            self.place += 1;
        }
        Ok(value)
    }
}
