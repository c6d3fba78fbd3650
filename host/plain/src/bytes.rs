//! Reading bytes one after the other.

use crate::refusal::Refusal;

/// Bytes, and how far they have been read.
pub(crate) struct Bytes<'a> {
    bytes: &'a [u8],
    at: usize,
}

impl<'a> Bytes<'a> {
    /// Nothing read yet.
    pub(crate) fn new(bytes: &'a [u8]) -> Bytes<'a> {
        Bytes { bytes, at: 0 }
    }

    /// Where the next byte stands, or would stand.
    pub(crate) fn place(&self) -> usize {
        self.at
    }

    /// Whether all bytes have been read.
    pub(crate) fn ended(&self) -> bool {
        self.at == self.bytes.len()
    }

    /// The next byte; if there is none, the refusal of this number at the end of the bytes.
    pub(crate) fn next(&mut self, number_if_ended: u64) -> Result<u8, Refusal> {
        if self.ended() {
            return Err(Refusal::at(number_if_ended, self.bytes.len()));
        }
        let byte = self.bytes[self.at];
        self.at += 1;
        Ok(byte)
    }
}
