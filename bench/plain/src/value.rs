use crate::code::Code;
use crate::meter::Meter;
use crate::refusal::Refusal;

/// The value of a call while it is written, behind the left text into the gap of the scan area.
pub struct Value<'a> {
    gap: &'a mut [u8],
    /// The left and the right text.
    used: usize,
    /// What is written is counted even where it does not fit.
    length: usize,
}

impl<'a> Value<'a> {
    pub fn new(gap: &'a mut [u8], used: usize) -> Value<'a> {
        Value { gap, used, length: 0 }
    }

    pub fn length(&self) -> usize {
        self.length
    }

    pub fn push(&mut self, text: &[u8]) {
        if let Some(place) = self.gap.get_mut(self.length..self.length + text.len()) {
            place.copy_from_slice(text);
        }
        self.length += text.len();
    }

    pub fn push_bytes(&mut self, bytes: impl Iterator<Item = u8>) {
        for byte in bytes {
            self.push(&[byte]);
        }
    }

    pub fn push_without_marks(&mut self, code: &Code, text: &[u8]) {
        for run in text.split(|&byte| code.is_mark(byte)) {
            self.push(run);
        }
    }

    /// Has the scan room for both texts and the value?
    pub fn fit(&self, meter: &mut Meter) -> Result<(), Refusal> {
        meter.scan(self.used + self.length)
    }
}
