//! The refusal numbers of document 01. The host's 21 and 22 carry a byte and are cases of its own answer.

#[derive(Clone, Copy, Debug, PartialEq, Eq)]
#[repr(u8)]
pub enum Refusal {
    PayloadTooLong = 1,
    OutputTooShort = 2,
    OtherLength = 3,
    FileEnds = 4,
    NoMark = 5,
    TypeOrAddress = 6,
    StartTooLow = 7,
    ImageLength = 8,
    NotZeroFilled = 9,
    CheckDiffers = 10,
    Pieces = 11,
    NoAnswer = 20,
}

impl Refusal {
    pub fn number(self) -> u8 {
        self as u8
    }
}
