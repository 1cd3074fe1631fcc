//! The three types of code, their addresses, and how an image is cut into pieces.

/// "Type and address pair as 1: 0x8000, 2: 0x0000, 3: 0x3E000."
#[derive(Clone, Copy, Debug, PartialEq, Eq)]
pub enum Kind {
    Navigation,
    Loader,
    Settings,
}

impl Kind {
    pub fn from_number(number: u16) -> Option<Kind> {
        match number {
            1 => Some(Kind::Navigation),
            2 => Some(Kind::Loader),
            3 => Some(Kind::Settings),
            _ => None,
        }
    }

    pub fn number(self) -> u16 {
        match self {
            Kind::Navigation => 1,
            Kind::Loader => 2,
            Kind::Settings => 3,
        }
    }

    /// Where the image goes in the flash.
    pub fn base(self) -> u32 {
        match self {
            Kind::Navigation => 0x8000,
            Kind::Loader => 0,
            Kind::Settings => 0x3E000,
        }
    }

    /// What stands as the address in command 0x02: "the 0 in the command is only a token".
    pub fn token(self) -> u32 {
        match self {
            Kind::Settings => 0x3E000,
            Kind::Navigation | Kind::Loader => 0,
        }
    }
}

/// The largest piece whose packet, nothing escaped, is on a line of so many bits a second for at most 500 ms of the 1,000 that an answer may
/// take: head, Length (2), device, command, Total (2), PkNo (2), PkSize (2), check and tail stand beside the piece. One byte where none is.
pub fn piece_for(baud: u32) -> u32 {
    let bits = |piece: u32| u64::from(piece + 13) * 10;
    (1..=MAX_PIECE).rev().find(|&piece| bits(piece) * 1_000 <= 500 * u64::from(baud)).unwrap_or(1)
}

/// The largest image: "over 262,143" is too long.
pub const MAX_IMAGE: u64 = 262_143;

/// The largest piece of an image in one packet.
pub const MAX_PIECE: u32 = 1_024;

/// The largest count of pieces.
pub const MAX_PIECES: u32 = 65_535;

/// "image length 0, over 262,143 or no multiple of 4" is number 8.
pub fn image_length_allowed(length: u64) -> bool {
    length != 0 && length <= MAX_IMAGE && length.is_multiple_of(4)
}

/// How many pieces of this size an image takes; none where the size is 0 or there would be more than 65,535.
pub fn pieces(length: u32, size: u32) -> Option<u16> {
    if size == 0 {
        return None;
    }
    u16::try_from(length.div_ceil(size)).ok()
}
