//! The written limits behind refusal 14.

/// The greatest sizes a reader takes; anything above is refusal 14.
#[derive(Clone, Copy, Debug, PartialEq, Eq)]
pub struct Limits {
    pub channels: u32,
    pub entries_in_a_book: u32,
    pub entries_in_all: u32,
    pub multiplicands_in_all: u64,
}

impl Limits {
    /// The limits of 01, row 14.
    pub const BASE: Limits = Limits {
        channels: 8,
        entries_in_a_book: 8_192,
        entries_in_all: 16_384,
        multiplicands_in_all: 16_384,
    };
}
