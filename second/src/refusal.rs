//! Refusals (01, "When the packet is sent back").

use crate::bits::Cut;

/// A refusal's number, with the place it speaks of for diagnosis.
#[derive(Clone, Copy, Debug, PartialEq, Eq)]
pub struct Refusal {
    /// 1 to 19, as the table of 01 has it; this alone is the public answer.
    pub number: u8,
    /// The bit at which the judged field began, 0 for 17 to 19 (02, wish 9).
    pub place: u64,
}

impl Refusal {
    /// A refusal that no field of the packet gives cause for: 17, 18 or 19.
    pub const fn without_place(number: u8) -> Self {
        Refusal { number, place: 0 }
    }

    /// A refusal for the field that began at `place`.
    pub const fn at(number: u8, place: u64) -> Self {
        Refusal { number, place }
    }
}

impl From<Cut> for Refusal {
    /// A needed bit lies past the end: 1.
    fn from(cut: Cut) -> Self {
        Refusal::at(1, cut.place)
    }
}

/// The refusal at `place` unless the rule holds.
pub fn require(holds: bool, number: u8, place: u64) -> Result<(), Refusal> {
    if holds {
        Ok(())
    } else {
        Err(Refusal::at(number, place))
    }
}
