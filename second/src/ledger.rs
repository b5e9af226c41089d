//! The plain ledger of codewords (01, "Bits and books", demand 3).
//!
//! It is fed lengths alone and keeps the codewords handed out. It takes time in
//! the number of codewords for each answer; [`crate::space`] gives the same
//! answers faster and the checks compare the two.

/// Lengths a codeword can have.
pub const LENGTHS: std::ops::RangeInclusive<u32> = 1..=32;

/// All 32-bit strings.
pub const STRINGS: u64 = 1 << 32;

/// A string of 1 to 32 bits, leftmost bit first.
#[derive(Clone, Copy, Debug, PartialEq, Eq)]
pub struct Codeword {
    pub length: u32,
    /// The bits as a number, the leftmost being the highest of `length` bits.
    pub bits: u32,
}

impl Codeword {
    /// The least 32-bit string that begins with this codeword.
    fn first_string(self) -> u64 {
        u64::from(self.bits) << (32 - self.length)
    }

    /// One past the greatest 32-bit string that begins with this codeword.
    fn end_of_strings(self) -> u64 {
        self.first_string() + share(self.length)
    }

    /// The bit at a place counted from the left.
    pub fn bit(self, place: u32) -> u32 {
        self.bits >> (self.length - 1 - place) & 1
    }
}

/// How many 32-bit strings begin with one codeword of a length.
pub fn share(length: u32) -> u64 {
    STRINGS >> length
}

/// The codewords handed out, in order of the strings that begin with them.
#[derive(Clone, Debug, Default)]
pub struct Ledger {
    handed_out: Vec<Codeword>,
}

impl Ledger {
    /// The lowest free codeword of a length, which is then handed out, or `None`
    /// where none is free; then, and for a length outside 1 to 32, nothing changes.
    pub fn enter(&mut self, length: u32) -> Option<Codeword> {
        if !LENGTHS.contains(&length) {
            return None;
        }
        let codeword = self.lowest_free(length)?;
        let first = codeword.first_string();
        let place = self.handed_out.partition_point(|other| other.first_string() < first);
        self.handed_out.insert(place, codeword);
        Some(codeword)
    }

    /// Free means: no string that begins with it begins with one handed out (01).
    fn lowest_free(&self, length: u32) -> Option<Codeword> {
        let share = share(length);
        let mut first = 0;
        for other in &self.handed_out {
            if first + share <= other.first_string() {
                break;
            }
            first = first.max(other.end_of_strings().next_multiple_of(share));
        }
        let bits = u32::try_from(first >> (32 - length)).ok()?;
        (first < STRINGS).then_some(Codeword { length, bits })
    }

    /// How many 32-bit strings begin with no codeword handed out.
    pub fn free_strings(&self) -> u64 {
        let mut free = 0;
        let mut covered = 0;
        for codeword in &self.handed_out {
            free += codeword.first_string() - covered;
            covered = codeword.end_of_strings();
        }
        free + (STRINGS - covered)
    }
}

/// The ledger's answer to each length of a list in turn, and the strings left free.
pub fn answers(lengths: &[u32]) -> (Vec<Option<Codeword>>, u64) {
    let mut ledger = Ledger::default();
    let answers = lengths.iter().map(|&length| ledger.enter(length)).collect();
    (answers, ledger.free_strings())
}
