//! Entering lengths in a time that does not grow with what was entered before.
//!
//! When each codeword is the lowest free of its length, the free strings always
//! form blocks of different sizes, the smaller before the larger: the lowest free
//! codeword of a length is the beginning of the smallest block that holds it, and
//! what is left of that block are blocks of each size between, in ascending order.

use crate::ledger::{share, Codeword, LENGTHS, STRINGS};

/// The free blocks: at place `length` the first string of the free block that is
/// one codeword of that length wide, if there is one.
#[derive(Clone, Debug)]
pub struct CodeSpace {
    blocks: [Option<u64>; 33],
}

impl Default for CodeSpace {
    fn default() -> Self {
        let mut blocks = [None; 33];
        blocks[0] = Some(0);
        CodeSpace { blocks }
    }
}

impl CodeSpace {
    /// The lowest free codeword of a length, which is taken, or `None` where its
    /// share exceeds the free space or the length is outside 1 to 32.
    pub fn enter(&mut self, length: u32) -> Option<Codeword> {
        if !LENGTHS.contains(&length) {
            return None;
        }
        let size = (0..=length).rev().find(|&size| self.blocks[size as usize].is_some())?;
        let first = self.blocks[size as usize].take()?;
        for rest in size + 1..=length {
            self.blocks[rest as usize] = Some(first + share(rest));
        }
        let bits = (first >> (32 - length)) as u32;
        Some(Codeword { length, bits })
    }

    /// How many 32-bit strings are left.
    pub fn free_strings(&self) -> u64 {
        let sizes = (0..=32).filter(|&size| self.blocks[size].is_some());
        sizes.map(|size| STRINGS >> size).sum()
    }
}

/// The answer to each length of a list that is entered from an empty space: the codeword,
/// or `None` where it is refused, which changes nothing.
pub fn answers(lengths: &[u8]) -> Vec<Option<Codeword>> {
    let mut space = CodeSpace::default();
    lengths.iter().map(|&length| space.enter(length.into())).collect()
}
