//! The program's own checks: published streams and generated ones.

pub mod generated;
pub mod hand_made;
pub mod published;

use crate::refusal::Refusal;
use std::fmt;

/// How often each refusal number was given; place 0 counts acceptances.
#[derive(Clone, Copy, Debug, Default, PartialEq, Eq)]
pub struct Counts {
    numbers: [u64; 20],
}

impl Counts {
    pub fn add<T>(&mut self, answer: &Result<T, Refusal>) {
        let number = answer.as_ref().err().map_or(0, |refusal| refusal.number);
        self.numbers[usize::from(number)] += 1;
    }

    pub fn accepted(&self) -> u64 {
        self.numbers[0]
    }

    pub fn refused(&self) -> u64 {
        self.numbers[1..].iter().sum()
    }

    /// The numbers of refusals never given.
    pub fn missing(&self) -> Vec<usize> {
        (1..self.numbers.len()).filter(|&number| self.numbers[number] == 0).collect()
    }
}

impl fmt::Display for Counts {
    fn fmt(&self, f: &mut fmt::Formatter) -> fmt::Result {
        write!(f, "accepted {}; refused", self.accepted())?;
        for (number, count) in self.numbers.iter().enumerate().skip(1).filter(|(_, &count)| count != 0) {
            write!(f, " {number}:{count}")?;
        }
        Ok(())
    }
}

/// A packet in hexadecimal, for a report.
pub fn hex(packet: &[u8]) -> String {
    packet.iter().map(|byte| format!("{byte:02x}")).collect()
}

/// An error with its message unless the claim holds.
fn claim(holds: bool, message: impl FnOnce() -> String) -> Result<(), String> {
    if holds {
        Ok(())
    } else {
        Err(message())
    }
}
