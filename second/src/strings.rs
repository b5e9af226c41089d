//! Counting 32-bit strings by halves, without entering anything (01, demand 3): what is
//! free is the number of strings that begin with no codeword handed out.
//!
//! A string that begins with two of the codewords is counted once: shares and free strings
//! come to all 32-bit strings just where no two codewords share one.

use crate::ledger::{share, Codeword, LENGTHS, STRINGS};

/// Up to so many lengths the strings are counted after each answer, else after the last.
const COUNTED_EACH_TIME: usize = 40;

/// How many 32-bit strings begin with none of these codewords.
pub fn free_strings(codewords: &[Codeword]) -> u64 {
    let mut codewords = codewords.to_vec();
    codewords.sort_by_key(|codeword| u64::from(codeword.bits) << (32 - codeword.length));
    free_among(&codewords, 0)
}

/// The same among the strings that agree in so many bits, as the codewords do, which are in
/// the order of their bits.
fn free_among(codewords: &[Codeword], agreed: u32) -> u64 {
    if codewords.is_empty() {
        return STRINGS >> agreed;
    }
    if codewords.iter().any(|codeword| codeword.length == agreed) {
        return 0;
    }
    let (zero, one) = codewords.split_at(codewords.partition_point(|codeword| codeword.bit(agreed) == 0));
    free_among(zero, agreed + 1) + free_among(one, agreed + 1)
}

/// What demand 3 has of the answers to lengths that are entered one by one, whoever gave
/// them: a codeword of the length just where its share does not exceed what is free, and
/// no string is shared. Otherwise what is wrong.
pub fn balance(lengths: &[u8], answers: &[Option<Codeword>]) -> Result<(), String> {
    let mut given = Vec::new();
    let mut free = STRINGS;
    for (entered, (&length, &answer)) in (1..).zip(lengths.iter().zip(answers)) {
        let length = u32::from(length);
        let fits = LENGTHS.contains(&length) && share(length) <= free;
        if answer.is_some() != fits || answer.is_some_and(|codeword| codeword.length != length) {
            return Err(format!("{answer:?} to length {length} with {free} strings free"));
        }
        given.extend(answer);
        free -= answer.map_or(0, |codeword| share(codeword.length));
        if entered <= COUNTED_EACH_TIME || entered == lengths.len() {
            let counted = free_strings(&given);
            if counted != free {
                return Err(format!("{counted} strings free after {entered} lengths, not {free}"));
            }
        }
    }
    Ok(())
}
