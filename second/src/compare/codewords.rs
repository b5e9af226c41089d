//! The codewords of a book's entries: the number and every place of the lent list, zeros
//! on a refusal.

use crate::lent::lend;
use crate::library;
use crate::report::{hex, Answer, Call, Given, Report};
use second::book::{verdict, Verdict};
use second::generate::content::{arrange, complete_lengths};
use second::generate::random::Random;
use second::ledger;

/// What lent places hold before a call.
const FILLING: u32 = 0xA5A5_A5A5;

/// Lists up to this length are handed to the plain ledger too.
pub const PLAIN_LEDGER_ENTRIES: usize = 600;

/// The most entries a book may have (01, row 14).
pub const MOST_ENTRIES: u32 = 8_192;

/// Codewords in a list of so many places, zeros behind them and on a refusal.
fn in_places(words: Result<Vec<u32>, u32>, places: usize) -> Given<Vec<u32>> {
    let (number, mut left) = match words {
        Ok(words) => (0, words),
        Err(number) => (number, Vec::new()),
    };
    left.resize(places, 0);
    Given { answer: Answer::Number(number), left }
}

/// The second program's answer: 17 goes first, where there is not a place for each entry.
fn second_answer(lengths: &[u8], places: usize) -> Result<Vec<u32>, u32> {
    if places < lengths.len() {
        return Err(17);
    }
    match verdict(lengths) {
        Verdict::Accepted(words) => {
            Ok(words.into_iter().map(|word| word.map_or(0, |word| word.bits)).collect())
        }
        Verdict::Exceeds { .. } => Err(7),
        Verdict::LeftOver { .. } => Err(8),
    }
}

/// The same by the plain ledger.
fn ledger_answer(lengths: &[u8], places: usize) -> Result<Vec<u32>, u32> {
    if places < lengths.len() {
        return Err(17);
    }
    let used: Vec<u32> = lengths.iter().copied().filter(|&length| length != 0).map(u32::from).collect();
    let (answers, free) = ledger::answers(&used);
    if answers.contains(&None) {
        return Err(7);
    }
    if free != 0 && used != [1] {
        return Err(8);
    }
    let mut words = answers.into_iter().flatten();
    let word_of = |&length| if length == 0 { 0 } else { words.next().map_or(0, |word| word.bits) };
    Ok(lengths.iter().map(word_of).collect())
}

/// Hands one list of lengths to both, with so many places for the codewords.
pub fn lengths_into(lengths: &[u8], places: usize, report: &mut Report) -> Result<(), String> {
    let (number, words) = lend(places, FILLING, |words| library::codewords(lengths, words));
    let library = Given { answer: Answer::Number(number), left: words };
    let input = || format!("lengths {} into {places} places", hex(lengths, 2));
    let second = in_places(second_answer(lengths, places), places);
    report.compare(Call::Codewords, &library, &second, input)?;
    if lengths.len() <= PLAIN_LEDGER_ENTRIES {
        let plain = in_places(ledger_answer(lengths, places), places);
        if plain != library {
            return Err(format!("the plain ledger differs, {}\n  {plain:?}\n  {library:?}", input()));
        }
    }
    Ok(())
}

/// Hands one list to both with a place for each entry.
pub fn lengths(lengths: &[u8], report: &mut Report) -> Result<(), String> {
    lengths_into(lengths, lengths.len(), report)
}

/// The lists that random ones would hardly be.
pub fn boundaries(report: &mut Report) -> Result<(), String> {
    let most = MOST_ENTRIES as usize;
    for places in 0..4 {
        for list in [&[][..], &[1], &[1, 1], &[1, 1, 1], &[2, 2], &[0, 1], &[0], &[33]] {
            lengths_into(list, places, report)?;
        }
    }
    for length in 0..=u8::MAX {
        lengths(&[length], report)?;
        lengths(&[0, length, 0], report)?;
        lengths(&[1, length], report)?;
    }
    let longest_branch: Vec<u8> = (1..=32).chain([32]).collect();
    lengths(&longest_branch, report)?;
    lengths(&longest_branch.iter().rev().copied().collect::<Vec<u8>>(), report)?;
    for length in [0, 1, 12, 13, 14, 32, 33] {
        lengths(&vec![length; most], report)?;
    }
    for length in 1..=10 {
        let full = vec![length; 1 << length];
        lengths(&full, report)?;
        lengths(&full[1..], report)?;
        for one_more in 0..=u8::MAX {
            lengths(&[&full[..], &[one_more]].concat(), report)?;
        }
    }
    Ok(())
}

/// One round: full books with what can be made of them, sole entries, and lists of random
/// lengths.
pub fn round(random: &mut Random, report: &mut Report) -> Result<(), String> {
    for _ in 0..8 {
        around_full(&full_book(random), random, report)?;
        sole_entries(random, report)?;
        for _ in 0..8 {
            let list = random_lengths(random);
            lengths(&list, report)?;
            lengths_into(&list, random.place(2 * list.len() + 2), report)?;
        }
    }
    Ok(())
}

/// A full book, with other numbers of places, one entry short, one over, one changed, and
/// with unused entries.
fn around_full(full: &[u8], random: &mut Random, report: &mut Report) -> Result<(), String> {
    lengths(full, report)?;
    for places in [full.len() - 1, full.len() + 1, random.place(2 * full.len())] {
        lengths_into(full, places, report)?;
    }
    let times = if full.len() > 1_000 { 1 } else { 4 };
    for _ in 0..times {
        let mut short = full.to_vec();
        short.remove(random.place(full.len()));
        lengths(&short, report)?;
        let mut over = full.to_vec();
        over.insert(random.place(full.len() + 1), random.between(1, 32) as u8);
        lengths(&over, report)?;
        let mut changed = full.to_vec();
        *pick_mut(random, &mut changed) = changed_length(random);
        lengths(&changed, report)?;
        let mut sparse = full.to_vec();
        for _ in 0..random.between(1, 20) {
            sparse.insert(random.place(sparse.len() + 1), 0);
        }
        lengths(&sparse, report)?;
        *pick_mut(random, &mut sparse) = changed_length(random);
        lengths(&sparse, report)?;
    }
    Ok(())
}

/// Complete lengths of a few entries, now and then of some hundreds or the most there
/// may be, in any order.
pub fn full_book(random: &mut Random) -> Vec<u8> {
    let most = match random.below(40) {
        0 => MOST_ENTRIES,
        1..=5 => 600,
        _ => 40,
    };
    let count = if random.one_in(4) { most } else { random.between(2, most) };
    let mut lengths = complete_lengths(random, count);
    arrange(random, &mut lengths);
    lengths
}

fn pick_mut<'a>(random: &mut Random, lengths: &'a mut [u8]) -> &'a mut u8 {
    let place = random.place(lengths.len());
    &mut lengths[place]
}

/// Mostly a length of 0 to 33, else any byte.
fn changed_length(random: &mut Random) -> u8 {
    let bound = if random.one_in(4) { 256 } else { 34 };
    random.below(bound) as u8
}

/// One used entry anywhere, of length 1, 2, 32 or any.
fn sole_entries(random: &mut Random, report: &mut Report) -> Result<(), String> {
    for length in [1, 2, 32, random.next_u64() as u8] {
        let mut sole = vec![0; random.between(1, 50) as usize];
        *pick_mut(random, &mut sole) = length;
        lengths(&sole, report)?;
    }
    lengths(&vec![0; random.place(100)], report)
}

/// Lengths below a bound, so that they come near to filling the space.
fn random_lengths(random: &mut Random) -> Vec<u8> {
    let bound = *random.pick(&[2, 3, 5, 8, 17, 33, 34, 256]);
    let most = 1 << random.between(0, 9);
    let count = random.below(most);
    (0..count).map(|_| random.below(bound) as u8).collect()
}
