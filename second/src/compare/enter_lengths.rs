//! Lengths entered one by one into an empty code space: the number and every place of the
//! lent list, a codeword, a refusal or zero.

use crate::codewords::{full_book, MOST_ENTRIES, PLAIN_LEDGER_ENTRIES};
use crate::lent::lend;
use crate::library;
use crate::report::{hex, Answer, Call, Given, Report};
use second::generate::content::lengths_to_enter;
use second::generate::random::Random;
use second::ledger::{self, Codeword};
use second::space;
use second::strings::balance;

/// What lent places hold before a call: no codeword, no refusal and not zero.
const FILLING: u64 = 0xA5A5_A5A5_A5A5_A5A5;

/// The answer to a length that is refused.
const REFUSED: u64 = 1 << 32;

/// The answers in a list of so many places, or 17 where these are too few.
fn in_places(answers: &[Option<Codeword>], places: usize) -> Given<Vec<u64>> {
    if places < answers.len() {
        return Given { answer: Answer::Number(17), left: vec![0; places] };
    }
    let numbers = answers.iter().map(|answer| answer.map_or(REFUSED, |codeword| codeword.bits.into()));
    let mut left: Vec<u64> = numbers.collect();
    left.resize(places, 0);
    Given { answer: Answer::Number(0), left }
}

/// Hands one list of lengths to both, with so many places for the answers.
pub fn lengths_into(lengths: &[u8], places: usize, report: &mut Report) -> Result<(), String> {
    let (number, left) = lend(places, FILLING, |answers| library::enter_lengths(lengths, answers));
    let library = Given { answer: Answer::Number(number), left };
    let second = in_places(&space::answers(lengths), places);
    let input = || format!("lengths {} into {places} places", hex(lengths, 2));
    report.compare(Call::EnterLengths, &library, &second, input)?;
    if lengths.len() <= PLAIN_LEDGER_ENTRIES {
        let wide: Vec<u32> = lengths.iter().map(|&length| length.into()).collect();
        let plain = in_places(&ledger::answers(&wide).0, places);
        if plain != library {
            return Err(format!("the plain ledger differs, {}\n  {plain:?}\n  {library:?}", input()));
        }
    }
    if number != 0 {
        return Ok(());
    }
    let answers = [&library.left, &second.left].map(|left| &left[..lengths.len()]);
    let given = answers.map(|answers| answers.iter().map(|&answer| answer != REFUSED));
    report.count_within(Call::EnterLengths, given);
    balanced(lengths, answers[0]).map_err(|fault| format!("{fault}: {}", input()))
}

/// The library's answers by themselves, without entering anything on this side: each is below
/// 2^length or a refusal, and shares and free strings balance.
fn balanced(lengths: &[u8], answers: &[u64]) -> Result<(), String> {
    let answer_of = |(&length, &answer): (&u8, &u64)| match u32::try_from(answer) {
        Err(_) => Ok(None),
        Ok(bits) if answer >> length.min(63) == 0 => Ok(Some(Codeword { length: length.into(), bits })),
        Ok(bits) => Err(format!("{bits:x} does not fit in {length} bits")),
    };
    let answers = lengths.iter().zip(answers).map(answer_of).collect::<Result<Vec<_>, _>>()?;
    balance(lengths, &answers)
}

/// Hands one list to both with a place for each length.
pub fn lengths(lengths: &[u8], report: &mut Report) -> Result<(), String> {
    lengths_into(lengths, lengths.len(), report)
}

/// The lists that random ones would hardly be.
pub fn boundaries(report: &mut Report) -> Result<(), String> {
    let every_length: Vec<u8> = (0..=u8::MAX).collect();
    let longest_branch: Vec<u8> = (1..=32).chain([32]).collect();
    for places in 0..3 {
        lengths_into(&[], places, report)?;
        lengths_into(&[1], places, report)?;
        lengths_into(&[1, 1, 1], places, report)?;
    }
    for &length in &every_length {
        lengths(&[length], report)?;
        lengths(&[length; 3], report)?;
        lengths(&[1, length, 2, length, length], report)?;
        lengths(&[&[2, 4, 4, 4, 4, 2, 3], &[length, 3, length][..]].concat(), report)?;
        lengths(&[&longest_branch[..], &[length]].concat(), report)?;
    }
    lengths(&every_length, report)?;
    lengths(&every_length.iter().rev().copied().collect::<Vec<u8>>(), report)?;
    lengths(&longest_branch.iter().rev().copied().collect::<Vec<u8>>(), report)?;
    for length in [0, 1, 12, 13, 14, 31, 32, 33, u8::MAX] {
        lengths(&vec![length; 2 * MOST_ENTRIES as usize + 1], report)?;
    }
    Ok(())
}

/// One round: lists with refused lengths, and full books, into rooms of every kind.
pub fn round(random: &mut Random, report: &mut Report) -> Result<(), String> {
    for _ in 0..12 {
        rooms(&lengths_to_enter(random), random, report)?;
    }
    for _ in 0..2 {
        rooms(&full_book(random), random, report)?;
    }
    Ok(())
}

/// A place for each length, more, one less, fewer and none.
fn rooms(list: &[u8], random: &mut Random, report: &mut Report) -> Result<(), String> {
    let count = list.len();
    let fewer = [count.saturating_sub(1), random.place(count + 1), 0];
    for places in [count, count + 1, count + random.place(60)].into_iter().chain(fewer) {
        lengths_into(list, places, report)?;
    }
    Ok(())
}
