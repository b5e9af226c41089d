//! Lengths entered one by one, refusals among them (01, demand 3 and the plain ledger), and
//! the balance of shares and free strings.

use second::generate::content::lengths_to_enter;
use second::generate::random::Random;
use second::ledger::{self, Codeword};
use second::space;
use second::strings::{balance, free_strings};

/// The example of 002.
const EXAMPLE: [u8; 8] = [2, 4, 4, 4, 4, 2, 3, 3];
const EXAMPLE_WORDS: [&str; 8] = ["00", "0100", "0101", "0110", "0111", "10", "110", "111"];

/// Codewords by their bits, `-` for a refusal.
fn words(list: &[&str]) -> Vec<Option<Codeword>> {
    let word = |bits: &&str| {
        let number = u32::from_str_radix(bits, 2).ok();
        number.map(|number| Codeword { length: bits.len() as u32, bits: number })
    };
    list.iter().map(word).collect()
}

/// The answers to a list, as the ledger and the space both give them.
fn entered(lengths: &[u8]) -> Vec<Option<Codeword>> {
    let answers = space::answers(lengths);
    let wide: Vec<u32> = lengths.iter().map(|&length| length.into()).collect();
    assert_eq!(answers, ledger::answers(&wide).0);
    assert_eq!(balance(lengths, &answers), Ok(()));
    answers
}

#[test]
fn a_length_is_refused_where_its_share_exceeds_what_is_free() {
    assert_eq!(entered(&[]), []);
    assert_eq!(entered(&[1, 1, 1, 32]), words(&["0", "1", "-", "-"]));
    assert_eq!(entered(&[2, 1, 2, 1]), words(&["00", "1", "01", "-"]));
    assert_eq!(entered(&[1, 2]), words(&["0", "10"]), "space may be left over");
}

#[test]
fn a_refused_length_changes_nothing() {
    assert_eq!(entered(&[1, 2, 1, 2]), words(&["0", "10", "-", "11"]));
    assert_eq!(entered(&[2, 0, 1, 33, 255, 2]), words(&["00", "-", "1", "-", "-", "01"]));
    let seven = &EXAMPLE[..7];
    assert_eq!(entered(&[seven, &[2, 3, 3]].concat())[7..], words(&["-", "111", "-"]));
}

#[test]
fn one_more_length_than_the_example_of_002_is_refused() {
    for length in 0..=u8::MAX {
        let answers = words(&[&EXAMPLE_WORDS[..], &["-"]].concat());
        assert_eq!(entered(&[&EXAMPLE[..], &[length]].concat()), answers);
    }
}

#[test]
fn answers_to_any_list_balance() {
    let random = &mut Random::new(5);
    let (mut given, mut refused) = (0, 0);
    for _ in 0..300 {
        let answers = entered(&lengths_to_enter(random));
        given += answers.iter().filter(|answer| answer.is_some()).count();
        refused += answers.iter().filter(|answer| answer.is_none()).count();
    }
    assert!(given > 5_000 && refused > 5_000, "{given} codewords and {refused} refusals");
}

#[test]
fn strings_are_counted_by_halves() {
    let free = |list: &[&str]| free_strings(&words(list).into_iter().flatten().collect::<Vec<_>>());
    assert_eq!(free(&[]), 1 << 32);
    assert_eq!([free(&["0"]), free(&["1"]), free(&["1", "0"])], [1 << 31, 1 << 31, 0]);
    assert_eq!(free(&["110", "00"]), 5 << 29);
    assert_eq!(free(&EXAMPLE_WORDS[..7]), 536_870_912);
    assert_eq!(free(&["0", "01", "0"]), 1 << 31, "a string that begins with several counts once");
    assert_eq!(free(&[&"1".repeat(32)]), (1 << 32) - 1);
}

#[test]
fn what_does_not_balance_is_found() {
    let balances = |lengths: &[u8], answers: &[&str]| balance(lengths, &words(answers)).is_ok();
    assert!(balances(&[2, 1, 2, 1], &["00", "1", "01", "-"]));
    assert!(balances(&[2, 1, 2], &["11", "0", "10"]), "which codeword is free is not counted");
    assert!(!balances(&[2, 1, 2], &["00", "1", "-"]), "a length that fits is refused");
    assert!(!balances(&[1, 1, 3], &["0", "1", "000"]), "nothing is free");
    assert!(!balances(&[1, 2], &["0", "01"]), "two codewords share strings");
    assert!(!balances(&[1, 1], &["0", "0"]), "a codeword is given twice");
    assert!(!balances(&[2], &["0"]), "a codeword of another length");
    assert!(!balances(&[0], &["0"]) && !balances(&[33], &["0"]), "no such length");
}
