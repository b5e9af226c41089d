//! The ten tables of a setup (docs/TABLES.md), and their recogniser.

use second::book::{sole_entry, Book};
use second::generate::content;
use second::generate::fields::{base, IDENTITY};
use second::generate::random::Random;
use second::generate::Stream;
use second::identification::Identity;
use second::limits::Limits;
use second::recognise::recognise;
use second::setup::{setup, Setup};
use second::tables::{tables, Tables, COUNT, NEEDS};
use second::write::write_setup;

fn small() -> Tables {
    tables(&base().read().expect("accepted"))
}

/// Whether a table holds just these numbers from a place on, and zeros elsewhere.
fn holds<T: Copy + Into<u32>>(table: &[T], parts: &[(usize, &[u32])]) -> bool {
    let mut expected = vec![0; table.len()];
    for &(place, numbers) in parts {
        expected[place..place + numbers.len()].copy_from_slice(numbers);
    }
    table.iter().map(|&number| number.into()).eq(expected)
}

#[test]
fn every_table_has_its_fixed_need() {
    assert_eq!(NEEDS, [5, 2_816, 16_384, 16_384, 16_384, 17_728, 384, 32_768, 51_456, 128]);
    assert_eq!(small().places(), NEEDS);
}

#[test]
fn the_tables_of_a_small_setup() {
    let small = small();
    assert_eq!(small.counts, [2, 1, 1, 1, 3]);
    let books: [&[u32]; 2] = [&[1, 2, 0, 0], &[2, 4, 2, 1, 0x6280_0001, 0xE280_0001, 3, 1, 2, 0]];
    assert!(holds(&small.books, &[(0, books[0]), (11, books[1])]));
    assert!(holds(&small.lengths, &[(0, &[1, 1, 2, 2, 2, 2])]));
    assert!(holds(&small.codewords, &[(0, &[0, 1, 0, 1, 2, 3])]));
    assert!(holds(&small.multiplicands, &[(0, &[5, 7])]));
    let class: &[u32] = &[2, 1, 1, 2, 0];
    assert!(holds(&small.floors, &[(0, &[1, 1, 1, 5, 4]), (36, class), (212, &[0, 32, 16, 8])]));
    assert!(holds(&small.residues, &[(0, &[0, 0, 24, 8, 2])]));
    assert!(holds(&small.plans, &[(0, &[2])]));
    let submaps: &[u32] = &[0, 0, 0, 0];
    assert!(holds(&small.mappings, &[(0, &[1, 0, 2, 0, 0, 1]), (516, &[1, 2, 1]), (772, submaps)]));
    assert!(holds(&small.modes, &[(0, &[0, 0, 1, 0, 0, 0])]));
}

/// The small setup with a first book of other lengths.
fn with_first_book(lengths: &[u8]) -> Setup {
    let mut setup = base().read().expect("accepted");
    setup.books[0] = Book::new(1, lengths.to_vec(), None).expect("a book");
    setup
}

#[test]
fn a_sole_used_entry_stands_in_its_books_row_as_its_number_plus_one() {
    let books: [(&[u8], u32); 7] = [
        (&[1, 0], 1),
        (&[0, 1], 2),
        (&[0, 0, 1, 0], 3),
        (&[1, 1], 0),
        (&[0, 1, 1], 0),
        (&[1, 0, 2, 2], 0),
        (&[2, 1, 2], 0),
    ];
    for (lengths, number) in books {
        let content = with_first_book(lengths);
        let mut tables = tables(&content);
        assert_eq!((tables.books[10], tables.books[21]), (number, 0), "{lengths:?}");
        assert_eq!(recognise(&IDENTITY, &tables), Some(content));
        for other in (0..=5).chain([256, u32::MAX]).filter(|&other| other != number) {
            tables.books[10] = other;
            assert_eq!(recognise(&IDENTITY, &tables), None, "{lengths:?} with {other}");
        }
    }
}

#[test]
fn a_sole_entry_has_length_1() {
    assert_eq!(sole_entry(&[0, 0, 1]), Some(2));
    let others: [&[u8]; 6] = [&[], &[0], &[2], &[0, 32, 0], &[1, 1], &[1, 0, 255]];
    assert!(others.iter().all(|lengths| sole_entry(lengths).is_none()));
}

#[test]
fn a_sole_entry_that_moves_takes_its_number_along() {
    let mut tables = tables(&with_first_book(&[0, 1, 0]));
    tables.lengths[..3].copy_from_slice(&[0, 0, 1]);
    assert!(recognise(&IDENTITY, &tables).is_none());
    tables.books[10] = 3;
    assert_eq!(recognise(&IDENTITY, &tables), Some(with_first_book(&[0, 0, 1])));
}

#[test]
fn later_books_begin_where_the_earlier_end() {
    let setup = content::largest_setup(&mut Random::new(1), &IDENTITY);
    let tables = tables(&setup);
    assert_eq!(tables.counts, [256, 64, 64, 64, 64]);
    assert_eq!(
        tables.books[2_805..],
        [
            1,
            64,
            510,
            2,
            tables.books[2_809],
            tables.books[2_810],
            tables.books[2_811],
            tables.books[2_812],
            64,
            510,
            0
        ]
    );
    assert!(tables.books.chunks(11).take(255).all(|row| row[10] == 2), "the second of two entries");
    assert_eq!(tables.residues[5], 255);
    assert_eq!(tables.mappings[..4], [0, 1, 16, 0]);
    assert_eq!(tables.floors[..5], [31, 16, tables.floors[2], 15, 65]);
    assert_eq!(tables.floors[212..214], [0, 1 << 15]);
}

#[test]
fn the_largest_setup_is_read_as_it_was_written() {
    for channels in 1..=8 {
        let identity = Identity { channels, ..IDENTITY };
        let content = content::largest_setup(&mut Random::new(channels.into()), &identity);
        let packet = write_setup(&content, channels, &mut Random::new(0)).bytes;
        assert_eq!(setup(&identity, &packet, &Limits::BASE).as_ref(), Ok(&content));
        assert_eq!(recognise(&identity, &tables(&content)), Some(content));
    }
}

#[test]
fn tables_are_recognised_as_their_content() {
    for seed in 0..200 {
        let Stream { identity, content, .. } = Stream::new(seed);
        assert_eq!(recognise(&identity, &tables(&content)), Some(content));
    }
}

#[test]
fn zeros_behind_the_need_are_good_and_other_numbers_are_not() {
    for table in 0..COUNT {
        let mut places = NEEDS;
        places[table] += 1;
        let mut longer = small().resized(&places);
        assert!(recognise(&IDENTITY, &longer).is_some());
        longer.set(table, NEEDS[table], 1);
        assert!(recognise(&IDENTITY, &longer).is_none());
        places[table] -= 2;
        assert!(recognise(&IDENTITY, &small().resized(&places)).is_none());
    }
    assert!(recognise(&IDENTITY, &Tables::zero(&NEEDS)).is_none());
}

/// The small setup with one number changed.
fn changed(table: usize, place: usize, number: u32) -> bool {
    let mut tables = small();
    assert_ne!(tables.number(table, place), number);
    tables.set(table, place, number);
    recognise(&IDENTITY, &tables).is_some()
}

#[test]
fn one_number_changed_is_another_content_or_none() {
    assert!(changed(1, 15, 0), "the least value is any word");
    assert!(changed(4, 0, 7), "a multiplicand of 3 bits");
    assert!(!changed(4, 0, 8), "one of 4 bits");
    assert!(!changed(1, 18, 2), "a flag is 0 or 1");
    assert!(!changed(1, 13, 3), "where a book begins");
    assert!(!changed(2, 2, 3), "space is left over");
    assert!(!changed(3, 2, 1), "a codeword of another entry");
    assert!(changed(5, 214, 17) && !changed(5, 214, 8), "X values differ");
    assert!(!changed(5, 214, 32), "X lies below the second");
    assert!(!changed(5, 40, 3) && changed(5, 40, 1), "books of a class are set up");
    assert!(!changed(5, 41, 1), "no third subclass");
    assert!(changed(6, 1, 24) && !changed(6, 1, 25), "begin is not above end");
    assert!(changed(6, 5, 1) && !changed(6, 5, 2), "a class book there is");
    assert!(!changed(7, 0, 1), "a vector book has values");
    assert!(!changed(8, 5, 0) && changed(8, 5, 2) && !changed(8, 5, 3), "the angle channel");
    assert!(!changed(8, 3, 1), "a place that is zero");
    assert!(!changed(8, 518, 0) && !changed(8, 519, 1) && !changed(8, 518, 3), "a submap for each channel");
    assert!(changed(9, 0, 1) && !changed(9, 0, 2) && !changed(9, 1, 1), "modes");
    assert!(!changed(0, 0, 1) && !changed(0, 0, 3) && !changed(0, 1, 2), "counts");
    assert!(changed(0, 4, 2) && changed(0, 4, 64), "a short mode of mapping 0 is two zeros");
    assert!(!changed(0, 4, 0) && !changed(0, 4, 65), "1 to 64 modes");
}

#[test]
fn the_identity_counts() {
    let with = |channels| Identity { channels, ..IDENTITY };
    for channels in [0, 1, 2, 4, 8, 9] {
        assert!(recognise(&with(channels), &small()).is_none(), "channels {channels}");
    }
    assert!(recognise(&Identity { rate: 0, ..IDENTITY }, &small()).is_none());
}
