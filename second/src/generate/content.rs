//! Random content of identification and setup packets that meets every rule of 01.

use crate::book::{lookup1_values, multiplicand_count, Book, Values};
use crate::floor::{Class, Floor, GREATEST_X_COUNT};
use crate::generate::random::Random;
use crate::identification::{Identity, BLOCK_EXPONENTS};
use crate::mapping::{Mapping, Mode, Submap};
use crate::residue::{Residue, PASSES};
use crate::setup::Setup;

/// A sound identity; small blocks come more often than large ones.
pub fn identity(random: &mut Random) -> Identity {
    let long = match random.below(12) {
        0 => *BLOCK_EXPONENTS.end(),
        1 => random.between(*BLOCK_EXPONENTS.start(), *BLOCK_EXPONENTS.end()),
        _ => random.between(*BLOCK_EXPONENTS.start(), 9),
    };
    let short = random.between(*BLOCK_EXPONENTS.start(), long);
    Identity {
        channels: if random.one_in(3) { random.between(1, 8) } else { random.between(1, 2) } as u8,
        rate: if random.one_in(4) {
            random.next_u64() as u32 | 1
        } else {
            *random.pick(&[8_000, 16_000, 44_100])
        },
        bitrate_maximum: random.next_u64() as i32,
        bitrate_nominal: random.next_u64() as i32,
        bitrate_minimum: random.next_u64() as i32,
        block_sizes: [1 << short, 1 << long],
    }
}

/// A setup for a sound identity.
pub fn setup(random: &mut Random, identity: &Identity) -> Setup {
    let largest_blocks = identity.block_sizes[1] == 1 << BLOCK_EXPONENTS.end();
    let books = if largest_blocks && random.one_in(2) { lone_books(random) } else { books(random) };
    let floors: Vec<Floor> = few(random, 8).map(|_| floor(random, books.len())).collect();
    let half = identity.block_sizes[1] / 2;
    let residues: Vec<Residue> = few(random, 8).map(|_| residue(random, &books, half)).collect();
    let mappings: Vec<Mapping> =
        few(random, 6).map(|_| mapping(random, identity.channels, floors.len(), residues.len())).collect();
    let modes = few(random, 64)
        .map(|_| Mode { long_block: random.one_in(2), mapping: random.place(mappings.len()) as u8 })
        .collect();
    Setup { books, floors, residues, mappings, modes }
}

/// A setup with as many of everything as there may be: 256 books, 64 floors, residues,
/// mappings and modes, plans without an empty place, 256 coupling steps, 16 submaps.
pub fn largest_setup(random: &mut Random, identity: &Identity) -> Setup {
    let channels = identity.channels;
    let mut books: Vec<Book> = (0..255).map(|_| make_book(random, 1, vec![0, 1], 1)).collect();
    books.push(make_book(random, 1, vec![6; 64], 2));
    let numbers: Vec<u8> = (0..=u8::MAX).collect();
    let mut residue = || Residue {
        residue_type: random.below(3),
        begin: random.below(1 << 23),
        end: 0xFF_FFFF,
        partition_size: 1 << random.below(25),
        class_book: 255,
        plan: (0..64).map(|_| std::array::from_fn(|_| Some(*random.pick(&numbers)))).collect(),
    };
    let residues = (0..64).map(|_| residue()).collect();
    let steps = if channels > 1 { 256 } else { 0 };
    let mut mapping = || Mapping {
        couplings: (0..steps).map(|_| coupling(random, channels)).collect(),
        multiplex: (0..channels).map(|_| random.below(16) as u8).collect(),
        submaps: (0..16)
            .map(|_| Submap { floor: random.below(64) as u8, residue: random.below(64) as u8 })
            .collect(),
    };
    let mappings = (0..64).map(|_| mapping()).collect();
    Setup {
        floors: (0..64).map(|_| largest_floor(random, books.len())).collect(),
        books,
        residues,
        mappings,
        modes: (0..64).map(|mapping| Mode { long_block: random.one_in(2), mapping }).collect(),
    }
}

/// 31 partitions, 16 classes, 65 X values up to 2^15.
fn largest_floor(random: &mut Random, books: usize) -> Floor {
    let classes = (0..16).map(|number| Class { dimensions: 2 + number / 15, ..class(random, books) });
    let classes: Vec<Class> = classes.collect();
    let mut partition_classes: Vec<u8> = (0..30).map(|_| random.below(15) as u8).collect();
    partition_classes.push(15);
    let multiplier = random.between(1, 4);
    let x_list = x_list(random, 15, GREATEST_X_COUNT - 2);
    Floor::new(partition_classes, classes, multiplier, 15, x_list).expect("different X between the first two")
}

/// Mostly one to three, now and then up to `most`.
fn few(random: &mut Random, most: u32) -> std::ops::Range<u32> {
    let most = if random.one_in(10) { most } else { most.min(3) };
    0..random.between(1, most)
}

fn books(random: &mut Random) -> Vec<Book> {
    match random.below(60) {
        0 => vec![large_book(random, 0), large_book(random, 1)],
        1 => vec![large_book(random, 2), make_book(random, 1, vec![1], 0)],
        2 => (0..256).map(|_| lone_book(random)).collect(),
        3 => lone_books(random),
        _ => (0..random.between(1, 9)).map(|_| book(random)).collect(),
    }
}

/// Books of which each entry takes one bit: with large blocks, as many words as a packet has bits.
fn lone_books(random: &mut Random) -> Vec<Book> {
    (0..random.between(1, 4)).map(|_| lone_book(random)).collect()
}

/// A book of 8,192 entries, the most there may be; with lookup type 2 it has the
/// 16,384 multiplicands that a setup may have in all.
fn large_book(random: &mut Random, lookup_type: u32) -> Book {
    let mut lengths = complete_lengths(random, 8_192);
    arrange(random, &mut lengths);
    make_book(random, 2, lengths, lookup_type)
}

fn lone_book(random: &mut Random) -> Book {
    let mut lengths = vec![0; random.between(1, 5) as usize];
    *lengths.last_mut().expect("at least one entry") = 1;
    random.shuffle(&mut lengths);
    let dimensions = random.between(1, 3);
    let lookup_type = random.below(3);
    make_book(random, dimensions, lengths, lookup_type)
}

fn book(random: &mut Random) -> Book {
    if random.one_in(12) {
        return lone_book(random);
    }
    let most = if random.one_in(8) { 300 } else { 24 };
    let count = random.between(2, most);
    let mut lengths = complete_lengths(random, count);
    arrange(random, &mut lengths);
    if random.one_in(3) {
        for _ in 0..random.between(1, count) {
            let place = random.place(lengths.len() + 1);
            lengths.insert(place, 0);
        }
    }
    let lookup_type = random.below(3);
    let dimensions = if random.one_in(20) && lookup_type != 2 { 65_535 } else { random.between(1, 4) };
    make_book(random, dimensions, lengths, lookup_type)
}

fn make_book(random: &mut Random, dimensions: u32, lengths: Vec<u8>, lookup_type: u32) -> Book {
    let entries = lengths.len() as u32;
    let values = (lookup_type != 0).then(|| {
        let width = random.between(1, 16);
        let count = multiplicand_count(lookup_type, entries, dimensions);
        Values {
            lookup_type,
            minimum: random.next_u64() as u32,
            delta: random.next_u64() as u32,
            width,
            sequence: random.one_in(2),
            multiplicands: (0..count).map(|_| random.below(1 << width) as u16).collect(),
        }
    });
    Book::new(dimensions, lengths, values).expect("complete lengths make a book")
}

/// The depths of a full tree's leaves: balanced, with one long branch, or grown
/// by splitting any leaf.
pub fn complete_lengths(random: &mut Random, count: u32) -> Vec<u8> {
    if random.one_in(3) {
        let depth = count.ilog2();
        let short = (2 << depth) - count;
        return (0..count).map(|entry| (depth + u32::from(entry >= short)) as u8).collect();
    }
    let one_branch = random.one_in(3);
    let mut lengths: Vec<u8> = vec![1, 1];
    while lengths.len() < count as usize {
        let last = lengths.len() - 1;
        let mut place = if one_branch { last } else { random.place(lengths.len()) };
        while lengths[place] == 32 {
            place = random.place(lengths.len());
        }
        lengths[place] += 1;
        lengths.push(lengths[place]);
    }
    lengths
}

/// Lengths to be entered one by one, some of them refused: lengths below a bound, or those
/// of a full book with others among them, 0 and above 32 too. Now and then thousands.
pub fn lengths_to_enter(random: &mut Random) -> Vec<u8> {
    let most = match random.below(60) {
        0 => 10_000,
        1..=6 => 600,
        _ => 40,
    };
    if random.one_in(2) {
        let bound = *random.pick(&[2, 3, 5, 9, 17, 33, 34, 256]);
        let least = random.below(bound);
        return (0..random.below(most)).map(|_| random.between(least, bound - 1) as u8).collect();
    }
    let count = random.between(2, most);
    let mut lengths = complete_lengths(random, count);
    arrange(random, &mut lengths);
    for _ in 0..random.below(1 + count / 2) {
        let other = if random.one_in(4) { random.below(256) } else { random.between(1, 32) };
        lengths.insert(random.place(lengths.len() + 1), other as u8);
    }
    lengths
}

/// Sorts lengths, shuffles them, or leaves them as they are.
pub fn arrange(random: &mut Random, lengths: &mut [u8]) {
    match random.below(3) {
        0 => lengths.sort_unstable(),
        1 => random.shuffle(lengths),
        _ => {}
    }
}

fn book_number(random: &mut Random, books: usize) -> u8 {
    random.place(books) as u8
}

fn floor(random: &mut Random, books: usize) -> Floor {
    let many = random.one_in(5);
    let greatest_class = random.below(if many { 16 } else { 3 });
    let partitions = if many { 31 } else { random.below(6) };
    let mut partition_classes: Vec<u8> =
        (0..partitions).map(|_| random.between(0, greatest_class) as u8).collect();
    let class_count = partition_classes.iter().max().map_or(0, |&class| class + 1);
    let classes: Vec<Class> = (0..class_count).map(|_| class(random, books)).collect();
    let room = GREATEST_X_COUNT - 2;
    let explicit = |partitions: &[u8]| -> usize {
        partitions.iter().map(|&class| classes[usize::from(class)].dimensions as usize).sum()
    };
    while explicit(&partition_classes) > room {
        partition_classes.pop();
    }
    let count = explicit(&partition_classes);
    let named = partition_classes.iter().max().map_or(0, |&class| usize::from(class) + 1);
    let least_bits = usize::BITS - count.leading_zeros();
    let range_bits = random.between(least_bits, 15.min(least_bits + 4));
    let multiplier = random.between(1, 4);
    let x_list = x_list(random, range_bits, count);
    Floor::new(partition_classes, classes[..named].to_vec(), multiplier, range_bits, x_list)
        .expect("different X between the first two")
}

/// 0 and 2^range_bits, then different values between them.
fn x_list(random: &mut Random, range_bits: u32, count: usize) -> Vec<u32> {
    let mut x_list = vec![0, 1 << range_bits];
    while x_list.len() < count + 2 {
        let x = random.below(1 << range_bits);
        if !x_list.contains(&x) {
            x_list.push(x);
        }
    }
    x_list
}

fn class(random: &mut Random, books: usize) -> Class {
    let subclass_bits = random.below(4);
    Class {
        dimensions: if random.one_in(4) { random.between(1, 8) } else { random.between(1, 3) },
        subclass_bits,
        master_book: (subclass_bits != 0).then(|| book_number(random, books)),
        // The field is the number plus one, so that book 255 cannot be named.
        subclass_books: (0..1 << subclass_bits)
            .map(|_| (!random.one_in(4)).then(|| book_number(random, books.min(255))))
            .collect(),
    }
}

fn residue(random: &mut Random, books: &[Book], half: u32) -> Residue {
    let class_book = book_number(random, books.len());
    let book = &books[usize::from(class_book)];
    let most = lookup1_values(book.entries(), book.dimensions()).min(64);
    let classifications = random.between(1, most);
    let (vector_books, unit) = vector_books(random, books);
    let plan = (0..classifications).map(|_| plan_row(random, &vector_books)).collect();
    let begin = if random.one_in(2) { 0 } else { random.below(half) };
    let end = match random.below(6) {
        0 | 1 => 0xFF_FFFF,
        2 if random.one_in(4) => begin,
        _ => begin + random.below(2 * half),
    };
    let most = if random.one_in(4) { 32 } else { 4 };
    let partition_size = unit * random.between(1, most);
    Residue { residue_type: random.below(3), begin, end, partition_size, class_book, plan }
}

/// Books with values, and a number that the dimensions of each divide.
fn vector_books(random: &mut Random, books: &[Book]) -> (Vec<u8>, u32) {
    let mut chosen = Vec::new();
    let mut unit = 1;
    for (number, book) in books.iter().enumerate() {
        let multiple = least_common_multiple(unit, book.dimensions());
        let most = if random.one_in(30) { 1 << 20 } else { 64 };
        if book.values().is_some() && multiple <= most {
            chosen.push(number as u8);
            unit = multiple as u32;
        }
    }
    (chosen, unit)
}

fn least_common_multiple(a: u32, b: u32) -> u64 {
    let (mut x, mut y) = (a, b);
    while y != 0 {
        (x, y) = (y, x % y);
    }
    u64::from(a / x) * u64::from(b)
}

fn plan_row(random: &mut Random, vector_books: &[u8]) -> [Option<u8>; PASSES] {
    let passes = if random.one_in(4) { PASSES } else { 2 };
    std::array::from_fn(|pass| {
        let taken = pass < passes && !vector_books.is_empty() && random.one_in(2);
        taken.then(|| *random.pick(vector_books))
    })
}

fn mapping(random: &mut Random, channels: u8, floors: usize, residues: usize) -> Mapping {
    let submap_count = if random.one_in(2) { 1 } else { random.between(1, 16) };
    let steps = match (channels, random.below(4)) {
        (1, _) | (_, 0) => 0,
        (_, 1) => random.between(1, 40),
        _ => random.between(1, u32::from(channels)),
    };
    let multiplexed = if submap_count > 1 { channels } else { 0 };
    Mapping {
        couplings: (0..steps).map(|_| coupling(random, channels)).collect(),
        multiplex: (0..multiplexed).map(|_| random.below(submap_count) as u8).collect(),
        submaps: (0..submap_count)
            .map(|_| Submap { floor: random.place(floors) as u8, residue: random.place(residues) as u8 })
            .collect(),
    }
}

/// Two different channels.
fn coupling(random: &mut Random, channels: u8) -> (u8, u8) {
    let magnitude = random.below(u32::from(channels)) as u8;
    let angle = random.below(u32::from(channels) - 1) as u8;
    (magnitude, if angle >= magnitude { angle + 1 } else { angle })
}
