//! A setup's content laid out as ten tables of numbers, as docs/TABLES.md has them: each
//! filled from the front, zeros behind what is written.

use crate::book::{sole_entry, verdict, Book, Verdict};
use crate::floor::{Class, Floor, GREATEST_X_COUNT};
use crate::mapping::{Mapping, Mode};
use crate::residue::{Residue, PASSES};
use crate::setup::Setup;

/// Numbers of a book's row, the place in it for a sole used entry, and the most books
/// there are.
pub const BOOK_ROW: usize = 11;
pub const BOOK_SOLE_ENTRY: usize = 10;
pub const MOST_BOOKS: usize = 256;

/// The most floors, residues, mappings and modes, of each.
pub const MOST_OTHERS: usize = 64;

/// A floor's row: five numbers, then partitions, classes and the X list.
pub const FLOOR_ROW: usize = 277;
pub const FLOOR_PARTITIONS: usize = 5;
pub const MOST_PARTITIONS: usize = 31;
pub const FLOOR_CLASSES: usize = 36;
pub const MOST_CLASSES: usize = 16;
pub const CLASS_ROW: usize = 11;
pub const CLASS_SUBCLASSES: usize = 3;
pub const FLOOR_X: usize = 212;

pub const RESIDUE_ROW: usize = 6;
pub const MOST_CLASSIFICATIONS: usize = 64;
pub const PLAN_ROW: usize = MOST_CLASSIFICATIONS * PASSES;

/// A mapping's row: the counts, then coupling steps, the channels' submaps and the submaps.
pub const MAPPING_ROW: usize = 804;
pub const MAPPING_STEPS: usize = 4;
pub const MOST_STEPS: usize = 256;
pub const MAPPING_MULTIPLEX: usize = 516;
pub const MAPPING_SUBMAPS: usize = 772;
pub const MOST_SUBMAPS: usize = 16;

pub const MODE_ROW: usize = 2;

const ENTRIES: usize = 16_384;
const MULTIPLICANDS: usize = 16_384;

/// How many tables there are.
pub const COUNT: usize = 10;

/// Their names, in the order of the fields of [`Tables`] and of the calls.
pub const NAMES: [&str; COUNT] = [
    "counts",
    "books",
    "lengths",
    "codewords",
    "multiplicands",
    "floors",
    "residues",
    "plans",
    "mappings",
    "modes",
];

/// How many places each has to have.
pub const NEEDS: [usize; COUNT] = [
    5,
    MOST_BOOKS * BOOK_ROW,
    ENTRIES,
    ENTRIES,
    MULTIPLICANDS,
    MOST_OTHERS * FLOOR_ROW,
    MOST_OTHERS * RESIDUE_ROW,
    MOST_OTHERS * PLAN_ROW,
    MOST_OTHERS * MAPPING_ROW,
    MOST_OTHERS * MODE_ROW,
];

/// The ten tables.
#[derive(Clone, Debug, PartialEq, Eq)]
pub struct Tables {
    /// How many books, floors, residues, mappings and modes there are.
    pub counts: Vec<u32>,
    pub books: Vec<u32>,
    pub lengths: Vec<u8>,
    pub codewords: Vec<u32>,
    pub multiplicands: Vec<u16>,
    pub floors: Vec<u16>,
    pub residues: Vec<u32>,
    pub plans: Vec<u16>,
    pub mappings: Vec<u8>,
    pub modes: Vec<u8>,
}

impl Tables {
    /// All zero, of so many places each.
    pub fn zero(places: &[usize; COUNT]) -> Tables {
        let [counts, books, lengths, codewords, multiplicands, floors, residues, plans, mappings, modes] =
            *places;
        Tables {
            counts: vec![0; counts],
            books: vec![0; books],
            lengths: vec![0; lengths],
            codewords: vec![0; codewords],
            multiplicands: vec![0; multiplicands],
            floors: vec![0; floors],
            residues: vec![0; residues],
            plans: vec![0; plans],
            mappings: vec![0; mappings],
            modes: vec![0; modes],
        }
    }

    /// How many places each has.
    pub fn places(&self) -> [usize; COUNT] {
        [
            self.counts.len(),
            self.books.len(),
            self.lengths.len(),
            self.codewords.len(),
            self.multiplicands.len(),
            self.floors.len(),
            self.residues.len(),
            self.plans.len(),
            self.mappings.len(),
            self.modes.len(),
        ]
    }

    /// With other numbers of places: cut, or zeros behind.
    pub fn resized(mut self, places: &[usize; COUNT]) -> Tables {
        let [counts, books, lengths, codewords, multiplicands, floors, residues, plans, mappings, modes] =
            *places;
        self.counts.resize(counts, 0);
        self.books.resize(books, 0);
        self.lengths.resize(lengths, 0);
        self.codewords.resize(codewords, 0);
        self.multiplicands.resize(multiplicands, 0);
        self.floors.resize(floors, 0);
        self.residues.resize(residues, 0);
        self.plans.resize(plans, 0);
        self.mappings.resize(mappings, 0);
        self.modes.resize(modes, 0);
        self
    }

    /// The number at a place of one of the ten.
    pub fn number(&self, table: usize, place: usize) -> u32 {
        match table {
            0 => self.counts[place],
            1 => self.books[place],
            2 => self.lengths[place].into(),
            3 => self.codewords[place],
            4 => self.multiplicands[place].into(),
            5 => self.floors[place].into(),
            6 => self.residues[place],
            7 => self.plans[place].into(),
            8 => self.mappings[place].into(),
            _ => self.modes[place].into(),
        }
    }

    /// Puts the low bits of a number at a place of one of the ten.
    pub fn set(&mut self, table: usize, place: usize, number: u32) {
        match table {
            0 => self.counts[place] = number,
            1 => self.books[place] = number,
            2 => self.lengths[place] = number as u8,
            3 => self.codewords[place] = number,
            4 => self.multiplicands[place] = number as u16,
            5 => self.floors[place] = number as u16,
            6 => self.residues[place] = number,
            7 => self.plans[place] = number as u16,
            8 => self.mappings[place] = number as u8,
            _ => self.modes[place] = number as u8,
        }
    }
}

/// The tables of a setup's content, each of its fixed need. The content is such as a setup
/// packet has.
pub fn tables(setup: &Setup) -> Tables {
    let mut tables = Tables::zero(&NEEDS);
    let Setup { books, floors, residues, mappings, modes } = setup;
    let counts = [books.len(), floors.len(), residues.len(), mappings.len(), modes.len()];
    put(&mut tables.counts, &counts.map(|count| count as u32));
    lay_books(&mut tables, books);
    for (floor, row) in floors.iter().zip(tables.floors.chunks_exact_mut(FLOOR_ROW)) {
        lay_floor(row, floor);
    }
    for (residue, row) in residues.iter().zip(tables.residues.chunks_exact_mut(RESIDUE_ROW)) {
        lay_residue(row, residue);
    }
    for (residue, rows) in residues.iter().zip(tables.plans.chunks_exact_mut(PLAN_ROW)) {
        for (passes, row) in residue.plan.iter().zip(rows.chunks_exact_mut(PASSES)) {
            put(row, &passes.map(|book| book_place(book) as u16));
        }
    }
    for (mapping, row) in mappings.iter().zip(tables.mappings.chunks_exact_mut(MAPPING_ROW)) {
        lay_mapping(row, mapping);
    }
    for (mode, row) in modes.iter().zip(tables.modes.chunks_exact_mut(MODE_ROW)) {
        let Mode { long_block, mapping } = *mode;
        put(row, &[u8::from(long_block), mapping]);
    }
    tables
}

fn put<T: Copy>(table: &mut [T], numbers: &[T]) {
    table[..numbers.len()].copy_from_slice(numbers);
}

/// A place for a book or none holds its number plus one, or 0.
fn book_place(book: Option<u8>) -> u32 {
    book.map_or(0, |number| u32::from(number) + 1)
}

fn lay_books(tables: &mut Tables, books: &[Book]) {
    let (mut entries, mut multiplicands) = (0, 0);
    for (book, row) in books.iter().zip(tables.books.chunks_exact_mut(BOOK_ROW)) {
        put(row, &[book.dimensions(), book.entries(), entries as u32]);
        row[9] = multiplicands as u32;
        row[BOOK_SOLE_ENTRY] = sole_entry(book.lengths()).map_or(0, |entry| entry + 1);
        put(&mut tables.lengths[entries..], book.lengths());
        put(&mut tables.codewords[entries..], &codewords(book.lengths()));
        entries += book.lengths().len();
        if let Some(values) = book.values() {
            let count = values.multiplicands.len();
            row[3] = values.lookup_type;
            row[4] = values.minimum;
            row[5] = values.delta;
            row[6] = values.width;
            row[7] = u32::from(values.sequence);
            row[8] = count as u32;
            put(&mut tables.multiplicands[multiplicands..], &values.multiplicands);
            multiplicands += count;
        }
    }
}

/// Each entry's codeword, 0 for an unused one.
fn codewords(lengths: &[u8]) -> Vec<u32> {
    let Verdict::Accepted(codewords) = verdict(lengths) else {
        unreachable!("a book's lengths are accepted");
    };
    codewords.into_iter().map(|codeword| codeword.map_or(0, |codeword| codeword.bits)).collect()
}

fn lay_floor(row: &mut [u16], floor: &Floor) {
    let head = [
        floor.partition_classes().len() as u16,
        floor.classes().len() as u16,
        floor.multiplier() as u16,
        floor.range_bits() as u16,
        floor.x_list().len() as u16,
    ];
    put(row, &head);
    for (place, &class) in row[FLOOR_PARTITIONS..FLOOR_CLASSES].iter_mut().zip(floor.partition_classes()) {
        *place = class.into();
    }
    for (class, row) in floor.classes().iter().zip(row[FLOOR_CLASSES..FLOOR_X].chunks_exact_mut(CLASS_ROW)) {
        lay_class(row, class);
    }
    for (place, &x) in row[FLOOR_X..].iter_mut().zip(floor.x_list()) {
        *place = x as u16;
    }
}

fn lay_class(row: &mut [u16], class: &Class) {
    put(row, &[class.dimensions as u16, class.subclass_bits as u16, book_place(class.master_book) as u16]);
    for (place, &book) in row[CLASS_SUBCLASSES..].iter_mut().zip(&class.subclass_books) {
        *place = book_place(book) as u16;
    }
}

fn lay_residue(row: &mut [u32], residue: &Residue) {
    let Residue { residue_type, begin, end, partition_size, class_book, .. } = *residue;
    put(row, &[residue_type, begin, end, partition_size, residue.classifications(), class_book.into()]);
}

fn lay_mapping(row: &mut [u8], mapping: &Mapping) {
    let [low, high, ..] = mapping.couplings.len().to_le_bytes();
    put(row, &[low, high, mapping.submaps.len() as u8]);
    for (&(magnitude, angle), place) in mapping.couplings.iter().zip(row[MAPPING_STEPS..].chunks_exact_mut(2))
    {
        put(place, &[magnitude, angle]);
    }
    for (place, &submap) in row[MAPPING_MULTIPLEX..].iter_mut().zip(&mapping.multiplex) {
        *place = submap + 1;
    }
    for (submap, place) in mapping.submaps.iter().zip(row[MAPPING_SUBMAPS..].chunks_exact_mut(2)) {
        put(place, &[submap.floor, submap.residue]);
    }
}

// The rows are as wide as their parts.
const _: () = {
    assert!(FLOOR_PARTITIONS + MOST_PARTITIONS == FLOOR_CLASSES);
    assert!(FLOOR_CLASSES + MOST_CLASSES * CLASS_ROW == FLOOR_X);
    assert!(FLOOR_X + GREATEST_X_COUNT == FLOOR_ROW);
    assert!(MAPPING_STEPS + 2 * MOST_STEPS == MAPPING_MULTIPLEX);
    assert!(MAPPING_MULTIPLEX + 256 == MAPPING_SUBMAPS);
    assert!(MAPPING_SUBMAPS + 2 * MOST_SUBMAPS == MAPPING_ROW);
};
