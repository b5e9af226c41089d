//! The rules of setup content as one test of the content alone (01: tables are
//! accepted when they hold "some content that meets every rule here").
//!
//! The readers judge field by field; this judges what they read, a second time and
//! in other words. Lengths and X lists are judged where [`Book`] and [`Floor`] are
//! made: no content holds bad ones.

use crate::book::{multiplicand_count, power_is_at_most, Book, Values};
use crate::floor::{Class, Floor, GREATEST_X_COUNT};
use crate::identification::Identity;
use crate::limits::Limits;
use crate::mapping::Mapping;
use crate::residue::Residue;
use crate::setup::Setup;

/// Whether this is the content of a setup packet of a stream with this identity.
pub fn meets_every_rule(setup: &Setup, identity: &Identity, limits: &Limits) -> bool {
    let Setup { books, floors, residues, mappings, modes } = setup;
    let six_bit_counts = [floors.len(), residues.len(), mappings.len(), modes.len()];
    identity.is_sound(limits)
        && (1..=256).contains(&books.len())
        && six_bit_counts.iter().all(|count| (1..=64).contains(count))
        && books.iter().all(|book| book_is_good(book, limits))
        && totals_are_good(books, limits)
        && floors.iter().all(|floor| floor_is_good(floor, books.len()))
        && residues.iter().all(|residue| residue_is_good(residue, books))
        && mappings.iter().all(|mapping| mapping_is_good(mapping, identity, floors.len(), residues.len()))
        && modes.iter().all(|mode| usize::from(mode.mapping) < mappings.len())
}

fn book_is_good(book: &Book, limits: &Limits) -> bool {
    (1..=0xFFFF).contains(&book.dimensions())
        && (1..=limits.entries_in_a_book).contains(&book.entries())
        && book.values().is_none_or(|values| values_are_good(values, book))
}

fn values_are_good(values: &Values, book: &Book) -> bool {
    let count = multiplicand_count(values.lookup_type, book.entries(), book.dimensions());
    (1..=2).contains(&values.lookup_type)
        && (1..=16).contains(&values.width)
        && values.multiplicands.len() as u64 == count
        && values.multiplicands.iter().all(|&multiplicand| u32::from(multiplicand) >> values.width == 0)
}

fn totals_are_good(books: &[Book], limits: &Limits) -> bool {
    let entries: u64 = books.iter().map(|book| u64::from(book.entries())).sum();
    let multiplicands: usize =
        books.iter().filter_map(Book::values).map(|values| values.multiplicands.len()).sum();
    entries <= u64::from(limits.entries_in_all) && multiplicands as u64 <= limits.multiplicands_in_all
}

fn floor_is_good(floor: &Floor, books: usize) -> bool {
    let partitions = floor.partition_classes();
    let named = partitions.iter().max().map_or(0, |&greatest| usize::from(greatest) + 1);
    partitions.len() <= 31
        && named <= 16
        && floor.classes().len() == named
        && floor.classes().iter().all(|class| class_is_good(class, books))
        && (1..=4).contains(&floor.multiplier())
        && floor.range_bits() <= 15
        && floor.x_list().len() <= GREATEST_X_COUNT
        && floor.x_list().len() == 2 + explicit_x_count(floor)
}

fn explicit_x_count(floor: &Floor) -> usize {
    let dimensions = |&class: &u8| floor.classes()[usize::from(class)].dimensions as usize;
    floor.partition_classes().iter().map(dimensions).sum()
}

fn class_is_good(class: &Class, books: usize) -> bool {
    (1..=8).contains(&class.dimensions)
        && class.subclass_bits <= 3
        && class.master_book.is_some() == (class.subclass_bits != 0)
        && class.master_book.is_none_or(|book| usize::from(book) < books)
        && class.subclass_books.len() == 1 << class.subclass_bits
        && class.subclass_books.iter().flatten().all(|&book| usize::from(book) < books.min(255))
}

fn residue_is_good(residue: &Residue, books: &[Book]) -> bool {
    let Some(class_book) = books.get(usize::from(residue.class_book)) else {
        return false;
    };
    let vector_book_is_good = |&number: &u8| {
        let book = books.get(usize::from(number)).filter(|book| book.values().is_some());
        book.is_some_and(|book| residue.partition_size.is_multiple_of(book.dimensions()))
    };
    let classifications = residue.classifications();
    residue.residue_type <= 2
        && residue.begin <= residue.end
        && residue.end < 1 << 24
        && (1..=1 << 24).contains(&residue.partition_size)
        && (1..=64).contains(&classifications)
        && power_is_at_most(classifications, class_book.dimensions(), class_book.entries())
        && residue.plan.iter().flatten().flatten().all(vector_book_is_good)
}

fn mapping_is_good(mapping: &Mapping, identity: &Identity, floors: usize, residues: usize) -> bool {
    (1..=16).contains(&mapping.submaps.len())
        && mapping.couplings.len() <= 256
        && mapping.couplings.iter().all(|(magnitude, angle)| magnitude != angle)
        && mapping.suits(identity.channels)
        && mapping.multiplex.iter().all(|&submap| usize::from(submap) < mapping.submaps.len())
        && mapping
            .submaps
            .iter()
            .all(|submap| usize::from(submap.floor) < floors && usize::from(submap.residue) < residues)
}
