//! Whether ten tables are the writing-out of some content that meets every rule (01, "What
//! the reader takes and gives"): the content is taken from them, judged, laid out again,
//! and has to come out the same.

use crate::book::{Book, Values};
use crate::floor::{Class, Floor};
use crate::identification::Identity;
use crate::limits::Limits;
use crate::mapping::{Mapping, Mode, Submap};
use crate::residue::{Residue, PASSES};
use crate::rules::meets_every_rule;
use crate::setup::Setup;
use crate::tables::*;

/// The content whose writing-out for an identity the tables are, if there is such.
pub fn recognise(identity: &Identity, tables: &Tables) -> Option<Setup> {
    let limits = &Limits::BASE;
    let long_enough = tables.places().iter().zip(&NEEDS).all(|(places, need)| places >= need);
    if !long_enough || !identity.is_sound(limits) {
        return None;
    }
    let setup = content(tables)?;
    let good = meets_every_rule(&setup, identity, limits);
    (good && is_front_of(&crate::tables::tables(&setup), tables)).then_some(setup)
}

/// Whether each table begins with the other's numbers and has zeros behind them.
fn is_front_of(front: &Tables, tables: &Tables) -> bool {
    fn begins<T: Copy + PartialEq + From<u8>>(front: &[T], table: &[T]) -> bool {
        table.starts_with(front) && table[front.len()..].iter().all(|&number| number == T::from(0))
    }
    begins(&front.counts, &tables.counts)
        && begins(&front.books, &tables.books)
        && begins(&front.lengths, &tables.lengths)
        && begins(&front.codewords, &tables.codewords)
        && begins(&front.multiplicands, &tables.multiplicands)
        && begins(&front.floors, &tables.floors)
        && begins(&front.residues, &tables.residues)
        && begins(&front.plans, &tables.plans)
        && begins(&front.mappings, &tables.mappings)
        && begins(&front.modes, &tables.modes)
}

/// What tables of the fixed need hold, where it can be said at all. The rules are judged
/// afterwards, and so are places that no content looks at.
fn content(tables: &Tables) -> Option<Setup> {
    let [books, floors, residues, mappings, modes] = *tables.counts.first_chunk()?;
    let books = at_most(books, MOST_BOOKS)?;
    let [floors, residues, mappings, modes] =
        [floors, residues, mappings, modes].map(|count| at_most(count, MOST_OTHERS));
    let floor_rows = tables.floors.chunks_exact(FLOOR_ROW).take(floors?);
    let residue_rows = tables.residues.chunks_exact(RESIDUE_ROW).take(residues?);
    let plans = tables.plans.chunks_exact(PLAN_ROW);
    let mapping_rows = tables.mappings.chunks_exact(MAPPING_ROW).take(mappings?);
    let mode_rows = tables.modes.chunks_exact(MODE_ROW).take(modes?);
    Some(Setup {
        books: take_books(tables, books)?,
        floors: floor_rows.map(take_floor).collect::<Option<_>>()?,
        residues: residue_rows.zip(plans).map(take_residue).collect::<Option<_>>()?,
        mappings: mapping_rows.map(take_mapping).collect::<Option<_>>()?,
        modes: mode_rows.map(|row| Mode { long_block: row[0] != 0, mapping: row[1] }).collect(),
    })
}

fn at_most(count: impl Into<u32>, most: usize) -> Option<usize> {
    let count = count.into() as usize;
    (count <= most).then_some(count)
}

/// The book whose number plus one a place holds; 0 is none, and no book has a number above
/// 255.
fn book(place: u32) -> Option<Option<u8>> {
    match place {
        0 => Some(None),
        _ => u8::try_from(place - 1).ok().map(Some),
    }
}

fn take_books(tables: &Tables, count: usize) -> Option<Vec<Book>> {
    let mut lengths = &tables.lengths[..];
    let mut multiplicands = &tables.multiplicands[..];
    let mut books = Vec::new();
    for row in tables.books.chunks_exact(BOOK_ROW).take(count) {
        let (own_lengths, later) = lengths.split_at_checked(row[1] as usize)?;
        let (own_multiplicands, later_multiplicands) = multiplicands.split_at_checked(row[8] as usize)?;
        (lengths, multiplicands) = (later, later_multiplicands);
        let values = (row[3] != 0).then(|| Values {
            lookup_type: row[3],
            minimum: row[4],
            delta: row[5],
            width: row[6],
            sequence: row[7] != 0,
            multiplicands: own_multiplicands.to_vec(),
        });
        books.push(Book::new(row[0], own_lengths.to_vec(), values).ok()?);
    }
    Some(books)
}

fn take_floor(row: &[u16]) -> Option<Floor> {
    let partitions = at_most(row[0], MOST_PARTITIONS)?;
    let classes = at_most(row[1], MOST_CLASSES)?;
    let x_count = at_most(row[4], FLOOR_ROW - FLOOR_X)?;
    let partition_classes = row[FLOOR_PARTITIONS..][..partitions].iter().map(|&class| class.try_into().ok());
    let class_rows = row[FLOOR_CLASSES..FLOOR_X].chunks_exact(CLASS_ROW).take(classes);
    let x_list = row[FLOOR_X..][..x_count].iter().map(|&x| u32::from(x)).collect();
    Floor::new(
        partition_classes.collect::<Option<_>>()?,
        class_rows.map(take_class).collect::<Option<_>>()?,
        row[2].into(),
        row[3].into(),
        x_list,
    )
}

fn take_class(row: &[u16]) -> Option<Class> {
    let subclass_bits = at_most(row[1], 3)?;
    let subclass_books = row[CLASS_SUBCLASSES..][..1 << subclass_bits].iter();
    Some(Class {
        dimensions: row[0].into(),
        subclass_bits: subclass_bits as u32,
        master_book: book(row[2].into())?,
        subclass_books: subclass_books.map(|&place| book(place.into())).collect::<Option<_>>()?,
    })
}

fn take_residue((row, plan): (&[u32], &[u16])) -> Option<Residue> {
    let classifications = at_most(row[4], MOST_CLASSIFICATIONS)?;
    let plan = plan.chunks_exact(PASSES).take(classifications).map(|places| {
        let mut passes = [None; PASSES];
        for (pass, &place) in passes.iter_mut().zip(places) {
            *pass = book(place.into())?;
        }
        Some(passes)
    });
    Some(Residue {
        residue_type: row[0],
        begin: row[1],
        end: row[2],
        partition_size: row[3],
        class_book: row[5].try_into().ok()?,
        plan: plan.collect::<Option<_>>()?,
    })
}

/// A channel's submap is there as far as places are not 0; that these are as many as the
/// identity's channels is a rule.
fn take_mapping(row: &[u8]) -> Option<Mapping> {
    let steps = at_most(u16::from_le_bytes([row[0], row[1]]), MOST_STEPS)?;
    let submaps = at_most(row[2], MOST_SUBMAPS)?;
    let multiplex = row[MAPPING_MULTIPLEX..MAPPING_SUBMAPS].iter().map_while(|place| place.checked_sub(1));
    Some(Mapping {
        couplings: pairs(&row[MAPPING_STEPS..]).take(steps).collect(),
        multiplex: multiplex.collect(),
        submaps: pairs(&row[MAPPING_SUBMAPS..])
            .take(submaps)
            .map(|(floor, residue)| Submap { floor, residue })
            .collect(),
    })
}

fn pairs(places: &[u8]) -> impl Iterator<Item = (u8, u8)> + '_ {
    places.chunks_exact(2).map(|pair| (pair[0], pair[1]))
}
