//! The setup packet (003, "Setup header"; 01, "Setup order").

use crate::bits::Cursor;
use crate::book::{self, Book, Totals};
use crate::floor::{self, Floor};
use crate::identification::{header, Identity};
use crate::limits::Limits;
use crate::mapping::{read_mapping, read_mode, Mapping, Mode};
use crate::refusal::{require, Refusal};
use crate::residue::{self, Residue};

/// The packet type of a setup packet (01).
pub const TYPE: u8 = 5;

/// A setup packet's content.
#[derive(Clone, Debug, PartialEq, Eq)]
pub struct Setup {
    pub books: Vec<Book>,
    pub floors: Vec<Floor>,
    pub residues: Vec<Residue>,
    pub mappings: Vec<Mapping>,
    pub modes: Vec<Mode>,
}

impl Setup {
    /// Whether content that some identity's setup packet gave meets every rule for
    /// this identity too: couplings and multiplex are all that rests on it.
    pub fn suits(&self, identity: &Identity) -> bool {
        self.mappings.iter().all(|mapping| mapping.suits(identity.channels))
    }
}

/// Reads a setup packet for a stream of this identity.
pub fn setup(identity: &Identity, packet: &[u8], limits: &Limits) -> Result<Setup, Refusal> {
    if !identity.is_sound(limits) {
        return Err(Refusal::without_place(18));
    }
    let cursor = &mut Cursor::new(packet);
    header(cursor, TYPE)?;
    let books = read_books(cursor, limits)?;
    read_time_values(cursor)?;
    let floors = read_list(cursor, |cursor| floor::read(cursor, books.len()))?;
    let residues = read_list(cursor, |cursor| residue::read(cursor, &books))?;
    let mappings =
        read_list(cursor, |cursor| read_mapping(cursor, identity.channels, floors.len(), residues.len()))?;
    let modes = read_list(cursor, |cursor| read_mode(cursor, mappings.len()))?;
    let place = cursor.position();
    require(cursor.flag()?, 5, place)?;
    Ok(Setup { books, floors, residues, mappings, modes })
}

fn read_books(cursor: &mut Cursor, limits: &Limits) -> Result<Vec<Book>, Refusal> {
    let count = cursor.field(8)? + 1;
    let mut totals = Totals::default();
    (0..count).map(|_| book::read(cursor, limits, &mut totals)).collect()
}

/// Placeholders, each 0 (003, "Time domain transforms").
fn read_time_values(cursor: &mut Cursor) -> Result<(), Refusal> {
    read_list(cursor, |cursor| {
        let place = cursor.position();
        require(cursor.field(16)? == 0, 9, place)
    })?;
    Ok(())
}

/// A 6-bit count less one, then so many items.
fn read_list<T>(
    cursor: &mut Cursor,
    mut item: impl FnMut(&mut Cursor) -> Result<T, Refusal>,
) -> Result<Vec<T>, Refusal> {
    let count = cursor.field(6)? + 1;
    (0..count).map(|_| item(cursor)).collect()
}
