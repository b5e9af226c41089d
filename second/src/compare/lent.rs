//! Lists lent to the library: filled with another number than 0, and guarded.

use second::tables::{Tables, COUNT, NAMES};
use std::fmt::Debug;

const GUARD: usize = 16;

/// What lent places hold before a call with this packet, as far as they are wide.
pub fn filling(packet: &[u8]) -> u32 {
    const FILLINGS: [u32; 3] = [0xA5A5_A5A5, u32::MAX, 0x0101_0101];
    FILLINGS[packet.len() % FILLINGS.len()]
}

/// Lends `places` places that hold `filling` and gives what the call left there. Where it
/// wrote beside them, the guards are given too: a list of another length than any answer
/// has.
pub fn lend<T: Copy + PartialEq, R>(
    places: usize,
    filling: T,
    call: impl FnOnce(&mut [T]) -> R,
) -> (R, Vec<T>) {
    let mut list = vec![filling; GUARD + places + GUARD];
    let answer = call(&mut list[GUARD..GUARD + places]);
    let guards = list[..GUARD].iter().chain(&list[GUARD + places..]);
    if guards.copied().all(|number| number == filling) {
        list.truncate(GUARD + places);
        list.drain(..GUARD);
    }
    (answer, list)
}

/// The ten tables of the setup call, to be written.
#[derive(Debug)]
pub struct TablesMut<'a> {
    pub counts: &'a mut [u32],
    pub books: &'a mut [u32],
    pub lengths: &'a mut [u8],
    pub codewords: &'a mut [u32],
    pub multiplicands: &'a mut [u16],
    pub floors: &'a mut [u16],
    pub residues: &'a mut [u32],
    pub plans: &'a mut [u16],
    pub mappings: &'a mut [u8],
    pub modes: &'a mut [u8],
}

impl<'a> From<&'a mut Tables> for TablesMut<'a> {
    fn from(tables: &'a mut Tables) -> Self {
        TablesMut {
            counts: &mut tables.counts,
            books: &mut tables.books,
            lengths: &mut tables.lengths,
            codewords: &mut tables.codewords,
            multiplicands: &mut tables.multiplicands,
            floors: &mut tables.floors,
            residues: &mut tables.residues,
            plans: &mut tables.plans,
            mappings: &mut tables.mappings,
            modes: &mut tables.modes,
        }
    }
}

/// The two outputs of the audio call, to be written.
#[derive(Debug)]
pub struct OutputsMut<'a> {
    pub curves: &'a mut [u8],
    pub words: &'a mut [u32],
}

/// How many places each output has.
#[derive(Clone, Copy, Debug, PartialEq, Eq)]
pub struct Places {
    pub curves: usize,
    pub words: usize,
}

/// What the two outputs are lent from, kept from call to call.
#[derive(Debug, Default)]
pub struct Outputs {
    curves: Room<u8>,
    words: Room<u32>,
}

impl Outputs {
    /// Both outputs, full of another number than 0.
    pub fn lend(&mut self, places: Places, filling: u32) -> OutputsMut<'_> {
        OutputsMut {
            curves: self.curves.lend(places.curves, filling as u8),
            words: self.words.lend(places.words, filling),
        }
    }

    /// Where the outputs lent last are not these; of each the first place.
    pub fn differences(&self, curves: &[u8], words: &[u32]) -> Vec<String> {
        let curves = self.curves.difference(curves).map(|difference| format!("curves {difference}"));
        let words = self.words.difference(words).map(|difference| format!("words {difference}"));
        curves.into_iter().chain(words).collect()
    }
}

/// What the ten tables are lent from, kept from call to call.
#[derive(Debug, Default)]
pub struct Rooms {
    counts: Room<u32>,
    books: Room<u32>,
    lengths: Room<u8>,
    codewords: Room<u32>,
    multiplicands: Room<u16>,
    floors: Room<u16>,
    residues: Room<u32>,
    plans: Room<u16>,
    mappings: Room<u8>,
    modes: Room<u8>,
}

impl Rooms {
    /// Ten tables of so many places, full of another number than 0.
    pub fn lend(&mut self, places: &[usize; COUNT], filling: u32) -> TablesMut<'_> {
        TablesMut {
            counts: self.counts.lend(places[0], filling),
            books: self.books.lend(places[1], filling),
            lengths: self.lengths.lend(places[2], filling as u8),
            codewords: self.codewords.lend(places[3], filling),
            multiplicands: self.multiplicands.lend(places[4], filling as u16),
            floors: self.floors.lend(places[5], filling as u16),
            residues: self.residues.lend(places[6], filling),
            plans: self.plans.lend(places[7], filling as u16),
            mappings: self.mappings.lend(places[8], filling as u8),
            modes: self.modes.lend(places[9], filling as u8),
        }
    }

    /// Where the tables lent last are not these with zeros behind them; of each the first
    /// place.
    pub fn differences(&self, expected: &Tables) -> Vec<String> {
        let differences = [
            self.counts.difference(&expected.counts),
            self.books.difference(&expected.books),
            self.lengths.difference(&expected.lengths),
            self.codewords.difference(&expected.codewords),
            self.multiplicands.difference(&expected.multiplicands),
            self.floors.difference(&expected.floors),
            self.residues.difference(&expected.residues),
            self.plans.difference(&expected.plans),
            self.mappings.difference(&expected.mappings),
            self.modes.difference(&expected.modes),
        ];
        let named = NAMES.iter().zip(differences);
        named.filter_map(|(name, difference)| Some(format!("{name} {}", difference?))).collect()
    }
}

/// One list between guards.
#[derive(Debug, Default)]
struct Room<T> {
    list: Vec<T>,
    filling: T,
    zeros: Vec<T>,
}

impl<T: Copy + Debug + Default + PartialEq> Room<T> {
    fn lend(&mut self, places: usize, filling: T) -> &mut [T] {
        self.list.clear();
        self.list.resize(GUARD + places + GUARD, filling);
        self.filling = filling;
        if self.zeros.len() < places {
            self.zeros.resize(places, T::default());
        }
        &mut self.list[GUARD..GUARD + places]
    }

    fn difference(&self, expected: &[T]) -> Option<String> {
        let (guard, rest) = self.list.split_at(GUARD);
        let (table, other_guard) = rest.split_at(rest.len() - GUARD);
        if guard.iter().chain(other_guard).any(|&number| number != self.filling) {
            return Some("was written beside".into());
        }
        let front = expected.len().min(table.len());
        if table[..front] == expected[..front] && table[front..] == self.zeros[..table.len() - front] {
            return None;
        }
        let zeros = std::iter::repeat(T::default());
        let mut pairs = table.iter().copied().zip(expected.iter().copied().chain(zeros)).enumerate();
        let (place, (number, other)) = pairs.find(|(_, (number, other))| number != other)?;
        Some(format!("at {place}: {number:?}, not {other:?}"))
    }
}
