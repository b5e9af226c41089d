//! Residues of types 0, 1 and 2 (001; 000, section 8; 01, "Audio order", 5).
//!
//! The three types read the same codewords but for what their vectors are: type 2
//! has one vector, the submap's channels interleaved.

use crate::audio::Words;
use crate::bits::{Cursor, Cut};
use crate::book::{power_is_at_most, Book};
use crate::floor::read_book_number;
use crate::refusal::{require, Refusal};

/// Passes over the partitions (001).
pub const PASSES: usize = 8;

/// One residue's content.
#[derive(Clone, Debug, PartialEq, Eq)]
pub struct Residue {
    pub residue_type: u32,
    pub begin: u32,
    pub end: u32,
    pub partition_size: u32,
    pub class_book: u8,
    /// For each classification and pass a book or nothing.
    pub plan: Vec<[Option<u8>; PASSES]>,
}

impl Residue {
    /// How many classifications there are.
    pub fn classifications(&self) -> u32 {
        self.plan.len() as u32
    }

    /// The vectors to read, given the channels of the submap that are live.
    pub fn vectors(&self, live: &[bool]) -> usize {
        let live_channels = live.iter().filter(|&&live| live).count();
        if self.residue_type == 2 {
            live_channels.min(1)
        } else {
            live_channels
        }
    }

    /// How many partitions each vector has, for `half` the block size and a
    /// submap's number of channels.
    pub fn partitions(&self, half: u32, channels: u32) -> u32 {
        let size = if self.residue_type == 2 { half * channels } else { half };
        (self.end.min(size) - self.begin.min(size)) / self.partition_size
    }

    /// Reads one submap's residue: `live` says of each of its channels whether it
    /// has residue.
    pub(crate) fn read_words(
        &self,
        books: &[Book],
        live: &[bool],
        half: u32,
        cursor: &mut Cursor,
        words: &mut Words,
    ) -> Result<(), Cut> {
        let vectors = self.vectors(live);
        if vectors == 0 {
            return Ok(());
        }
        let partitions = self.partitions(half, live.len() as u32) as usize;
        let mut classes = vec![vec![0; partitions]; vectors];
        for pass in 0..PASSES {
            self.read_pass(books, pass, partitions, &mut classes, cursor, words)?;
        }
        Ok(())
    }

    /// One pass: in groups of as many partitions as a class word holds, the class
    /// words (pass 0 alone), then the group by partition and vector.
    fn read_pass(
        &self,
        books: &[Book],
        pass: usize,
        partitions: usize,
        classes: &mut [Vec<u8>],
        cursor: &mut Cursor,
        words: &mut Words,
    ) -> Result<(), Cut> {
        let class_book = &books[usize::from(self.class_book)];
        let group = class_book.dimensions() as usize;
        for first in (0..partitions).step_by(group) {
            if pass == 0 {
                for vector in classes.iter_mut() {
                    let entry = class_book.read_entry(cursor)?;
                    words.push(2 * entry);
                    self.split_class_word(entry, group, &mut vector[first..]);
                }
            }
            for partition in first..partitions.min(first + group) {
                for vector in classes.iter() {
                    self.read_partition(books, vector[partition], pass, cursor, words)?;
                }
            }
        }
        Ok(())
    }

    /// The class of each partition of a group, the last in the lowest digit (001);
    /// digits past the last partition are dropped.
    fn split_class_word(&self, entry: u32, group: usize, classes: &mut [u8]) {
        let mut rest = entry;
        for place in (0..group).rev() {
            if let Some(class) = classes.get_mut(place) {
                *class = (rest % self.classifications()) as u8;
            }
            rest /= self.classifications();
        }
    }

    fn read_partition(
        &self,
        books: &[Book],
        class: u8,
        pass: usize,
        cursor: &mut Cursor,
        words: &mut Words,
    ) -> Result<(), Cut> {
        if let Some(number) = self.plan[usize::from(class)][pass] {
            let book = &books[usize::from(number)];
            for _ in 0..self.partition_size / book.dimensions() {
                words.push(2 * book.read_entry(cursor)? + 1);
            }
        }
        Ok(())
    }
}

/// Reads one residue of a setup packet, its type included.
pub(crate) fn read(cursor: &mut Cursor, books: &[Book]) -> Result<Residue, Refusal> {
    let start = cursor.position();
    let residue_type = cursor.field(16)?;
    require(residue_type <= 2, 10, start)?;
    let begin = cursor.field(24)?;
    let end = cursor.field(24)?;
    let partition_size = cursor.field(24)? + 1;
    let classifications = cursor.field(6)? + 1;
    let class_book = read_book_number(cursor, books.len())?;
    let plan = read_plan(cursor, classifications, books.len())?;
    let residue = Residue { residue_type, begin, end, partition_size, class_book, plan };
    require(meets_rule_13(&residue, books), 13, start)?;
    Ok(residue)
}

fn read_plan(
    cursor: &mut Cursor,
    classifications: u32,
    books: usize,
) -> Result<Vec<[Option<u8>; PASSES]>, Refusal> {
    let mut cascades = Vec::new();
    for _ in 0..classifications {
        let low_bits = cursor.field(3)?;
        let high_bits = if cursor.flag()? { cursor.field(5)? } else { 0 };
        cascades.push(high_bits << 3 | low_bits);
    }
    let mut plan = Vec::new();
    for cascade in cascades {
        let mut row = [None; PASSES];
        for (pass, place) in row.iter_mut().enumerate() {
            if cascade >> pass & 1 == 1 {
                *place = Some(read_book_number(cursor, books)?);
            }
        }
        plan.push(row);
    }
    Ok(plan)
}

/// The four parts of rule 13, judged together after the last book number (01).
fn meets_rule_13(residue: &Residue, books: &[Book]) -> bool {
    let class_book = &books[usize::from(residue.class_book)];
    let mut vector_books = residue.plan.iter().flatten().flatten().map(|&number| &books[usize::from(number)]);
    residue.begin <= residue.end
        && power_is_at_most(residue.classifications(), class_book.dimensions(), class_book.entries())
        && vector_books
            .all(|book| book.values().is_some() && residue.partition_size.is_multiple_of(book.dimensions()))
}
