//! Random audio packets written codeword by codeword, with what a reader has to
//! find in them.

use crate::audio::live_channels;
use crate::bits::ilog;
use crate::book::{verdict, Book, Verdict};
use crate::floor::{range, Floor};
use crate::generate::random::Random;
use crate::identification::Identity;
use crate::ledger::Codeword;
use crate::mapping::Mapping;
use crate::residue::{Residue, PASSES};
use crate::setup::Setup;
use crate::write::{BitWriter, Written};

/// Packets end before they pass this many bits.
const GREATEST_BITS: usize = 8 * 12_000;

/// A packet and its content.
#[derive(Clone, Debug)]
pub struct AudioPacket {
    pub written: Written,
    pub mode: u32,
    pub previous_window_flag: bool,
    pub next_window_flag: bool,
    /// For each channel the floor's values in list order, `None` for an unused one.
    pub floors: Vec<Option<Vec<u32>>>,
    /// The residue codewords as the reader lists them.
    pub words: Vec<u32>,
    /// Whether all codewords were written; else the packet ends early, and `words`
    /// begins its list.
    pub whole: bool,
}

/// Writes packets for one setup.
#[derive(Debug)]
pub struct AudioWriter<'a> {
    identity: &'a Identity,
    setup: &'a Setup,
    /// Each book's used entries with their codewords.
    codes: Vec<Vec<(u32, Codeword)>>,
}

impl<'a> AudioWriter<'a> {
    pub fn new(identity: &'a Identity, setup: &'a Setup) -> Self {
        let codes = setup.books.iter().map(used_entries).collect();
        AudioWriter { identity, setup, codes }
    }

    /// A random packet.
    pub fn packet(&self, random: &mut Random) -> AudioPacket {
        let mode = random.place(self.setup.modes.len());
        let long_block = self.setup.modes[mode].long_block;
        let mut run =
            Run { writer: BitWriter::default(), words: Vec::new(), uniform: !random.one_in(4), random };
        run.writer.flag(false);
        run.writer.field(mode as u32, ilog(self.setup.modes.len() as u32 - 1));
        let flags = [run.random.one_in(2), run.random.one_in(2)].map(|flag| flag && long_block);
        if long_block {
            flags.iter().for_each(|&flag| run.writer.flag(flag));
        }
        let mapping = &self.setup.mappings[usize::from(self.setup.modes[mode].mapping)];
        let floors = self.write_floors(&mut run, mapping);
        let half = self.identity.block_sizes[usize::from(long_block)] / 2;
        let whole = self.write_residues(&mut run, mapping, &floors, half).is_some();
        AudioPacket {
            written: run.writer.finish(),
            mode: mode as u32,
            previous_window_flag: flags[0],
            next_window_flag: flags[1],
            floors,
            words: run.words,
            whole,
        }
    }

    fn write_floors(&self, run: &mut Run, mapping: &Mapping) -> Vec<Option<Vec<u32>>> {
        let unused_once_in = run.random.between(2, 9);
        (0..usize::from(self.identity.channels))
            .map(|channel| {
                let submap = mapping.submaps[mapping.submap_of(channel)];
                let used = !run.random.one_in(unused_once_in);
                run.writer.flag(used);
                used.then(|| self.write_floor(run, &self.setup.floors[usize::from(submap.floor)]))
            })
            .collect()
    }

    fn write_floor(&self, run: &mut Run, floor: &Floor) -> Vec<u32> {
        let width = ilog(range(floor.multiplier()) - 1);
        let mut values = Vec::new();
        for _ in 0..2 {
            let y = run.random.below(1 << width);
            run.writer.field(y, width);
            values.push(y);
        }
        for &number in floor.partition_classes() {
            let class = &floor.classes()[usize::from(number)];
            let mut subclasses =
                class.master_book.map_or(0, |book| run.entry(&self.codes[usize::from(book)]));
            for _ in 0..class.dimensions {
                let subclass = subclasses % (1 << class.subclass_bits);
                subclasses /= 1 << class.subclass_bits;
                let book = class.subclass_books[subclass as usize];
                values.push(book.map_or(0, |book| run.entry(&self.codes[usize::from(book)])));
            }
        }
        values
    }

    /// `None` where the packet became too long on the way.
    fn write_residues(
        &self,
        run: &mut Run,
        mapping: &Mapping,
        floors: &[Option<Vec<u32>>],
        half: u32,
    ) -> Option<()> {
        let used: Vec<bool> = floors.iter().map(Option::is_some).collect();
        let live = live_channels(&used, &mapping.couplings);
        for (number, submap) in mapping.submaps.iter().enumerate() {
            let members = (0..live.len()).filter(|&channel| mapping.submap_of(channel) == number);
            let live: Vec<bool> = members.map(|channel| live[channel]).collect();
            self.write_residue(run, &self.setup.residues[usize::from(submap.residue)], &live, half)?;
        }
        Some(())
    }

    /// The steps of 000, section 8.6.2, with writing in place of reading.
    fn write_residue(&self, run: &mut Run, residue: &Residue, live: &[bool], half: u32) -> Option<()> {
        let vectors = match residue.residue_type {
            2 => usize::from(live.contains(&true)),
            _ => live.iter().filter(|&&live| live).count(),
        };
        let channels = if residue.residue_type == 2 { live.len() as u32 } else { 1 };
        let size = half * channels;
        let partitions =
            ((residue.end.min(size) - residue.begin.min(size)) / residue.partition_size) as usize;
        let class_codes = &self.codes[usize::from(residue.class_book)];
        let group = self.setup.books[usize::from(residue.class_book)].dimensions() as usize;
        let mut classes = vec![Vec::new(); vectors];
        for pass in 0..PASSES {
            for partition in 0..partitions {
                if pass == 0 && partition % group == 0 {
                    for classes in &mut classes {
                        let entry = run.word(class_codes, 0)?;
                        classes.extend(digits(entry, residue.classifications(), group));
                    }
                }
                for classes in &classes {
                    self.write_partition(run, residue, residue.plan[classes[partition]][pass])?;
                }
            }
        }
        Some(())
    }

    fn write_partition(&self, run: &mut Run, residue: &Residue, book: Option<u8>) -> Option<()> {
        if let Some(number) = book.map(usize::from) {
            for _ in 0..residue.partition_size / self.setup.books[number].dimensions() {
                run.word(&self.codes[number], 1)?;
            }
        }
        Some(())
    }
}

/// The lowest `count` digits of a number, highest first.
fn digits(number: u32, base: u32, count: usize) -> Vec<usize> {
    let mut rest = number;
    let mut digits: Vec<usize> = (0..count)
        .map(|_| {
            let digit = rest % base;
            rest /= base;
            digit as usize
        })
        .collect();
    digits.reverse();
    digits
}

fn used_entries(book: &Book) -> Vec<(u32, Codeword)> {
    let Verdict::Accepted(codewords) = verdict(book.lengths()) else {
        unreachable!("a book's lengths are accepted");
    };
    (0..).zip(codewords).filter_map(|(entry, codeword)| Some((entry, codeword?))).collect()
}

/// A packet on the way.
struct Run<'a> {
    writer: BitWriter,
    words: Vec<u32>,
    random: &'a mut Random,
    /// Whether all entries come equally often, else the first ones more often.
    uniform: bool,
}

impl Run<'_> {
    /// Writes a random entry's codeword, for a lone entry either bit.
    fn entry(&mut self, codes: &[(u32, Codeword)]) -> u32 {
        let mut place = self.random.place(codes.len());
        if !self.uniform {
            place = self.random.place(place + 1);
        }
        let (entry, codeword) = codes[place];
        match codes.len() {
            1 => self.writer.bit(self.random.below(2)),
            _ => self.writer.codeword(codeword),
        }
        entry
    }

    /// Writes a residue codeword and lists it; `None` where the packet is full.
    fn word(&mut self, codes: &[(u32, Codeword)], vector: u32) -> Option<u32> {
        if self.writer.bits() >= GREATEST_BITS {
            return None;
        }
        let entry = self.entry(codes);
        self.words.push(2 * entry + vector);
        Some(entry)
    }
}
