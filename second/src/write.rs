//! Writes identification and setup packets from their content, the readers'
//! fields in reverse, and notes where each field lies so that it can be spoilt.
//!
//! Content leaves form open (ordered or sparse lengths, flags over nothing,
//! discarded bytes); a [`Random`] settles it.

use crate::bits::ilog;
use crate::book::{Book, PATTERN};
use crate::floor::Floor;
use crate::generate::random::Random;
use crate::identification::{self, Identity, NAME};
use crate::ledger::Codeword;
use crate::mapping::{Mapping, Mode};
use crate::residue::Residue;
use crate::setup::{self, Setup};

/// Where a field lies in a packet.
#[derive(Clone, Copy, Debug, PartialEq, Eq)]
pub struct Field {
    pub position: usize,
    pub width: u32,
}

/// A packet with its fields; codewords are none.
#[derive(Clone, Debug, Default, PartialEq, Eq)]
pub struct Written {
    pub bytes: Vec<u8>,
    pub fields: Vec<Field>,
}

impl Written {
    /// The packet with another value in one field.
    pub fn with_field(&self, field: Field, value: u32) -> Vec<u8> {
        let mut bytes = self.bytes.clone();
        for i in 0..field.width as usize {
            let at = field.position + i;
            let bit = (value >> i & 1) as u8;
            bytes[at / 8] = bytes[at / 8] & !(1 << (at % 8)) | bit << (at % 8);
        }
        bytes
    }
}

/// Appends bits from the low bit of each byte up (000, section 2).
#[derive(Debug, Default)]
pub struct BitWriter {
    written: Written,
    bits: usize,
}

impl BitWriter {
    /// A field of `width` bits.
    pub fn field(&mut self, value: u32, width: u32) {
        debug_assert!(width == 32 || value >> width == 0);
        self.written.fields.push(Field { position: self.bits, width });
        for i in 0..width {
            self.bit(value >> i & 1);
        }
    }

    /// A flag of one bit.
    pub fn flag(&mut self, value: bool) {
        self.field(u32::from(value), 1);
    }

    /// A codeword, leftmost bit first.
    pub fn codeword(&mut self, codeword: Codeword) {
        for place in 0..codeword.length {
            self.bit(codeword.bit(place));
        }
    }

    /// How many bits have been written.
    pub fn bits(&self) -> usize {
        self.bits
    }

    /// The packet, with zero bits to the end of the last byte.
    pub fn finish(self) -> Written {
        self.written
    }

    /// One bit, which is no field.
    pub fn bit(&mut self, bit: u32) {
        if self.bits.is_multiple_of(8) {
            self.written.bytes.push(0);
        }
        self.written.bytes[self.bits / 8] |= (bit as u8) << (self.bits % 8);
        self.bits += 1;
    }
}

fn header(packet_type: u8) -> BitWriter {
    let mut writer = BitWriter::default();
    for byte in [packet_type].into_iter().chain(NAME) {
        writer.field(u32::from(byte), 8);
    }
    writer
}

/// Writes an identification packet.
pub fn write_identification(identity: &Identity) -> Written {
    let mut writer = header(identification::TYPE);
    writer.field(0, 32);
    writer.field(u32::from(identity.channels), 8);
    writer.field(identity.rate, 32);
    writer.field(identity.bitrate_maximum as u32, 32);
    writer.field(identity.bitrate_nominal as u32, 32);
    writer.field(identity.bitrate_minimum as u32, 32);
    for size in identity.block_sizes {
        writer.field(size.trailing_zeros(), 4);
    }
    writer.flag(true);
    writer.finish()
}

/// Writes a setup packet for a stream of so many channels.
pub fn write_setup(setup: &Setup, channels: u8, form: &mut Random) -> Written {
    let writer = &mut header(setup::TYPE);
    writer.field(setup.books.len() as u32 - 1, 8);
    for book in &setup.books {
        write_book(writer, book, form);
    }
    let time_values = if form.one_in(4) { form.below(64) } else { 0 };
    writer.field(time_values, 6);
    for _ in 0..=time_values {
        writer.field(0, 16);
    }
    writer.field(setup.floors.len() as u32 - 1, 6);
    setup.floors.iter().for_each(|floor| write_floor(writer, floor));
    writer.field(setup.residues.len() as u32 - 1, 6);
    setup.residues.iter().for_each(|residue| write_residue(writer, residue, form));
    writer.field(setup.mappings.len() as u32 - 1, 6);
    setup.mappings.iter().for_each(|mapping| write_mapping(writer, mapping, channels, form));
    writer.field(setup.modes.len() as u32 - 1, 6);
    setup.modes.iter().for_each(|mode| write_mode(writer, mode));
    writer.flag(true);
    std::mem::take(writer).finish()
}

fn write_book(writer: &mut BitWriter, book: &Book, form: &mut Random) {
    writer.field(PATTERN, 24);
    writer.field(book.dimensions(), 16);
    writer.field(book.entries(), 24);
    let lengths = book.lengths();
    let ordered = lengths[0] != 0 && lengths.is_sorted() && form.one_in(2);
    writer.flag(ordered);
    if ordered {
        write_ordered_lengths(writer, lengths, form);
    } else {
        write_lengths(writer, lengths, form);
    }
    write_values(writer, book);
}

fn write_lengths(writer: &mut BitWriter, lengths: &[u8], form: &mut Random) {
    let sparse = lengths.contains(&0) || form.one_in(3);
    writer.flag(sparse);
    for &length in lengths {
        if sparse {
            writer.flag(length != 0);
        }
        if length != 0 {
            writer.field(u32::from(length) - 1, 5);
        }
    }
}

/// Runs may begin below the first length: those have no entries.
fn write_ordered_lengths(writer: &mut BitWriter, lengths: &[u8], form: &mut Random) {
    let first = if form.one_in(2) { lengths[0] } else { form.between(1, u32::from(lengths[0])) as u8 };
    writer.field(u32::from(first) - 1, 5);
    let mut rest = lengths;
    for length in first.. {
        if rest.is_empty() {
            return;
        }
        let run = rest.partition_point(|&other| other <= length);
        writer.field(run as u32, ilog(rest.len() as u32));
        rest = &rest[run..];
    }
}

fn write_values(writer: &mut BitWriter, book: &Book) {
    let Some(values) = book.values() else {
        return writer.field(0, 4);
    };
    writer.field(values.lookup_type, 4);
    writer.field(values.minimum, 32);
    writer.field(values.delta, 32);
    writer.field(values.width - 1, 4);
    writer.flag(values.sequence);
    for &multiplicand in &values.multiplicands {
        writer.field(u32::from(multiplicand), values.width);
    }
}

fn write_floor(writer: &mut BitWriter, floor: &Floor) {
    writer.field(1, 16);
    writer.field(floor.partition_classes().len() as u32, 5);
    for &class in floor.partition_classes() {
        writer.field(u32::from(class), 4);
    }
    for class in floor.classes() {
        writer.field(class.dimensions - 1, 3);
        writer.field(class.subclass_bits, 2);
        if let Some(book) = class.master_book {
            writer.field(u32::from(book), 8);
        }
        for book in &class.subclass_books {
            writer.field(book.map_or(0, |number| u32::from(number) + 1), 8);
        }
    }
    writer.field(floor.multiplier() - 1, 2);
    writer.field(floor.range_bits(), 4);
    for &x in &floor.x_list()[2..] {
        writer.field(x, floor.range_bits());
    }
}

fn write_residue(writer: &mut BitWriter, residue: &Residue, form: &mut Random) {
    writer.field(residue.residue_type, 16);
    writer.field(residue.begin, 24);
    writer.field(residue.end, 24);
    writer.field(residue.partition_size - 1, 24);
    writer.field(residue.classifications() - 1, 6);
    writer.field(u32::from(residue.class_book), 8);
    for row in &residue.plan {
        let cascade = (0..).zip(row).fold(0, |bits, (pass, book)| bits | u32::from(book.is_some()) << pass);
        let high_bits = cascade >> 3;
        writer.field(cascade & 7, 3);
        let flag = high_bits != 0 || form.one_in(4);
        writer.flag(flag);
        if flag {
            writer.field(high_bits, 5);
        }
    }
    for &book in residue.plan.iter().flatten().flatten() {
        writer.field(u32::from(book), 8);
    }
}

fn write_mapping(writer: &mut BitWriter, mapping: &Mapping, channels: u8, form: &mut Random) {
    writer.field(0, 16);
    let submap_flag = mapping.submaps.len() > 1 || form.one_in(3);
    writer.flag(submap_flag);
    if submap_flag {
        writer.field(mapping.submaps.len() as u32 - 1, 4);
    }
    writer.flag(!mapping.couplings.is_empty());
    if !mapping.couplings.is_empty() {
        writer.field(mapping.couplings.len() as u32 - 1, 8);
    }
    let width = ilog(u32::from(channels) - 1);
    for &(magnitude, angle) in &mapping.couplings {
        writer.field(u32::from(magnitude), width);
        writer.field(u32::from(angle), width);
    }
    writer.field(0, 2);
    for &submap in &mapping.multiplex {
        writer.field(u32::from(submap), 4);
    }
    for submap in &mapping.submaps {
        writer.field(form.below(256), 8);
        writer.field(u32::from(submap.floor), 8);
        writer.field(u32::from(submap.residue), 8);
    }
}

fn write_mode(writer: &mut BitWriter, mode: &Mode) {
    writer.flag(mode.long_block);
    writer.field(0, 16);
    writer.field(0, 16);
    writer.field(u32::from(mode.mapping), 8);
}
