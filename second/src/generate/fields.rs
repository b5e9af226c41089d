//! A small setup packet as a list of named fields, to be changed field by field: the rules'
//! tests and the comparisons spoil it.

use crate::book::PATTERN;
use crate::identification::Identity;
use crate::limits::Limits;
use crate::refusal::Refusal;
use crate::setup::{setup, Setup};
use crate::write::BitWriter;

/// Three channels, blocks of 64 and 128.
pub const IDENTITY: Identity = Identity {
    channels: 3,
    rate: 8_000,
    bitrate_maximum: -1,
    bitrate_nominal: 16_000,
    bitrate_minimum: 0,
    block_sizes: [64, 128],
};

/// A field's name, value and width.
pub type Field = (&'static str, u32, u32);

/// A packet's fields in order.
#[derive(Clone, Debug)]
pub struct Fields(pub Vec<Field>);

impl Fields {
    /// With other values in the fields named.
    pub fn with(mut self, changes: &[(&str, u32)]) -> Fields {
        for &(name, value) in changes {
            let place = self.place(name);
            self.0[place].1 = value;
        }
        self
    }

    /// With other fields in place of those from one name to another.
    pub fn replacing(mut self, first: &str, last: &str, fields: &[Field]) -> Fields {
        let range = self.place(first)..=self.place(last);
        self.0.splice(range, fields.iter().copied());
        self
    }

    /// The fields before the one named.
    pub fn up_to(mut self, name: &str) -> Fields {
        self.0.truncate(self.place(name));
        self
    }

    /// The bit at which a field begins.
    pub fn position(&self, name: &str) -> u64 {
        self.0[..self.place(name)].iter().map(|&(_, _, width)| u64::from(width)).sum()
    }

    fn place(&self, name: &str) -> usize {
        self.0.iter().position(|field| field.0 == name).unwrap_or_else(|| panic!("no field {name}"))
    }

    pub fn pack(&self) -> Vec<u8> {
        let mut writer = BitWriter::default();
        for &(_, value, width) in &self.0 {
            writer.field(value, width);
        }
        writer.finish().bytes
    }

    /// What the setup reader says to them.
    pub fn read(&self) -> Result<Setup, Refusal> {
        setup(&IDENTITY, &self.pack(), &Limits::BASE)
    }

    /// The refusal's number, 0 for none.
    pub fn number(&self) -> u8 {
        self.read().err().map_or(0, |refusal| refusal.number)
    }
}

/// Book 0 of two entries without values; book 1 of four entries with a lattice of
/// two values in two dimensions; one floor with two explicit X; one residue; one
/// mapping with two submaps and one coupling; three modes, the second long.
pub fn base() -> Fields {
    Fields(vec![
        ("type", 5, 8),
        ("v", 0x76, 8),
        ("o", 0x6F, 8),
        ("r", 0x72, 8),
        ("b", 0x62, 8),
        ("i", 0x69, 8),
        ("s", 0x73, 8),
        ("books", 1, 8),
        ("pattern 0", PATTERN, 24),
        ("dimensions 0", 1, 16),
        ("entries 0", 2, 24),
        ("ordered 0", 0, 1),
        ("sparse 0", 0, 1),
        ("length 0 0", 0, 5),
        ("length 0 1", 0, 5),
        ("lookup 0", 0, 4),
        ("pattern 1", PATTERN, 24),
        ("dimensions 1", 2, 16),
        ("entries 1", 4, 24),
        ("ordered 1", 1, 1),
        ("first length 1", 1, 5),
        ("run 1", 4, 3),
        ("lookup 1", 1, 4),
        ("minimum 1", 0x62800001, 32),
        ("delta 1", 0xE2800001, 32),
        ("width 1", 2, 4),
        ("sequence 1", 1, 1),
        ("multiplicand 1 0", 5, 3),
        ("multiplicand 1 1", 7, 3),
        ("times", 0, 6),
        ("time", 0, 16),
        ("floors", 0, 6),
        ("floor type", 1, 16),
        ("partitions", 1, 5),
        ("partition class", 0, 4),
        ("class dimensions", 1, 3),
        ("subclass bits", 1, 2),
        ("master book", 0, 8),
        ("subclass book 0", 2, 8),
        ("subclass book 1", 0, 8),
        ("multiplier", 0, 2),
        ("range bits", 5, 4),
        ("x 2", 16, 5),
        ("x 3", 8, 5),
        ("residues", 0, 6),
        ("residue type", 0, 16),
        ("begin", 0, 24),
        ("end", 24, 24),
        ("partition size", 7, 24),
        ("classifications", 1, 6),
        ("class book", 0, 8),
        ("cascade 0", 1, 3),
        ("cascade flag 0", 0, 1),
        ("cascade 1", 0, 3),
        ("cascade flag 1", 0, 1),
        ("plan 0 0", 1, 8),
        ("mappings", 0, 6),
        ("mapping type", 0, 16),
        ("submap flag", 1, 1),
        ("submaps", 1, 4),
        ("coupling flag", 1, 1),
        ("steps", 0, 8),
        ("magnitude", 0, 2),
        ("angle", 1, 2),
        ("reserved", 0, 2),
        ("multiplex 0", 0, 4),
        ("multiplex 1", 1, 4),
        ("multiplex 2", 0, 4),
        ("discarded 0", 0xFF, 8),
        ("submap floor 0", 0, 8),
        ("submap residue 0", 0, 8),
        ("discarded 1", 7, 8),
        ("submap floor 1", 0, 8),
        ("submap residue 1", 0, 8),
        ("modes", 2, 6),
        ("block flag 0", 0, 1),
        ("window 0", 0, 16),
        ("transform 0", 0, 16),
        ("mapping 0", 0, 8),
        ("block flag 1", 1, 1),
        ("window 1", 0, 16),
        ("transform 1", 0, 16),
        ("mapping 1", 0, 8),
        ("block flag 2", 0, 1),
        ("window 2", 0, 16),
        ("transform 2", 0, 16),
        ("mapping 2", 0, 8),
        ("framing", 1, 1),
    ])
}

/// A packet of fields without names.
pub fn pack(fields: &[(u32, u32)]) -> Vec<u8> {
    let mut writer = BitWriter::default();
    for &(value, width) in fields {
        writer.field(value, width);
    }
    writer.finish().bytes
}
