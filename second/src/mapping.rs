//! Channel mappings and modes (003, "Mappings" and "Modes").

use crate::bits::{ilog, Cursor};
use crate::refusal::{require, Refusal};

/// One mapping's content.
#[derive(Clone, Debug, PartialEq, Eq)]
pub struct Mapping {
    /// Magnitude and angle channel of each step.
    pub couplings: Vec<(u8, u8)>,
    /// Each channel's submap where there is more than one, else empty.
    pub multiplex: Vec<u8>,
    pub submaps: Vec<Submap>,
}

/// The floor and the residue of one submap.
#[derive(Clone, Copy, Debug, PartialEq, Eq)]
pub struct Submap {
    pub floor: u8,
    pub residue: u8,
}

/// One mode's content.
#[derive(Clone, Copy, Debug, PartialEq, Eq)]
pub struct Mode {
    pub long_block: bool,
    pub mapping: u8,
}

impl Mapping {
    /// The submap a channel belongs to.
    pub fn submap_of(&self, channel: usize) -> usize {
        self.multiplex.get(channel).map_or(0, |&submap| usize::from(submap))
    }

    /// Whether couplings and multiplex are such as a stream of so many channels has.
    pub fn suits(&self, channels: u8) -> bool {
        let expected = if self.submaps.len() > 1 { usize::from(channels) } else { 0 };
        self.multiplex.len() == expected
            && self.couplings.iter().all(|&(magnitude, angle)| magnitude < channels && angle < channels)
    }
}

/// Reads one mapping of a setup packet, its type included.
pub(crate) fn read_mapping(
    cursor: &mut Cursor,
    channels: u8,
    floors: usize,
    residues: usize,
) -> Result<Mapping, Refusal> {
    let place = cursor.position();
    require(cursor.field(16)? == 0, 9, place)?;
    let submap_count = if cursor.flag()? { cursor.field(4)? + 1 } else { 1 };
    let couplings = read_couplings(cursor, channels)?;
    let place = cursor.position();
    require(cursor.field(2)? == 0, 9, place)?;
    let mut multiplex = Vec::new();
    if submap_count > 1 {
        for _ in 0..channels {
            multiplex.push(read_number(cursor, 4, submap_count as usize)?);
        }
    }
    let mut submaps = Vec::new();
    for _ in 0..submap_count {
        submaps.push(read_submap(cursor, floors, residues)?);
    }
    Ok(Mapping { couplings, multiplex, submaps })
}

fn read_couplings(cursor: &mut Cursor, channels: u8) -> Result<Vec<(u8, u8)>, Refusal> {
    let steps = if cursor.flag()? { cursor.field(8)? + 1 } else { 0 };
    let width = ilog(u32::from(channels) - 1);
    let mut couplings = Vec::new();
    for _ in 0..steps {
        let magnitude = read_number(cursor, width, usize::from(channels))?;
        let place = cursor.position();
        let angle = read_number(cursor, width, usize::from(channels))?;
        require(magnitude != angle, 11, place)?;
        couplings.push((magnitude, angle));
    }
    Ok(couplings)
}

fn read_submap(cursor: &mut Cursor, floors: usize, residues: usize) -> Result<Submap, Refusal> {
    cursor.field(8)?; // the unused time configuration, discarded (003)
    let floor = read_number(cursor, 8, floors)?;
    let residue = read_number(cursor, 8, residues)?;
    Ok(Submap { floor, residue })
}

/// Reads one mode of a setup packet.
pub(crate) fn read_mode(cursor: &mut Cursor, mappings: usize) -> Result<Mode, Refusal> {
    let long_block = cursor.flag()?;
    for _window_then_transform_type in 0..2 {
        let place = cursor.position();
        require(cursor.field(16)? == 0, 9, place)?;
    }
    let mapping = read_number(cursor, 8, mappings)?;
    Ok(Mode { long_block, mapping })
}

/// A number below `count`, judged at once (11).
fn read_number(cursor: &mut Cursor, width: u32, count: usize) -> Result<u8, Refusal> {
    let place = cursor.position();
    let number = cursor.field(width)?;
    require((number as usize) < count, 11, place)?;
    Ok(number as u8)
}
