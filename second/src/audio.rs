//! Audio packets and the tally (003, "Audio packet decode"; 01, "Audio order").

use crate::bits::{ilog, Cursor};
use crate::floor::Floor;
use crate::identification::Identity;
use crate::limits::Limits;
use crate::mapping::Mapping;
use crate::refusal::{require, Refusal};
use crate::setup::Setup;

/// How far a stream has come.
#[derive(Clone, Copy, Debug, Default, PartialEq, Eq)]
pub struct Tally {
    /// The last accepted block size, 0 before the first.
    pub block_size: u32,
    pub samples: u64,
}

impl Tally {
    /// Sound when both numbers are 0, or the size is one of the identity's (01).
    pub fn is_sound(&self, identity: &Identity) -> bool {
        *self == Tally::default() || identity.block_sizes.contains(&self.block_size)
    }

    /// Samples that a block finishes: none for a stream's first, else a quarter of
    /// the block before and a quarter of this one.
    fn finished_by(&self, block_size: u32) -> u64 {
        match self.block_size {
            0 => 0,
            previous => u64::from(previous / 4 + block_size / 4),
        }
    }
}

/// The four window points (003).
#[derive(Clone, Copy, Debug, PartialEq, Eq)]
pub struct Window {
    pub left_start: u32,
    pub left_end: u32,
    pub right_start: u32,
    pub right_end: u32,
}

/// What an accepted audio packet tells besides curves and words.
#[derive(Clone, Debug, PartialEq, Eq)]
pub struct Answer {
    pub mode: u32,
    pub block_size: u32,
    /// Both false for a short block.
    pub previous_window_flag: bool,
    pub next_window_flag: bool,
    pub window: Window,
    /// For each channel.
    pub floor_used: Vec<bool>,
    /// Samples finished by this packet.
    pub samples: u64,
    /// Codewords read in the residues.
    pub words: u64,
    /// Bits behind the last needed one, `None` where a floor or codeword was cut.
    /// No part of 01's answer: it tells whether a published packet was read in step.
    pub bits_left: Option<usize>,
}

/// The lent places for residue codewords: twice the entry number, plus 1 where it
/// names a vector and not a class word. Words past the last place are counted.
#[derive(Debug)]
pub(crate) struct Words<'a> {
    places: &'a mut [u32],
    count: u64,
}

impl Words<'_> {
    pub(crate) fn push(&mut self, word: u32) {
        if let Some(place) = self.places.get_mut(self.count as usize) {
            *place = word;
        }
        self.count += 1;
    }

    fn fit(&self) -> bool {
        self.count <= self.places.len() as u64
    }
}

/// Reads an audio packet. The curves get n/2 bytes per channel, the words one
/// place per residue codeword, zeros elsewhere and everywhere on a refusal. The
/// tally is brought up to date when the packet is accepted.
pub fn audio(
    identity: &Identity,
    setup: &Setup,
    tally: &mut Tally,
    packet: &[u8],
    curves: &mut [u8],
    words: &mut [u32],
) -> Result<Answer, Refusal> {
    curves.fill(0);
    words.fill(0);
    let answer = read(identity, setup, tally, packet, curves, words);
    match &answer {
        Ok(answer) => {
            tally.block_size = answer.block_size;
            tally.samples += answer.samples;
        }
        Err(_) => {
            curves.fill(0);
            words.fill(0);
        }
    }
    answer
}

fn read(
    identity: &Identity,
    setup: &Setup,
    tally: &Tally,
    packet: &[u8],
    curves: &mut [u8],
    places: &mut [u32],
) -> Result<Answer, Refusal> {
    require(are_sound(identity, setup, tally), 18, 0)?;
    let cursor = &mut Cursor::new(packet);
    let start = read_start(identity, setup, cursor)?;
    let half = start.block_size / 2;
    let curve_bytes = usize::from(identity.channels) * half as usize;
    let curves = curves.get_mut(..curve_bytes).ok_or(Refusal::without_place(17))?;

    let mapping = &setup.mappings[usize::from(setup.modes[start.mode as usize].mapping)];
    let floor_used = read_floors(setup, mapping, cursor, curves, half as usize);
    let words = &mut Words { places, count: 0 };
    if !cursor.has_ended() {
        read_residues(setup, mapping, &floor_used, half, cursor, words);
    }
    require(words.fit(), 17, 0)?;
    let samples = tally.finished_by(start.block_size);
    require(tally.samples.checked_add(samples).is_some(), 19, 0)?;
    Ok(Answer {
        mode: start.mode,
        block_size: start.block_size,
        previous_window_flag: start.previous_window_flag,
        next_window_flag: start.next_window_flag,
        window: window(identity.block_sizes[0], &start),
        floor_used,
        samples,
        words: words.count,
        bits_left: (!cursor.has_ended()).then(|| cursor.bits_left()),
    })
}

fn are_sound(identity: &Identity, setup: &Setup, tally: &Tally) -> bool {
    identity.is_sound(&Limits::BASE) && setup.suits(identity) && tally.is_sound(identity)
}

/// What stands before the floors.
#[derive(Clone, Copy, Debug)]
struct Start {
    mode: u32,
    long_block: bool,
    block_size: u32,
    previous_window_flag: bool,
    next_window_flag: bool,
}

/// Type bit, mode and, for a long block, the window flags; a cut here is 1.
fn read_start(identity: &Identity, setup: &Setup, cursor: &mut Cursor) -> Result<Start, Refusal> {
    require(!cursor.flag()?, 15, 0)?;
    let place = cursor.position();
    let modes = setup.modes.len() as u32;
    let mode = cursor.field(ilog(modes - 1))?;
    require(mode < modes, 16, place)?;
    let long_block = setup.modes[mode as usize].long_block;
    let previous_window_flag = long_block && cursor.flag()?;
    let next_window_flag = long_block && cursor.flag()?;
    let block_size = identity.block_sizes[usize::from(long_block)];
    Ok(Start { mode, long_block, block_size, previous_window_flag, next_window_flag })
}

/// The window points (003, "packet type, mode and window decode").
fn window(short: u32, start: &Start) -> Window {
    let n = start.block_size;
    let (left_start, left_end) = match start.long_block && !start.previous_window_flag {
        true => (n / 4 - short / 4, n / 4 + short / 4),
        false => (0, n / 2),
    };
    let (right_start, right_end) = match start.long_block && !start.next_window_flag {
        true => (n * 3 / 4 - short / 4, n * 3 / 4 + short / 4),
        false => (n / 2, n),
    };
    Window { left_start, left_end, right_start, right_end }
}

/// Each channel's floor in order; from a cut on, floors are unused.
fn read_floors(
    setup: &Setup,
    mapping: &Mapping,
    cursor: &mut Cursor,
    curves: &mut [u8],
    half: usize,
) -> Vec<bool> {
    let mut used = Vec::new();
    for (channel, curve) in curves.chunks_exact_mut(half).enumerate() {
        let floor = floor_of(setup, mapping, channel);
        let values = floor.read_values(&setup.books, cursor).unwrap_or(None);
        if let Some(values) = &values {
            floor.draw(values, curve);
        }
        used.push(values.is_some());
    }
    used
}

fn floor_of<'a>(setup: &'a Setup, mapping: &Mapping, channel: usize) -> &'a Floor {
    let submap = mapping.submaps[mapping.submap_of(channel)];
    &setup.floors[usize::from(submap.floor)]
}

/// A used floor of a packet: the values read for it, and half the block size.
#[derive(Clone, Debug)]
pub struct FloorValues<'a> {
    pub floor: &'a Floor,
    pub values: Vec<u32>,
    pub half: usize,
}

/// The used floors of a packet, in channel order, for a sound identity that the setup
/// suits.
pub fn floor_values<'a>(
    identity: &Identity,
    setup: &'a Setup,
    packet: &[u8],
) -> Result<Vec<FloorValues<'a>>, Refusal> {
    let cursor = &mut Cursor::new(packet);
    let start = read_start(identity, setup, cursor)?;
    let mapping = &setup.mappings[usize::from(setup.modes[start.mode as usize].mapping)];
    let half = (start.block_size / 2) as usize;
    let mut used = Vec::new();
    for channel in 0..usize::from(identity.channels) {
        let floor = floor_of(setup, mapping, channel);
        let values = floor.read_values(&setup.books, cursor).unwrap_or(None);
        used.extend(values.map(|values| FloorValues { floor, values, half }));
    }
    Ok(used)
}

/// Which channels have residue: those whose floor is used, then by the coupling
/// steps in order (003, "nonzero vector propagate").
pub fn live_channels(floor_used: &[bool], couplings: &[(u8, u8)]) -> Vec<bool> {
    let mut live = floor_used.to_vec();
    for &(magnitude, angle) in couplings {
        let either = live[usize::from(magnitude)] || live[usize::from(angle)];
        live[usize::from(magnitude)] = either;
        live[usize::from(angle)] = either;
    }
    live
}

/// Residues by submap; a cut ends the reading, and the packet stands.
fn read_residues(
    setup: &Setup,
    mapping: &Mapping,
    floor_used: &[bool],
    half: u32,
    cursor: &mut Cursor,
    words: &mut Words,
) {
    let live = live_channels(floor_used, &mapping.couplings);
    for (number, submap) in mapping.submaps.iter().enumerate() {
        let members = (0..live.len()).filter(|&channel| mapping.submap_of(channel) == number);
        let live: Vec<bool> = members.map(|channel| live[channel]).collect();
        let residue = &setup.residues[usize::from(submap.residue)];
        if residue.read_words(&setup.books, &live, half, cursor, words).is_err() {
            return;
        }
    }
}
