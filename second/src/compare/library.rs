//! The proved library's calls as safe functions: the one place with unsafe code.
//!
//! The declarations are those of include/torchvalley.h. Lent lists are filled with
//! other numbers before a call and lie between guards, which a call must not touch.

#![allow(unsafe_code)]

use crate::lent::{OutputsMut, TablesMut};
use second::tables::Tables;
use std::fmt;

/// As the library has it: block sizes apart, channels of 32 bits.
#[repr(C)]
#[derive(Clone, Copy, Debug, PartialEq, Eq)]
pub struct Identity {
    pub channels: u32,
    pub rate: u32,
    pub bitrate_maximum: i32,
    pub bitrate_nominal: i32,
    pub bitrate_minimum: i32,
    pub blocksize0: u32,
    pub blocksize1: u32,
}

#[repr(C)]
#[derive(Clone, Copy, Debug, PartialEq, Eq)]
pub struct IdentityAnswer {
    pub refusal: u32,
    pub identity: Identity,
}

/// An entry, and the place behind its codeword; all zero beside a refusal.
#[repr(C)]
#[derive(Clone, Copy, Debug, PartialEq, Eq)]
pub struct CodewordAnswer {
    pub refusal: u32,
    pub entry: u32,
    pub byte: usize,
    pub bit: u8,
}

/// How far a stream has come, as the library has it.
#[repr(C)]
#[derive(Clone, Copy, Debug, Default, PartialEq, Eq)]
pub struct Tally {
    pub blocksize: u32,
    pub samples: u64,
}

#[repr(C)]
#[derive(Clone, Copy, Debug, Default, PartialEq, Eq)]
pub struct Window {
    pub left_start: u32,
    pub left_end: u32,
    pub right_start: u32,
    pub right_end: u32,
}

/// A place for each channel that a packet could name.
#[repr(transparent)]
#[derive(Clone, Copy, PartialEq, Eq)]
pub struct Used(pub [u8; 255]);

impl fmt::Debug for Used {
    /// Without the zeros at the end.
    fn fmt(&self, f: &mut fmt::Formatter) -> fmt::Result {
        let end = self.0.iter().rposition(|&used| used != 0).map_or(0, |last| last + 1);
        self.0[..end].fmt(f)
    }
}

/// Flags are numbers; all zero beside a refusal.
#[repr(C)]
#[derive(Clone, Copy, Debug, PartialEq, Eq)]
pub struct AudioAnswer {
    pub refusal: u32,
    pub mode: u32,
    pub blocksize: u32,
    pub previous: u32,
    pub next: u32,
    pub window: Window,
    pub samples: u64,
    pub codewords: u64,
    pub used: Used,
}

/// What the call with the tally by value gives.
#[repr(C)]
#[derive(Clone, Copy, Debug, PartialEq, Eq)]
pub struct AudioLeft {
    pub tally: Tally,
    pub answer: AudioAnswer,
}

#[link(name = "torchvalley", kind = "static")]
extern "C" {
    fn torchvalley_identification(packet: *const u8, length: usize) -> IdentityAnswer;
    fn torchvalley_identity_sound(identity: Identity) -> bool;
    fn torchvalley_enter_lengths(lengths: *const u8, count: usize, answers: *mut u64, places: usize) -> u32;
    fn torchvalley_codewords(lengths: *const u8, entries: usize, words: *mut u32, places: usize) -> u32;
    fn torchvalley_floor_points(
        x: *const u16,
        x_count: usize,
        values: *const u16,
        value_count: usize,
        multiplier: u8,
        y: *mut u8,
        y_count: usize,
        flags: *mut u8,
        flag_count: usize,
    ) -> bool;
    fn torchvalley_floor_curve(
        x: *const u16,
        x_count: usize,
        y: *const u8,
        y_count: usize,
        flags: *const u8,
        flag_count: usize,
        multiplier: u8,
        out: *mut u8,
        out_count: usize,
    ) -> bool;
    fn torchvalley_setup(
        identity: Identity,
        packet: *const u8,
        packet_length: usize,
        counts: *mut u32,
        counts_length: usize,
        books: *mut u32,
        books_length: usize,
        lengths: *mut u8,
        lengths_length: usize,
        codewords: *mut u32,
        codewords_length: usize,
        multiplicands: *mut u16,
        multiplicands_length: usize,
        floors: *mut u16,
        floors_length: usize,
        residues: *mut u32,
        residues_length: usize,
        plans: *mut u16,
        plans_length: usize,
        mappings: *mut u8,
        mappings_length: usize,
        modes: *mut u8,
        modes_length: usize,
    ) -> u32;
    fn torchvalley_setup_sound(
        identity: Identity,
        counts: *const u32,
        counts_length: usize,
        books: *const u32,
        books_length: usize,
        lengths: *const u8,
        lengths_length: usize,
        codewords: *const u32,
        codewords_length: usize,
        multiplicands: *const u16,
        multiplicands_length: usize,
        floors: *const u16,
        floors_length: usize,
        residues: *const u32,
        residues_length: usize,
        plans: *const u16,
        plans_length: usize,
        mappings: *const u8,
        mappings_length: usize,
        modes: *const u8,
        modes_length: usize,
    ) -> bool;
    fn torchvalley_codeword(
        identity: Identity,
        counts: *const u32,
        counts_length: usize,
        books: *const u32,
        books_length: usize,
        lengths: *const u8,
        lengths_length: usize,
        codewords: *const u32,
        codewords_length: usize,
        multiplicands: *const u16,
        multiplicands_length: usize,
        floors: *const u16,
        floors_length: usize,
        residues: *const u32,
        residues_length: usize,
        plans: *const u16,
        plans_length: usize,
        mappings: *const u8,
        mappings_length: usize,
        modes: *const u8,
        modes_length: usize,
        book: u32,
        packet: *const u8,
        packet_length: usize,
        byte: usize,
        bit: u8,
    ) -> CodewordAnswer;
    fn torchvalley_audio(
        tally: *mut Tally,
        identity: Identity,
        counts: *const u32,
        counts_length: usize,
        books: *const u32,
        books_length: usize,
        lengths: *const u8,
        lengths_length: usize,
        codewords: *const u32,
        codewords_length: usize,
        multiplicands: *const u16,
        multiplicands_length: usize,
        floors: *const u16,
        floors_length: usize,
        residues: *const u32,
        residues_length: usize,
        plans: *const u16,
        plans_length: usize,
        mappings: *const u8,
        mappings_length: usize,
        modes: *const u8,
        modes_length: usize,
        packet: *const u8,
        packet_length: usize,
        curves: *mut u8,
        curves_length: usize,
        words: *mut u32,
        words_length: usize,
    ) -> AudioAnswer;
    fn torchvalley_audio_by_value(
        tally: Tally,
        identity: Identity,
        counts: *const u32,
        counts_length: usize,
        books: *const u32,
        books_length: usize,
        lengths: *const u8,
        lengths_length: usize,
        codewords: *const u32,
        codewords_length: usize,
        multiplicands: *const u16,
        multiplicands_length: usize,
        floors: *const u16,
        floors_length: usize,
        residues: *const u32,
        residues_length: usize,
        plans: *const u16,
        plans_length: usize,
        mappings: *const u8,
        mappings_length: usize,
        modes: *const u8,
        modes_length: usize,
        packet: *const u8,
        packet_length: usize,
        curves: *mut u8,
        curves_length: usize,
        words: *mut u32,
        words_length: usize,
    ) -> AudioLeft;
}

pub fn identification(packet: &[u8]) -> IdentityAnswer {
    // SAFETY: the pointer and the length are those of one slice.
    unsafe { torchvalley_identification(packet.as_ptr(), packet.len()) }
}

pub fn identity_sound(identity: Identity) -> bool {
    // SAFETY: nothing is lent.
    unsafe { torchvalley_identity_sound(identity) }
}

pub fn enter_lengths(lengths: &[u8], answers: &mut [u64]) -> u32 {
    // SAFETY: each pointer stands beside the length of its slice; `answers` is lent alone.
    unsafe { torchvalley_enter_lengths(lengths.as_ptr(), lengths.len(), answers.as_mut_ptr(), answers.len()) }
}

pub fn codewords(lengths: &[u8], words: &mut [u32]) -> u32 {
    // SAFETY: each pointer stands beside the length of its slice; `words` is lent alone.
    unsafe { torchvalley_codewords(lengths.as_ptr(), lengths.len(), words.as_mut_ptr(), words.len()) }
}

pub fn floor_points(x: &[u16], values: &[u16], multiplier: u8, y: &mut [u8], flags: &mut [u8]) -> bool {
    // SAFETY: as above; `y` and `flags` are two slices.
    unsafe {
        torchvalley_floor_points(
            x.as_ptr(),
            x.len(),
            values.as_ptr(),
            values.len(),
            multiplier,
            y.as_mut_ptr(),
            y.len(),
            flags.as_mut_ptr(),
            flags.len(),
        )
    }
}

pub fn floor_curve(x: &[u16], y: &[u8], flags: &[u8], multiplier: u8, out: &mut [u8]) -> bool {
    // SAFETY: as above.
    unsafe {
        torchvalley_floor_curve(
            x.as_ptr(),
            x.len(),
            y.as_ptr(),
            y.len(),
            flags.as_ptr(),
            flags.len(),
            multiplier,
            out.as_mut_ptr(),
            out.len(),
        )
    }
}

pub fn setup(identity: Identity, packet: &[u8], tables: TablesMut) -> u32 {
    // SAFETY: as above; the tables are ten slices.
    unsafe {
        torchvalley_setup(
            identity,
            packet.as_ptr(),
            packet.len(),
            tables.counts.as_mut_ptr(),
            tables.counts.len(),
            tables.books.as_mut_ptr(),
            tables.books.len(),
            tables.lengths.as_mut_ptr(),
            tables.lengths.len(),
            tables.codewords.as_mut_ptr(),
            tables.codewords.len(),
            tables.multiplicands.as_mut_ptr(),
            tables.multiplicands.len(),
            tables.floors.as_mut_ptr(),
            tables.floors.len(),
            tables.residues.as_mut_ptr(),
            tables.residues.len(),
            tables.plans.as_mut_ptr(),
            tables.plans.len(),
            tables.mappings.as_mut_ptr(),
            tables.mappings.len(),
            tables.modes.as_mut_ptr(),
            tables.modes.len(),
        )
    }
}

/// A call with the ten tables, each by pointer and length, between what else it takes.
macro_rules! with_tables {
    ($call:ident, [$($first:expr),*], $tables:expr, [$($other:expr),*]) => {
        $call(
            $($first,)*
            $tables.counts.as_ptr(),
            $tables.counts.len(),
            $tables.books.as_ptr(),
            $tables.books.len(),
            $tables.lengths.as_ptr(),
            $tables.lengths.len(),
            $tables.codewords.as_ptr(),
            $tables.codewords.len(),
            $tables.multiplicands.as_ptr(),
            $tables.multiplicands.len(),
            $tables.floors.as_ptr(),
            $tables.floors.len(),
            $tables.residues.as_ptr(),
            $tables.residues.len(),
            $tables.plans.as_ptr(),
            $tables.plans.len(),
            $tables.mappings.as_ptr(),
            $tables.mappings.len(),
            $tables.modes.as_ptr(),
            $tables.modes.len(),
            $($other),*
        )
    };
}

pub fn setup_sound(identity: Identity, tables: &Tables) -> bool {
    // SAFETY: as above; nothing is written.
    unsafe { with_tables!(torchvalley_setup_sound, [identity], tables, []) }
}

pub fn codeword(
    identity: Identity,
    tables: &Tables,
    book: u32,
    packet: &[u8],
    byte: usize,
    bit: u8,
) -> CodewordAnswer {
    // SAFETY: as above; nothing is written.
    unsafe {
        with_tables!(
            torchvalley_codeword,
            [identity],
            tables,
            [book, packet.as_ptr(), packet.len(), byte, bit]
        )
    }
}

pub fn audio(
    tally: &mut Tally,
    identity: Identity,
    tables: &Tables,
    packet: &[u8],
    lent: OutputsMut,
) -> AudioAnswer {
    let OutputsMut { curves, words } = lent;
    // SAFETY: as above; the tally is one of its kind, both outputs are slices of their own.
    unsafe {
        with_tables!(
            torchvalley_audio,
            [tally, identity],
            tables,
            [
                packet.as_ptr(),
                packet.len(),
                curves.as_mut_ptr(),
                curves.len(),
                words.as_mut_ptr(),
                words.len()
            ]
        )
    }
}

pub fn audio_by_value(
    tally: Tally,
    identity: Identity,
    tables: &Tables,
    packet: &[u8],
    lent: OutputsMut,
) -> AudioLeft {
    let OutputsMut { curves, words } = lent;
    // SAFETY: as above; both outputs are slices of their own.
    unsafe {
        with_tables!(
            torchvalley_audio_by_value,
            [tally, identity],
            tables,
            [
                packet.as_ptr(),
                packet.len(),
                curves.as_mut_ptr(),
                curves.len(),
                words.as_mut_ptr(),
                words.len()
            ]
        )
    }
}
