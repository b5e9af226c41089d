//! A second reader of Vorbis packets, written from the papers alone, so that a
//! mistake in the proved reader is not repeated here.
//!
//! It reads bit by bit and follows the papers' steps as they stand. Paper
//! numbers in the comments: 01 is the scope with its exact rules; 000 the Vorbis
//! I specification, 001 residue, 002 codebooks, 003 codec setup, 004 floor 1.
//! Where they differ the order is 01, 000, 003, 004, 002, 001.
//!
//! | Concern | Module |
//! |---|---|
//! | fields of bits, `ilog` | [`bits`] |
//! | refusal numbers and places | [`refusal`] |
//! | size limits of refusal 14 | [`limits`] |
//! | identification packet | [`identification`] |
//! | the plain ledger of codewords | [`ledger`] |
//! | entering lengths quickly | [`space`] |
//! | counting strings, the balance of answers | [`strings`] |
//! | books, codewords | [`book`] |
//! | floor 1 | [`floor`] |
//! | residues | [`residue`] |
//! | mappings and modes | [`mapping`] |
//! | setup packet, its content's rules | [`setup`], [`rules`] |
//! | content as tables, and content from them | [`tables`], [`recognise`] |
//! | audio packet, tally | [`audio`] |
//! | record files, the tool's lines | [`records`], [`lines`] |
//! | Ogg pages | [`ogg`] |
//! | writing packets, random streams | [`write`](mod@write), [`generate`] |
//! | the program's own checks | [`check`] |
//! | what a program came to, as its exit status | [`outcome`] |

#![deny(unsafe_code)]

pub mod audio;
pub mod bits;
pub mod book;
pub mod check;
pub mod floor;
pub mod generate;
pub mod identification;
pub mod ledger;
pub mod limits;
pub mod lines;
pub mod mapping;
pub mod ogg;
pub mod outcome;
pub mod recognise;
pub mod records;
pub mod refusal;
pub mod residue;
pub mod rules;
pub mod setup;
pub mod space;
pub mod strings;
pub mod tables;
pub mod write;
