//! Published streams: their identification and setup packets, the tables and the books of
//! their setups, all their audio packets in order, and codewords and floors of these.
//!
//! A list is that of `second check streams`. What is not at hand is counted.

use crate::audio::{need, rooms, tallies, unsound, Held, Reader, TOOL};
use crate::floor::Points;
use crate::identification::in_library_form;
use crate::lent::{Places, Rooms};
use crate::library::Tally;
use crate::report::{Call, Report};
use crate::{codeword, codewords, enter_lengths, floor, identification, setup, setup_sound, sound};
use second::audio::floor_values;
use second::generate::random::Random;
use second::identification::Identity;
use second::ogg;
use second::records::Kind;
use second::setup::Setup;
use std::fs;
use std::path::Path;

/// How many of each were handed to both.
#[derive(Clone, Copy, Debug, Default)]
pub struct Seen {
    pub streams: u64,
    pub absent: u64,
    pub books: u64,
    pub floors: u64,
    pub setups: u64,
    pub setups_accepted: u64,
    pub packets: u64,
    /// Of these, packets cut after every byte.
    pub cuts: u64,
}

/// Bytes of each stream's packets that are cut after every byte.
const CUT_BYTES: usize = 160;

/// Compares on all streams of a list that are at hand.
pub fn list(list: &str, folder: &Path, report: &mut Report, seen: &mut Seen) -> Result<(), String> {
    for line in list.lines().filter(|line| !line.is_empty() && !line.starts_with('#')) {
        let path = line.splitn(3, ' ').nth(2).ok_or(format!("no path: {line}"))?.trim_start();
        match fs::read(folder.join(path)) {
            Ok(file) => stream(&file, report, seen).map_err(|fault| format!("{path}: {fault}"))?,
            Err(_) => seen.absent += 1,
        }
    }
    Ok(())
}

fn stream(file: &[u8], report: &mut Report, seen: &mut Seen) -> Result<(), String> {
    let packets = ogg::packets(file)?;
    let mut identity = None;
    let mut held = None;
    let mut tally = Tally::default();
    let mut cut_bytes = CUT_BYTES;
    let random = &mut Random::new(file.len() as u64);
    let rooms = &mut Rooms::default();
    seen.streams += 1;
    for (kind, packet) in ogg::kinds(&packets)? {
        match (kind, &identity, &held) {
            (Kind::Identification, ..) => identity = Some(identification_packet(&packet.body, report)?),
            (Kind::Setup, Some(identity), _) => {
                held = setup_packet(identity, &packet.body, random, rooms, report, seen)?;
            }
            (Kind::Audio, Some(identity), Some(held)) => {
                let Held { content, tables, .. } = held;
                floors(identity, content, &packet.body, report, seen)?;
                if random.one_in(16) {
                    let place = &codeword::place(content, &packet.body, random);
                    codeword::read(held.identity, tables, Some(content), place, report)?;
                }
                let reader = &mut Reader::new(report);
                if packet.body.len() < cut_bytes && random.one_in(3) {
                    every_cut(held, tally, &packet.body, reader)?;
                    cut_bytes -= packet.body.len();
                    seen.cuts += 1;
                }
                tally = audio_packet(held, tally, &packet.body, random, reader)?;
                seen.packets += 1;
            }
            _ => {}
        }
    }
    Ok(())
}

fn identification_packet(packet: &[u8], report: &mut Report) -> Result<Identity, String> {
    identification::variants(packet, &mut Random::new(packet.len() as u64), report)?;
    let identity = second::identification::identification(packet).map_err(|fault| format!("{fault:?}"))?;
    sound::identity(identification::in_library_form(&identity), report)?;
    Ok(identity)
}

/// The packet, what can be made of it, its tables and its books.
fn setup_packet(
    identity: &Identity,
    packet: &[u8],
    random: &mut Random,
    rooms: &mut Rooms,
    report: &mut Report,
    seen: &mut Seen,
) -> Result<Option<Held>, String> {
    let form = in_library_form(identity);
    seen.setups += 1;
    let Some(content) = setup::around(form, packet, random, rooms, report)? else {
        return Ok(None);
    };
    seen.setups_accepted += 1;
    for book in &content.books {
        codewords::lengths(book.lengths(), report)?;
        enter_lengths::lengths(book.lengths(), report)?;
        seen.books += 1;
    }
    setup_sound::around(form, &content, 4, random, report)?;
    codeword::around(form, &content, 4, random, report)?;
    Ok(Some(Held::new(identity, content)))
}

/// The packet in the tool's room; now and then also with the tally by value, and in exact room
/// and less, with other tallies, identities and tables. Gives the tally after it.
fn audio_packet(
    held: &Held,
    tally: Tally,
    packet: &[u8],
    random: &mut Random,
    reader: &mut Reader,
) -> Result<Tally, String> {
    let calls = if random.one_in(4) { &[Call::Audio, Call::AudioByValue][..] } else { &[Call::Audio] };
    let (answer, after) = reader.read_by(calls, &held.case(tally, packet, TOOL))?;
    if random.one_in(64) {
        rooms(held, tally, packet, &answer, random, reader)?;
        tallies(held, packet, &answer, random, reader)?;
        unsound(held, tally, packet, random, reader)?;
    }
    Ok(after)
}

/// The packet cut after every byte, in room for all that it needs.
fn every_cut(held: &Held, tally: Tally, packet: &[u8], reader: &mut Reader) -> Result<(), String> {
    let whole = reader.read(&held.case(tally, packet, TOOL))?.0;
    let Places { curves, words } = need(&held.identity, &whole);
    for length in 0..packet.len() {
        reader.read(&held.case(tally, &packet[..length], Places { curves, words }))?;
    }
    Ok(())
}

/// The floors of a packet.
fn floors(
    identity: &Identity,
    content: &Setup,
    packet: &[u8],
    report: &mut Report,
    seen: &mut Seen,
) -> Result<(), String> {
    for used in floor_values(identity, content, packet).map_err(|fault| format!("{fault:?}"))? {
        let narrow = |list: &[u32]| list.iter().map(|&number| number as u16).collect();
        let points = Points {
            x: narrow(used.floor.x_list()),
            values: narrow(&used.values),
            multiplier: used.floor.multiplier() as u8,
        };
        floor::floor(&points, used.half, report)?;
        seen.floors += 1;
    }
    Ok(())
}
