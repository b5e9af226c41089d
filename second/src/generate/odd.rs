//! What a record file has besides packets in order: records of unknown kinds, records that are
//! too long, bodies of the greatest length, packets again, and an end inside a record.

use super::{random_bytes, with_changed_field, Random, Stream};
use crate::records::{write_record, write_record_of, Kind, GREATEST_BODY};
use std::io::{self, Write};

/// Kinds that are unknown; some have a known kind in one of their bytes.
const UNKNOWN_KINDS: [u16; 11] = [0, 4, 5, 0x100, 0x101, 0x102, 0x103, 0x200, 0x300, 0x8003, u16::MAX];

/// Writes what the tool has to take between any two packets of a stream, and tells how many
/// records that is.
pub fn write_odd_records(stream: &Stream, random: &mut Random, output: &mut impl Write) -> io::Result<u64> {
    match random.below(12) {
        0 => write_too_long(stream, random, output),
        1 => write_greatest(stream, random, output),
        2 => write_empty(random, output),
        3 => write_again(stream, random, output),
        4 => write_refused_setup(stream, random, output),
        _ => write_unknown(stream, random, output),
    }
}

fn write_unknown(stream: &Stream, random: &mut Random, output: &mut impl Write) -> io::Result<u64> {
    let kind = if random.one_in(4) { 4 + random.below(0xFFFC) as u16 } else { *random.pick(&UNKNOWN_KINDS) };
    let body = if random.one_in(3) { packet(stream, random).1.to_vec() } else { random_bytes(random) };
    write_record_of(output, kind, &body)?;
    Ok(1)
}

/// Of any kind, with a packet in front, by one byte too long or by more.
fn write_too_long(stream: &Stream, random: &mut Random, output: &mut impl Write) -> io::Result<u64> {
    let (kind, packet) = packet(stream, random);
    let kind = if random.one_in(3) { random.below(6) as u16 } else { kind.number() };
    let more = if random.one_in(2) { 1 } else { random.between(1, 100_000) };
    write_record_of(output, kind, &filled(packet, GREATEST_BODY as usize + more as usize, random))?;
    Ok(1)
}

/// A packet with bytes behind it, up to the greatest length or to one less.
fn write_greatest(stream: &Stream, random: &mut Random, output: &mut impl Write) -> io::Result<u64> {
    let (kind, packet) = packet(stream, random);
    let length = GREATEST_BODY as usize - random.below(2) as usize;
    if packet.len() > length {
        return Ok(0);
    }
    write_record(output, kind, &filled(packet, length, random))?;
    match kind {
        // It has cleared the tables.
        Kind::Identification => write_record(output, Kind::Setup, &stream.setup.bytes).map(|()| 2),
        Kind::Setup | Kind::Audio => Ok(1),
    }
}

fn write_empty(random: &mut Random, output: &mut impl Write) -> io::Result<u64> {
    write_record(output, *random.pick(&[Kind::Identification, Kind::Audio]), &[])?;
    Ok(1)
}

/// Identification and setup again, or the setup alone; between the two now and then audio,
/// which has no tables then.
fn write_again(stream: &Stream, random: &mut Random, output: &mut impl Write) -> io::Result<u64> {
    let mut records = 1;
    if random.one_in(2) {
        write_record(output, Kind::Identification, &stream.identification.bytes)?;
        records += 1;
        if random.one_in(2) {
            write_record(output, Kind::Audio, &stream.audio[0].written.bytes)?;
            records += 1;
        }
    }
    write_record(output, Kind::Setup, &stream.setup.bytes)?;
    Ok(records)
}

/// A setup with another value in one field, audio behind it, and the good setup.
fn write_refused_setup(stream: &Stream, random: &mut Random, output: &mut impl Write) -> io::Result<u64> {
    let spoilt = if random.one_in(4) { Vec::new() } else { with_changed_field(&stream.setup, random) };
    write_record(output, Kind::Setup, &spoilt)?;
    write_record(output, Kind::Audio, &stream.audio[0].written.bytes)?;
    write_record(output, Kind::Setup, &stream.setup.bytes)?;
    Ok(3)
}

/// Writes the end of a record file: nothing, or a record that the input ends inside. Tells
/// whether it is torn.
pub fn write_end(stream: &Stream, random: &mut Random, output: &mut impl Write) -> io::Result<bool> {
    let (kind, packet) = packet(stream, random);
    let mut record = Vec::new();
    match random.below(5) {
        0 => return Ok(false),
        1 => write_record_of(&mut record, random.next_u64() as u16, &[])?,
        2 => {
            let length = GREATEST_BODY as usize + random.between(1, 100_000) as usize;
            write_record(&mut record, kind, &filled(packet, length, random))?;
        }
        3 => write_record_of(&mut record, *random.pick(&UNKNOWN_KINDS), &filled(packet, 100, random))?,
        _ => write_record(&mut record, kind, packet)?,
    }
    let length = 1 + random.place(record.len() - 1);
    output.write_all(&record[..length])?;
    Ok(true)
}

/// One of the stream's packets.
fn packet<'a>(stream: &'a Stream, random: &mut Random) -> (Kind, &'a [u8]) {
    match random.below(3) {
        0 => (Kind::Identification, &stream.identification.bytes),
        1 => (Kind::Setup, &stream.setup.bytes),
        _ => (Kind::Audio, &random.pick(&stream.audio).written.bytes),
    }
}

/// A packet with bytes behind it, so that it has this length or its own, if that is more: zeros,
/// ones, or headers of records without a body.
fn filled(packet: &[u8], length: usize, random: &mut Random) -> Vec<u8> {
    let filling: &[u8] = match random.below(3) {
        0 => &[0],
        1 => &[0xFF],
        _ => &[0, 0, 0, 0, 3, 0],
    };
    let count = length.saturating_sub(packet.len());
    packet.iter().chain(filling.iter().cycle().take(count)).copied().collect()
}
