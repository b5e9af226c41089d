//! Random streams: sound ones of great variety, and spoilt packets of each kind.

pub mod content;
pub mod fields;
pub mod odd;
pub mod packet;
pub mod random;

use crate::identification::Identity;
use crate::records::{write_record, Kind};
use crate::setup::Setup;
use crate::write::{write_identification, write_setup, Written};
use packet::{AudioPacket, AudioWriter};
use random::Random;
use std::io::{self, Write};

/// Packets up to this many bytes are cut after every byte, longer ones at places
/// picked at random.
const CUT_EVERY_BYTE: usize = 160;

/// Between packets of a record file odd records come so often.
const ODD_RECORDS_ONCE_IN: u32 = 25;

/// A sound stream.
#[derive(Debug)]
pub struct Stream {
    pub identity: Identity,
    pub identification: Written,
    pub content: Setup,
    pub setup: Written,
    pub audio: Vec<AudioPacket>,
}

impl Stream {
    /// The stream of a seed.
    pub fn new(seed: u64) -> Stream {
        let random = &mut Random::new(seed);
        let identity = content::identity(random);
        let content = content::setup(random, &identity);
        let setup = write_setup(&content, identity.channels, random);
        let writer = AudioWriter::new(&identity, &content);
        let audio = (0..random.between(2, 6)).map(|_| writer.packet(random)).collect();
        Stream { identity, identification: write_identification(&identity), content, setup, audio }
    }

    /// The stream's packets, sound and spoilt, in an order that tries a reader: the
    /// spoilt ones before and after the sound one of their kind.
    pub fn packets(&self, random: &mut Random) -> Vec<(Kind, Vec<u8>)> {
        let mut packets = Vec::new();
        let spoilt = |kind, written, random: &mut Random| -> Vec<(Kind, Vec<u8>)> {
            spoilt(written, random).into_iter().map(|body| (kind, body)).collect()
        };
        packets.extend(spoilt(Kind::Identification, &self.identification, random));
        packets.push((Kind::Setup, self.setup.bytes.clone()));
        packets.push((Kind::Identification, self.identification.bytes.clone()));
        packets.push((Kind::Audio, self.audio[0].written.bytes.clone()));
        packets.extend(spoilt(Kind::Setup, &self.setup, random));
        packets.push((Kind::Setup, self.setup.bytes.clone()));
        for packet in &self.audio {
            packets.push((Kind::Audio, packet.written.bytes.clone()));
            packets.extend(spoilt(Kind::Audio, &packet.written, random));
        }
        packets.push((Kind::Audio, random_bytes(random)));
        packets
    }
}

/// A packet cut, with flipped bits, with fields changed, with bytes behind it, and
/// one of random bytes.
pub fn spoilt(written: &Written, random: &mut Random) -> Vec<Vec<u8>> {
    let mut packets = cuts(&written.bytes, random);
    packets.extend((0..12).map(|_| flipped(&written.bytes, random)));
    packets.extend((0..24).map(|_| with_changed_field(written, random)));
    packets.push([&written.bytes[..], &random_bytes(random)].concat());
    packets.push(random_bytes(random));
    packets
}

/// A packet cut after every byte, or at some places where it is long.
pub fn cuts(packet: &[u8], random: &mut Random) -> Vec<Vec<u8>> {
    let cut = |length: usize| packet[..length].to_vec();
    if packet.len() <= CUT_EVERY_BYTE {
        (0..packet.len()).map(cut).collect()
    } else {
        (0..CUT_EVERY_BYTE / 4).map(|_| cut(random.place(packet.len()))).collect()
    }
}

/// A packet with one to four bits flipped.
pub fn flipped(packet: &[u8], random: &mut Random) -> Vec<u8> {
    let mut packet = packet.to_vec();
    for _ in 0..random.between(1, 4) {
        let bit = random.place(8 * packet.len());
        packet[bit / 8] ^= 1 << (bit % 8);
    }
    packet
}

/// A packet with another value in one field: a bound, a neighbour or any.
pub fn with_changed_field(written: &Written, random: &mut Random) -> Vec<u8> {
    let field = *random.pick(&written.fields);
    let position = field.position as u64;
    let value = crate::bits::read_field(&written.bytes, position, field.width).unwrap_or(0) as u32;
    let changed = match random.below(6) {
        0 => 0,
        1 => u32::MAX,
        2 => value.wrapping_add(1),
        3 => value.wrapping_sub(1),
        4 => 8_193,
        _ => random.next_u64() as u32,
    };
    written.with_field(field, changed)
}

/// One to three fields changed, and now and then a cut: the first fault counts.
pub fn with_faults(written: &Written, random: &mut Random) -> Vec<u8> {
    let mut changed = written.clone();
    for _ in 0..random.between(1, 3) {
        changed.bytes = with_changed_field(&changed, random);
    }
    if random.one_in(3) {
        changed.bytes.truncate(random.place(written.bytes.len()));
    }
    changed.bytes
}

/// Up to 40 random bytes; half of them begin as an audio packet does.
pub fn random_bytes(random: &mut Random) -> Vec<u8> {
    let count = random.below(41) as usize;
    let mut bytes = random.bytes(count);
    if let Some(first) = bytes.first_mut().filter(|_| random.one_in(2)) {
        *first &= 0xFE;
    }
    bytes
}

/// What a generated record file has in it.
#[derive(Clone, Copy, Debug, Default, PartialEq, Eq)]
pub struct Generated {
    /// Whole ones.
    pub records: u64,
    pub streams: u64,
    /// Whether the input ends inside one more.
    pub torn: bool,
}

/// Writes at least `count` records of the streams of `seed`, `seed + 1` and so on, whole
/// streams each with odd records among the packets, and the end of the last one.
pub fn write_streams(seed: u64, count: u64, output: &mut impl Write) -> io::Result<Generated> {
    let mut written = Generated::default();
    loop {
        let seed = seed.wrapping_add(written.streams);
        let random = &mut Random::new(!seed);
        let stream = Stream::new(seed);
        for (kind, body) in &stream.packets(random) {
            if random.one_in(ODD_RECORDS_ONCE_IN) {
                written.records += odd::write_odd_records(&stream, random, output)?;
            }
            write_record(output, *kind, body)?;
            written.records += 1;
        }
        written.streams += 1;
        if written.records >= count {
            written.torn = odd::write_end(&stream, random, output)?;
            return Ok(written);
        }
    }
}
