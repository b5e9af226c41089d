//! The identification call: number and every field, all zero on a refusal.

use crate::library::{self, Identity};
use crate::report::{hex, Answer, Call, Given, Report};
use second::generate::random::Random;
use second::generate::{content, with_faults};
use second::identification::{self, NAME};
use second::write::write_identification;

/// Where the channels and the two block sizes stand in a packet.
const CHANNELS: usize = 11;
const BLOCK_SIZES: usize = 28;

const NO_IDENTITY: Identity = Identity {
    channels: 0,
    rate: 0,
    bitrate_maximum: 0,
    bitrate_nominal: 0,
    bitrate_minimum: 0,
    blocksize0: 0,
    blocksize1: 0,
};

/// The second program's identity in the library's form.
pub fn in_library_form(identity: &identification::Identity) -> Identity {
    Identity {
        channels: u32::from(identity.channels),
        rate: identity.rate,
        bitrate_maximum: identity.bitrate_maximum,
        bitrate_nominal: identity.bitrate_nominal,
        bitrate_minimum: identity.bitrate_minimum,
        blocksize0: identity.block_sizes[0],
        blocksize1: identity.block_sizes[1],
    }
}

/// Hands one packet to both.
pub fn packet(packet: &[u8], report: &mut Report) -> Result<(), String> {
    let answer = library::identification(packet);
    let library = Given { answer: Answer::Number(answer.refusal), left: answer.identity };
    let second = match identification::identification(packet) {
        Ok(identity) => Given { answer: Answer::Number(0), left: in_library_form(&identity) },
        Err(refusal) => Given { answer: Answer::Number(refusal.number.into()), left: NO_IDENTITY },
    };
    report.compare(Call::Identification, &library, &second, || hex(packet, 2))
}

/// A packet and what can be made of it: cut at every length, each bit flipped, each
/// byte changed, bytes behind it.
pub fn variants(whole: &[u8], random: &mut Random, report: &mut Report) -> Result<(), String> {
    packet(whole, report)?;
    for length in 0..whole.len() {
        packet(&whole[..length], report)?;
    }
    let mut changed = whole.to_vec();
    for place in 0..whole.len() {
        for bit in 0..8 {
            changed[place] = whole[place] ^ (1 << bit);
            packet(&changed, report)?;
        }
        changed[place] = random.next_u64() as u8;
        packet(&changed, report)?;
        changed[place] = whole[place];
    }
    for tail in [1, 2, 300, 70_000] {
        let count = random.place(tail) + 1;
        packet(&[whole, &random.bytes(count)].concat(), report)?;
    }
    Ok(())
}

/// One round: a random sound packet with its variants, every channel and block size byte,
/// wrong names, several faults at once, random bytes.
pub fn round(random: &mut Random, report: &mut Report) -> Result<(), String> {
    let written = write_identification(&content::identity(random));
    variants(&written.bytes, random, report)?;
    let mut changed = written.bytes.clone();
    for place in [CHANNELS, BLOCK_SIZES] {
        for byte in 0..=u8::MAX {
            changed[place] = byte;
            packet(&changed, report)?;
        }
        changed[place] = written.bytes[place];
    }
    wrong_names(&written.bytes, random, report)?;
    for _ in 0..100 {
        packet(&with_faults(&written, random), report)?;
    }
    for _ in 0..40 {
        let count = random.place(60);
        let mut bytes = random.bytes(count);
        packet(&bytes, report)?;
        bytes.splice(0..0, written.bytes[..CHANNELS].iter().copied());
        packet(&bytes, report)?;
    }
    Ok(())
}

/// Other packet types, and the name in other letters or out of order.
fn wrong_names(whole: &[u8], random: &mut Random, report: &mut Report) -> Result<(), String> {
    let mut changed = whole.to_vec();
    for packet_type in [0, 2, 3, 5, random.next_u64() as u8] {
        changed[0] = packet_type;
        packet(&changed, report)?;
    }
    changed[0] = whole[0];
    for name in [*b"VORBIS", *b"vorbit", *b"sibrov", *b"\0vorbi", [0; 6], NAME] {
        changed[1..7].copy_from_slice(&name);
        packet(&changed, report)?;
        packet(&changed[..random.place(9)], report)?;
    }
    Ok(())
}
