//! The identification packet (003, "Identification header").

use crate::bits::Cursor;
use crate::limits::Limits;
use crate::refusal::{require, Refusal};

/// The packet type of an identification packet (01).
pub const TYPE: u8 = 1;

/// The name every header packet carries behind its type byte (003).
pub const NAME: [u8; 6] = *b"vorbis";

/// The least and greatest block size's exponent: 64 and 8192.
pub const BLOCK_EXPONENTS: std::ops::RangeInclusive<u32> = 6..=13;

/// What an identification packet tells.
#[derive(Clone, Copy, Debug, PartialEq, Eq)]
pub struct Identity {
    pub channels: u8,
    pub rate: u32,
    pub bitrate_maximum: i32,
    pub bitrate_nominal: i32,
    pub bitrate_minimum: i32,
    /// The short and the long block size.
    pub block_sizes: [u32; 2],
}

impl Identity {
    /// Sound when 4 and 14 would not refuse it (01).
    pub fn is_sound(&self, limits: &Limits) -> bool {
        let [short, long] = self.block_sizes;
        (1..=limits.channels).contains(&u32::from(self.channels))
            && self.rate != 0
            && is_block_size(short)
            && is_block_size(long)
            && short <= long
    }
}

/// Whether a size is one of the eight powers of two 64 to 8192 (003).
pub fn is_block_size(size: u32) -> bool {
    size.is_power_of_two() && BLOCK_EXPONENTS.contains(&size.trailing_zeros())
}

/// Reads an identification packet under the limits of 01.
pub fn identification(packet: &[u8]) -> Result<Identity, Refusal> {
    identification_within(packet, &Limits::BASE)
}

/// Reads an identification packet.
pub fn identification_within(packet: &[u8], limits: &Limits) -> Result<Identity, Refusal> {
    let cursor = &mut Cursor::new(packet);
    header(cursor, TYPE)?;
    let place = cursor.position();
    require(cursor.field(32)? == 0, 3, place)?;
    let channels = channels(cursor, limits)?;
    let place = cursor.position();
    let rate = cursor.field(32)?;
    require(rate != 0, 4, place)?;
    let bitrate_maximum = cursor.field(32)? as i32;
    let bitrate_nominal = cursor.field(32)? as i32;
    let bitrate_minimum = cursor.field(32)? as i32;
    let block_sizes = block_sizes(cursor)?;
    let place = cursor.position();
    require(cursor.flag()?, 5, place)?;
    Ok(Identity { channels, rate, bitrate_maximum, bitrate_nominal, bitrate_minimum, block_sizes })
}

/// The type byte and the name, judged byte by byte (01; 003, "Common header decode").
pub(crate) fn header(cursor: &mut Cursor, packet_type: u8) -> Result<(), Refusal> {
    for expected in [packet_type].into_iter().chain(NAME) {
        let place = cursor.position();
        require(cursor.field(8)? == u32::from(expected), 2, place)?;
    }
    Ok(())
}

fn channels(cursor: &mut Cursor, limits: &Limits) -> Result<u8, Refusal> {
    let place = cursor.position();
    let channels = cursor.field(8)?;
    require(channels != 0, 4, place)?;
    require(channels <= limits.channels, 14, place)?;
    Ok(channels as u8)
}

fn block_sizes(cursor: &mut Cursor) -> Result<[u32; 2], Refusal> {
    let place = cursor.position();
    let short = cursor.field(4)?;
    require(BLOCK_EXPONENTS.contains(&short), 4, place)?;
    let place = cursor.position();
    let long = cursor.field(4)?;
    require(BLOCK_EXPONENTS.contains(&long) && short <= long, 4, place)?;
    Ok([1 << short, 1 << long])
}
