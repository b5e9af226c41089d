//! The test of an identity, around every boundary.

use crate::library::{self, Identity};
use crate::report::{Answer, Call, Given, Report};
use second::generate::random::Random;
use second::identification;
use second::limits::Limits;

const CHANNELS: [u32; 17] =
    [0, 1, 2, 3, 4, 5, 6, 7, 8, 9, 10, 255, 256, 257, 1 << 16 | 1, 1 << 31 | 1, u32::MAX];
const RATES: [u32; 7] = [0, 1, 2, 8_000, 1 << 16, 1 << 31, u32::MAX];
const BITRATES: [i32; 6] = [i32::MIN, -1, 0, 1, 64_000, i32::MAX];

/// The identity in the second program's form, where that finds it sound. Its channels are
/// a byte, as the packet has them; a greater number is above 8 all the same.
pub fn if_sound(identity: &Identity) -> Option<identification::Identity> {
    let identity = identification::Identity {
        channels: identity.channels.try_into().ok()?,
        rate: identity.rate,
        bitrate_maximum: identity.bitrate_maximum,
        bitrate_nominal: identity.bitrate_nominal,
        bitrate_minimum: identity.bitrate_minimum,
        block_sizes: [identity.blocksize0, identity.blocksize1],
    };
    identity.is_sound(&Limits::BASE).then_some(identity)
}

/// Hands one identity to both.
pub fn identity(identity: Identity, report: &mut Report) -> Result<(), String> {
    let given = |sound| Given { answer: Answer::Holds(sound), left: () };
    let library = given(library::identity_sound(identity));
    let second = given(if_sound(&identity).is_some());
    report.compare(Call::IdentitySound, &library, &second, || format!("{identity:x?}"))
}

/// The powers of two with their neighbours, and numbers that are such only in their low
/// bits.
fn block_sizes() -> Vec<u32> {
    let powers = (0..32).map(|exponent| 1u32 << exponent);
    let around = powers.flat_map(|power| [power - 1, power, power + 1]);
    around.chain([96, 100, 1 << 16 | 64, 1 << 24 | 8_192, u32::MAX]).collect()
}

/// Every pair of block sizes, and every number of channels with every rate.
pub fn boundaries(random: &mut Random, report: &mut Report) -> Result<(), String> {
    let sizes = block_sizes();
    for &blocksize0 in &sizes {
        for &blocksize1 in &sizes {
            identity(Identity { blocksize0, blocksize1, ..sound(random) }, report)?;
        }
    }
    for channels in CHANNELS {
        for rate in RATES {
            identity(Identity { channels, rate, ..sound(random) }, report)?;
        }
    }
    Ok(())
}

/// One round: identities of which one, two or no numbers may be unsound.
pub fn round(random: &mut Random, report: &mut Report) -> Result<(), String> {
    for _ in 0..200 {
        let mut tried = sound(random);
        for _ in 0..random.below(3) {
            change(&mut tried, random);
        }
        identity(tried, report)?;
    }
    Ok(())
}

/// Puts another number into one place, or swaps the block sizes.
pub fn change(identity: &mut Identity, random: &mut Random) {
    match random.below(5) {
        0 => identity.channels = *random.pick(&CHANNELS),
        1 => identity.rate = *random.pick(&RATES),
        2 => identity.blocksize0 = *random.pick(&block_sizes()),
        3 => identity.blocksize1 = *random.pick(&block_sizes()),
        _ => (identity.blocksize0, identity.blocksize1) = (identity.blocksize1, identity.blocksize0),
    }
}

fn sound(random: &mut Random) -> Identity {
    let long = random.between(6, 13);
    Identity {
        channels: random.between(1, 8),
        rate: random.next_u64() as u32 | 1,
        bitrate_maximum: *random.pick(&BITRATES),
        bitrate_nominal: random.next_u64() as i32,
        bitrate_minimum: *random.pick(&BITRATES),
        blocksize0: 1 << random.between(6, long),
        blocksize1: 1 << long,
    }
}
