//! Refusals of identification packets (01, rows 1 to 5 and 14).

use second::generate::fields::IDENTITY;
use second::identification::{identification, Identity};
use second::limits::Limits;
use second::write::write_identification;

fn packet(change: impl Fn(&mut Vec<u8>)) -> Vec<u8> {
    let mut bytes = write_identification(&IDENTITY).bytes;
    change(&mut bytes);
    bytes
}

fn refusal(bytes: &[u8]) -> (u8, u64) {
    let refusal = identification(bytes).expect_err("refused");
    (refusal.number, refusal.place)
}

#[test]
fn content_is_read_as_it_was_written() {
    assert_eq!(identification(&packet(|_| {})), Ok(IDENTITY));
    assert_eq!(identification(&packet(|bytes| bytes.extend([1, 2, 3]))), Ok(IDENTITY));
}

#[test]
fn rule_1_a_cut_after_any_byte() {
    let whole = packet(|_| {});
    for length in 0..whole.len() {
        assert_eq!(refusal(&whole[..length]).0, 1, "cut to {length}");
    }
    assert_eq!(refusal(&whole[..9]), (1, 56), "the version began at bit 56");
}

#[test]
fn rule_2_type_and_name_byte_by_byte() {
    for place in 0..7 {
        let spoilt = packet(|bytes| {
            bytes[place] ^= 0x20;
            bytes.truncate(place + 1);
        });
        assert_eq!(refusal(&spoilt), (2, 8 * place as u64));
    }
}

#[test]
fn rule_3_version_before_channels() {
    assert_eq!(refusal(&packet(|bytes| (bytes[10], bytes[11]) = (1, 0))), (3, 56));
    assert_eq!(refusal(&packet(|bytes| bytes[7..].iter_mut().for_each(|byte| *byte = 1))), (3, 56));
}

#[test]
fn rule_4_channels_rate_and_block_sizes() {
    assert_eq!(refusal(&packet(|bytes| bytes[11] = 0)), (4, 88));
    assert_eq!(refusal(&packet(|bytes| bytes[12..16].fill(0))), (4, 96));
    assert_eq!(refusal(&packet(|bytes| bytes[28] = 0x75)), (4, 224), "32");
    assert_eq!(refusal(&packet(|bytes| bytes[28] = 0xE6)), (4, 228), "16384");
    assert_eq!(refusal(&packet(|bytes| bytes[28] = 0x67)), (4, 228), "128, then 64");
    assert!(identification(&packet(|bytes| bytes[28] = 0x66)).is_ok());
    assert!(identification(&packet(|bytes| bytes[28] = 0xDD)).is_ok());
}

#[test]
fn rule_5_framing_bit() {
    assert_eq!(refusal(&packet(|bytes| bytes[29] = 0xFE)), (5, 232));
}

#[test]
fn rule_14_both_sides_of_8_channels() {
    let eight = identification(&packet(|bytes| bytes[11] = 8));
    assert_eq!(eight, Ok(Identity { channels: 8, ..IDENTITY }));
    assert_eq!(refusal(&packet(|bytes| bytes[11] = 9)), (14, 88));
    assert_eq!(refusal(&packet(|bytes| (bytes[11], bytes[12]) = (255, 0))), (14, 88));
}

#[test]
fn bitrates_are_signed_and_not_judged() {
    let read = identification(&packet(|bytes| bytes[16..28].fill(0xFF))).expect("accepted");
    assert_eq!((read.bitrate_maximum, read.bitrate_nominal, read.bitrate_minimum), (-1, -1, -1));
}

#[test]
fn soundness_is_what_4_and_14_leave() {
    let sound = |identity: Identity| identity.is_sound(&Limits::BASE);
    assert!(sound(IDENTITY));
    for unsound in [
        Identity { channels: 0, ..IDENTITY },
        Identity { channels: 9, ..IDENTITY },
        Identity { rate: 0, ..IDENTITY },
        Identity { block_sizes: [100, 128], ..IDENTITY },
        Identity { block_sizes: [64, 16_384], ..IDENTITY },
        Identity { block_sizes: [32, 64], ..IDENTITY },
        Identity { block_sizes: [128, 64], ..IDENTITY },
        Identity { block_sizes: [0, 64], ..IDENTITY },
    ] {
        assert!(!sound(unsound), "{unsound:?}");
    }
}
