//! Ogg pages to packets (000, appendix A; RFC 3533).

use second::ogg::{checksum, kinds, packets};
use second::records::Kind;

const FIRST: u8 = 2;
const CONTINUED: u8 = 1;
const LAST: u8 = 4;

fn page(flags: u8, granule: i64, serial: u32, sequence: u32, lacing: &[u8], body: &[u8]) -> Vec<u8> {
    let mut page = b"OggS\0".to_vec();
    page.push(flags);
    page.extend(granule.to_le_bytes());
    page.extend(serial.to_le_bytes());
    page.extend(sequence.to_le_bytes());
    page.extend([0; 4]);
    page.push(lacing.len() as u8);
    page.extend(lacing);
    page.extend(body);
    let sum = checksum(page.iter().copied());
    page[22..26].copy_from_slice(&sum.to_le_bytes());
    page
}

/// Identification, comment, setup, then audio packets of 300, 0, 255 and 3 bytes,
/// the first of them over two pages, with a page of another stream between.
fn file() -> Vec<u8> {
    [
        page(FIRST, 0, 7, 0, &[7], b"\x01vorbis"),
        page(FIRST, 0, 8, 0, &[2], b"no"),
        page(0, 0, 7, 1, &[7, 7], b"\x03vorbis\x05vorbis"),
        page(0, -1, 7, 2, &[255], &[1; 255]),
        page(0, 5, 8, 1, &[3], b"not"),
        page(CONTINUED, 64, 7, 3, &[45, 0], &[2; 45]),
        page(LAST, 96, 7, 4, &[255, 0, 3], &[3; 258]),
    ]
    .concat()
}

#[test]
fn segments_join_to_packets() {
    let packets = packets(&file()).expect("a good file");
    let sizes: Vec<usize> = packets.iter().map(|packet| packet.body.len()).collect();
    assert_eq!(sizes, [7, 7, 7, 300, 0, 255, 3]);
    assert_eq!(packets[3].body[250..260], [1, 1, 1, 1, 1, 2, 2, 2, 2, 2]);
}

#[test]
fn the_last_packet_that_ends_on_a_page_has_its_granule_position() {
    let packets = packets(&file()).expect("a good file");
    let granules: Vec<Option<i64>> = packets[3..].iter().map(|packet| packet.granule).collect();
    assert_eq!(granules, [None, Some(64), None, Some(96)]);
    assert!(packets[6].on_last_page && !packets[4].on_last_page);
}

#[test]
fn comment_packets_are_left_out() {
    let packets = packets(&file()).expect("a good file");
    let kinds: Vec<Kind> = kinds(&packets).expect("headers in order").iter().map(|&(kind, _)| kind).collect();
    assert_eq!(kinds[..3], [Kind::Identification, Kind::Setup, Kind::Audio]);
    assert_eq!(kinds.len(), 6);
}

#[test]
fn any_bit_flipped_in_a_page_is_noticed() {
    let good = page(FIRST, 0, 7, 0, &[7], b"\x01vorbis");
    for bit in 0..8 * good.len() {
        let mut bad = good.clone();
        bad[bit / 8] ^= 1 << (bit % 8);
        assert!(packets(&bad).is_err(), "bit {bit}");
    }
}

#[test]
fn a_missing_page_and_a_cut_file_are_noticed() {
    let missing = [page(FIRST, 0, 7, 0, &[7], b"\x01vorbis"), page(0, 0, 7, 2, &[1], b"x")].concat();
    assert!(packets(&missing).expect_err("a gap").contains("missing"));
    let file = file();
    assert!(packets(&file[..file.len() - 1]).expect_err("cut").contains("cut short"));
}

#[test]
fn a_file_without_vorbis_has_no_packets() {
    assert!(packets(&page(FIRST, 0, 8, 0, &[2], b"no")).is_err());
    assert!(packets(&[]).is_err());
}
