//! The tool's lines (01, "The tool reads standard input as records").

use second::check::hand_made;
use second::generate::fields::{base, IDENTITY};
use second::lines::write_lines;
use second::records::{write_record, Kind};
use second::write::write_identification;

fn lines(input: &[u8]) -> String {
    let mut output = Vec::new();
    write_lines(&mut &input[..], &mut output).expect("memory");
    String::from_utf8(output).expect("text")
}

fn records(packets: &[(Kind, &[u8])]) -> Vec<u8> {
    let mut records = Vec::new();
    for (kind, body) in packets {
        write_record(&mut records, *kind, body).expect("memory");
    }
    records
}

#[test]
fn the_last_example_of_01() {
    let mut input = vec![0x1E, 0, 0, 0, 1, 0, 1, 0x76, 0x6F, 0x72, 0x62, 0x69, 0x73];
    input.extend([0, 0, 0, 0, 1, 0x40, 0x1F, 0, 0]);
    input.extend([0; 12]);
    input.extend([0xB8, 1, 0, 0, 0, 0, 3, 0]);
    assert_eq!(lines(&input), "1 identity channels 1 rate 8000 blocks 256 2048\n2 refused 18\nend 2\n");
}

#[test]
fn each_kind_of_line() {
    let identification = write_identification(&IDENTITY).bytes;
    let setup = base().pack();
    let mut input = records(&[
        (Kind::Setup, &setup),
        (Kind::Identification, &identification),
        (Kind::Audio, &[0]),
        (Kind::Setup, &setup),
        (Kind::Audio, &[0]),
        (Kind::Audio, &[2, 0]),
        (Kind::Audio, &[1]),
        (Kind::Identification, &[]),
        (Kind::Audio, &[0]),
        (Kind::Setup, &setup),
        (Kind::Audio, &[0]),
        (Kind::Setup, &[]),
        (Kind::Audio, &[0]),
        (Kind::Setup, &setup),
        (Kind::Identification, &identification),
        (Kind::Audio, &[0]),
    ]);
    input.extend([1, 0, 0, 0, 4, 0, 9]);
    let expected = [
        "1 refused 18",
        "2 identity channels 3 rate 8000 blocks 64 128",
        "3 refused 18",
        "4 setup books 2 modes 3",
        "5 audio block 64 samples 0 words 0",
        "6 audio block 128 samples 48 words 0",
        "7 refused 15",
        "8 refused 1",
        "9 audio block 64 samples 48 words 0",
        "10 setup books 2 modes 3",
        "11 audio block 64 samples 0 words 0",
        "12 refused 1",
        "13 refused 18",
        "14 setup books 2 modes 3",
        "15 identity channels 3 rate 8000 blocks 64 128",
        "16 refused 18",
        "17 kind unknown",
        "end 17",
    ];
    assert_eq!(lines(&input).lines().collect::<Vec<_>>(), expected);
}

#[test]
fn an_empty_input_ends_at_0() {
    assert_eq!(lines(&[]), "end 0\n");
}

#[test]
fn a_record_cut_anywhere_is_torn() {
    let input = records(&[(Kind::Audio, &[0]), (Kind::Audio, &[0, 0])]);
    for length in 8..input.len() {
        assert_eq!(lines(&input[..length]), "1 refused 18\n2 torn\nend 1\n");
    }
    assert_eq!(lines(&input[..7]), "1 refused 18\nend 1\n");
}

#[test]
fn a_body_over_49152_is_too_long_and_skipped() {
    let mut input = records(&[(Kind::Audio, &[0; 49_152]), (Kind::Setup, &[0; 49_153]), (Kind::Audio, &[])]);
    assert_eq!(lines(&input), "1 refused 18\n2 too long\n3 refused 18\nend 3\n");
    input.truncate(2 * 49_152);
    assert_eq!(lines(&input), "1 refused 18\n2 torn\nend 1\n");
    assert_eq!(lines(&[0xFF, 0xFF, 0xFF, 0xFF, 9, 9, 1]), "1 torn\nend 0\n");
}

#[test]
fn too_long_goes_before_kind_unknown() {
    let mut input = vec![1, 0xC0, 0, 0, 7, 0];
    input.resize(6 + 49_153, 0);
    assert_eq!(lines(&input), "1 too long\nend 1\n");
}

#[test]
fn record_files_made_by_hand_give_their_lines() {
    for file in hand_made::all().into_iter().chain([hand_made::small(), hand_made::most()]) {
        assert_eq!(lines(&file.records), file.lines, "{}", file.name);
    }
}
