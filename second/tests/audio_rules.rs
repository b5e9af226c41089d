//! Audio packets: refusals, floors, residues and the tally (01, "Audio order").

use second::audio::{audio, live_channels, Answer, Tally, Window};
use second::generate::fields::{base, pack, Field, Fields, IDENTITY};
use second::identification::Identity;
use second::limits::Limits;
use second::setup::{setup, Setup};

const MONO: Identity = Identity { channels: 1, ..IDENTITY };

struct Read {
    answer: Result<Answer, u8>,
    curves: Vec<u8>,
    words: Vec<u32>,
    tally: Tally,
}

fn read_with(identity: &Identity, setup: &Setup, tally: Tally, packet: &[u8]) -> Read {
    let (mut curves, mut words, mut tally) = (vec![9; 32_768], vec![9; 16_384], tally);
    let answer = audio(identity, setup, &mut tally, packet, &mut curves, &mut words);
    Read { answer: answer.map_err(|refusal| refusal.number), curves, words, tally }
}

fn read(packet: &[u8]) -> Read {
    read_with(&IDENTITY, &base().read().expect("accepted"), Tally::default(), packet)
}

/// The base setup for one channel: one submap, no coupling.
fn mono(fields: Fields) -> Setup {
    let fields = fields.replacing(
        "submap flag",
        "submap residue 1",
        &[
            ("submap flag", 0, 1),
            ("coupling flag", 0, 1),
            ("reserved", 0, 2),
            ("discarded", 0, 8),
            ("floor", 0, 8),
            ("residue", 0, 8),
        ],
    );
    setup(&MONO, &fields.pack(), &Limits::BASE).expect("accepted")
}

/// Mode 0 and a used floor in 23 bits: two Y; the master book's entry 1, so that
/// the first value has no book and the second has book 1; its entry 0.
const START: [(u32, u32); 7] = [(0, 1), (0, 2), (1, 1), (200, 8), (100, 8), (1, 1), (0, 2)];

#[test]
fn rule_1_up_to_the_window_flags() {
    assert_eq!(read(&[]).answer, Err(1));
    // 64 modes, mode 63 long: type bit, six bits, then the flags at bits 7 and 8.
    let mode: [Field; 4] = [("block flag", 1, 1), ("window", 0, 16), ("transform", 0, 16), ("mapping", 0, 8)];
    let modes = [&[("modes", 63, 6)][..], &mode.repeat(64)].concat();
    let setup = base().replacing("modes", "mapping 2", &modes).read().expect("accepted");
    assert_eq!(read_with(&IDENTITY, &setup, Tally::default(), &[0x7E]).answer, Err(1));
    let stands = read_with(&IDENTITY, &setup, Tally::default(), &[0x7E, 0]).answer.expect("accepted");
    assert_eq!((stands.mode, stands.block_size), (63, 128));
}

#[test]
fn rule_15_the_first_bit() {
    assert_eq!(read(&[0xFF]).answer, Err(15));
}

#[test]
fn rule_16_is_judged_before_the_flags() {
    assert_eq!(read(&pack(&[(0, 1), (3, 2)])).answer, Err(16));
}

#[test]
fn rule_18_comes_before_all_else() {
    let setup = base().read().expect("accepted");
    let unsound = [
        (IDENTITY, Tally { block_size: 0, samples: 5 }),
        (IDENTITY, Tally { block_size: 256, samples: 0 }),
        (Identity { rate: 0, ..IDENTITY }, Tally::default()),
        (Identity { channels: 2, ..IDENTITY }, Tally::default()),
        (Identity { channels: 4, ..IDENTITY }, Tally::default()),
    ];
    for (identity, tally) in unsound {
        let read = read_with(&identity, &setup, tally, &[]);
        assert_eq!((read.answer, read.tally), (Err(18), tally));
        assert!(read.curves.iter().all(|&byte| byte == 0) && read.words.iter().all(|&word| word == 0));
    }
}

#[test]
fn one_submap_suits_every_identity_its_couplings_fit() {
    let setup = mono(base());
    let read = read_with(&Identity { channels: 8, ..IDENTITY }, &setup, Tally::default(), &[0, 0]);
    assert_eq!(read.answer.map(|answer| answer.floor_used), Ok(vec![false; 8]));
}

#[test]
fn rule_19_samples_up_to_the_last_number() {
    let setup = base().read().expect("accepted");
    let at = |samples| read_with(&IDENTITY, &setup, Tally { block_size: 128, samples }, &[0]);
    let full = at(u64::MAX - 48);
    assert_eq!((full.answer.map(|answer| answer.samples), full.tally.samples), (Ok(48), u64::MAX));
    let over = at(u64::MAX - 47);
    assert_eq!((over.answer, over.tally), (Err(19), Tally { block_size: 128, samples: u64::MAX - 47 }));
}

#[test]
fn window_points_of_short_and_long_blocks() {
    let short = read(&[0]).answer.expect("accepted");
    assert_eq!(short.window, Window { left_start: 0, left_end: 32, right_start: 32, right_end: 64 });
    assert!(!short.previous_window_flag && !short.next_window_flag);
    let long = read(&pack(&[(0, 1), (1, 2), (1, 1), (0, 1)])).answer.expect("accepted");
    assert_eq!(long.window, Window { left_start: 0, left_end: 64, right_start: 80, right_end: 112 });
    assert!(long.previous_window_flag && !long.next_window_flag);
}

#[test]
fn a_long_block_is_the_modes_flag_with_equal_sizes_too() {
    let identity = Identity { block_sizes: [64, 64], ..IDENTITY };
    let setup = base().read().expect("accepted");
    let read = read_with(&identity, &setup, Tally::default(), &pack(&[(0, 1), (1, 2), (0, 1), (1, 1)]));
    let answer = read.answer.expect("accepted");
    assert_eq!(answer.window, Window { left_start: 0, left_end: 32, right_start: 32, right_end: 64 });
    assert!(answer.next_window_flag);
}

#[test]
fn a_floor_cut_short_is_unused_and_so_are_later_ones() {
    // The first floor whole, the second cut in its second Y.
    let packet = pack(&[&START[..], &[(1, 1), (3, 2)]].concat());
    let read = read(&packet);
    let answer = read.answer.expect("accepted");
    assert_eq!((answer.floor_used, answer.words), (vec![true, false, false], 0));
    assert_eq!(read.curves[0], 200);
    assert!(read.curves[32..].iter().all(|&byte| byte == 0));
}

#[test]
fn no_residue_after_a_cut_floor_even_of_lone_entries() {
    let lone = [("sparse 0", 1, 1), ("used", 1, 1), ("length", 0, 5), ("used", 0, 1)];
    let setup = base()
        .with(&[("partitions", 0), ("range bits", 0), ("cascade 0", 0)])
        .replacing("partition class", "subclass book 1", &[])
        .replacing("x 2", "x 3", &[])
        .replacing("plan 0 0", "plan 0 0", &[])
        .replacing("sparse 0", "length 0 1", &lone)
        .read()
        .expect("accepted");
    let words = |packet: &[u8]| {
        read_with(&IDENTITY, &setup, Tally::default(), packet).answer.map(|answer| answer.words)
    };
    let whole = pack(&[(0, 1), (0, 2), (1, 1), (0, 16), (0, 1), (0, 1), (0b01_1010, 6)]);
    assert_eq!(words(&whole), Ok(6), "three class words for the live channels 0 and 1");
    assert_eq!(words(&whole[..3]), Ok(2), "the bits behind the floors");
    assert_eq!(words(&whole[..2]), Ok(0), "cut in the first floor");
}

#[test]
fn the_curve_is_flat_past_the_last_point_and_stops_at_half() {
    let short = read(&pack(&[&START[..], &[(0, 4)]].concat()));
    assert_eq!(short.curves[..32].len(), 32);
    assert_eq!((short.curves[0], short.curves[16], short.curves[31]), (200, 150, 104));
    // Mode 1: the floor's X reach 32, the half block 64.
    let long = read(&pack(&[(0, 1), (1, 2), (0, 2), (1, 1), (200, 8), (100, 8), (1, 1), (0, 4)]));
    assert_eq!(long.curves[32..64], [100; 32]);
}

#[test]
fn coupling_makes_both_channels_live_in_order() {
    assert_eq!(live_channels(&[true, false, false], &[(0, 1), (2, 1)]), [true, true, true]);
    assert_eq!(live_channels(&[true, false, false], &[(2, 1), (0, 1)]), [true, true, false]);
}

/// One channel, residue 0 to 24 in partitions of 8: class words of book 0, one
/// digit each; class 0 has book 1 in pass 0, class 1 nothing.
#[test]
fn residue_words_by_partition() {
    let setup = mono(base());
    let bits = [(0, 1), (0, 2), (0, 2), (0, 2), (3, 2), (1, 1), (0, 1), (3, 2), (3, 2), (3, 2), (0, 2)];
    let read = read_with(&MONO, &setup, Tally::default(), &pack(&[&START[..], &bits[..]].concat()));
    // Class 0 and four vectors, class 1, class 0 and four vectors.
    assert_eq!(read.answer.map(|answer| answer.words), Ok(11));
    assert_eq!(read.words[..11], [0, 1, 1, 1, 7, 2, 0, 7, 7, 7, 1][..11]);
}

#[test]
fn a_cut_codeword_ends_the_words_and_the_packet_stands() {
    let setup = mono(base().with(&[("class book", 1)]));
    // A class word, three whole vectors, and one bit of the next.
    let packet = pack(&[&START[..], &[(0, 2), (2, 2), (2, 2), (3, 2), (1, 1)]].concat());
    assert_eq!(packet.len(), 4);
    let read = read_with(&MONO, &setup, Tally::default(), &packet);
    assert_eq!(read.answer.map(|answer| answer.words), Ok(4));
    assert_eq!(read.words[..5], [0, 3, 3, 7, 0]);
}

#[test]
fn class_digits_past_the_last_partition_are_dropped() {
    // Book 1 as class book: two digits a word; three partitions, so two words.
    let setup = mono(base().with(&[("class book", 1)]));
    // Entry 3 is classes 1 1, entry 2 is classes 1 0: the last digit is dropped.
    let bits = [(3, 2), (1, 1), (0, 1), (0, 8)];
    let read = read_with(&MONO, &setup, Tally::default(), &pack(&[&START[..], &bits[..]].concat()));
    assert_eq!(read.answer.map(|answer| answer.words), Ok(2));
    assert_eq!(read.words[..2], [6, 4]);
}

#[test]
fn begin_and_end_are_limited_to_the_size() {
    let words = |begin, end| {
        let setup = mono(base().with(&[("begin", begin), ("end", end)]));
        let packet = pack(&[&START[..], &[(u32::MAX, 32), (u32::MAX, 32)]].concat());
        read_with(&MONO, &setup, Tally::default(), &packet).answer.map(|answer| answer.words)
    };
    assert_eq!(words(0, 0xFF_FFFF), Ok(4), "class 1 in four partitions of 8 in 32");
    assert_eq!(words(24, 0xFF_FFFF), Ok(1));
    assert_eq!(words(25, 0xFF_FFFF), Ok(0), "less than a partition");
    assert_eq!(words(0xFF_FFFF, 0xFF_FFFF), Ok(0));
}

#[test]
fn type_2_counts_all_channels_of_the_submap() {
    let setup = base().with(&[("residue type", 2), ("end", 0xFF_FFFF)]).read().expect("accepted");
    // Channel 0 used, 1 and 2 unused; coupling makes 1 live. Submap 0 has channels
    // 0 and 2, a vector of 64: 8 class words; submap 1 channel 1: 4 class words.
    let packet = pack(&[&START[..], &[(0, 2), (u32::MAX, 32), (u32::MAX, 32)]].concat());
    assert_eq!(read(&packet).answer.map(|answer| answer.words), Ok(6), "type 0, three partitions each");
    let read = read_with(&IDENTITY, &setup, Tally::default(), &packet);
    assert_eq!(read.answer.map(|answer| answer.words), Ok(12));
    assert_eq!(read.words[..12], [2; 12]);
}

#[test]
fn samples_are_0_for_the_first_and_quarters_after() {
    let setup = base().read().expect("accepted");
    let first = read_with(&IDENTITY, &setup, Tally::default(), &[0]);
    assert_eq!(
        (first.answer.map(|answer| answer.samples), first.tally),
        (Ok(0), Tally { block_size: 64, samples: 0 })
    );
    let second = read_with(&IDENTITY, &setup, first.tally, &[0]);
    assert_eq!(second.tally, Tally { block_size: 64, samples: 32 });
    let refused = read_with(&IDENTITY, &setup, second.tally, &[1]);
    assert_eq!(refused.tally, second.tally);
}

/// One bit for each of 294,912 places (01 gives 17 where the room is less).
#[test]
fn lone_entries_fill_the_room_bit_by_bit() {
    let identity = Identity { channels: 8, block_sizes: [8_192, 8_192], ..IDENTITY };
    let lone = [("sparse 0", 1, 1), ("used", 1, 1), ("length", 0, 5), ("used", 0, 1)];
    let values =
        [("lookup 0", 2, 4), ("minimum", 0, 32), ("delta", 0, 32), ("width", 0, 4), ("sequence", 0, 1)];
    let multiplicands = [("multiplicand", 0, 1), ("multiplicand", 1, 1)];
    let plan = [("cascade 0", 7, 3), ("cascade flag 0", 1, 1), ("high", 31, 5)];
    let numbers: Vec<Field> = vec![("plan", 0, 8); 8];
    let fields = base()
        .replacing("pattern 1", "multiplicand 1 1", &[])
        .replacing("sparse 0", "length 0 1", &lone)
        .replacing("lookup 0", "lookup 0", &[&values[..], &multiplicands].concat())
        .with(&[("books", 0), ("partitions", 0), ("range bits", 0)])
        .with(&[("end", 0xFF_FFFF), ("partition size", 0), ("classifications", 0)])
        .replacing("partition class", "subclass book 1", &[])
        .replacing("x 2", "x 3", &[])
        .replacing("cascade 0", "plan 0 0", &[&plan[..], &numbers].concat());
    let fields = fields.replacing(
        "submap flag",
        "submap residue 1",
        &[
            ("submap flag", 0, 1),
            ("coupling flag", 1, 1),
            ("steps", 6, 8),
            ("magnitude 1", 0, 3),
            ("angle 1", 1, 3),
            ("magnitude 2", 0, 3),
            ("angle 2", 2, 3),
            ("magnitude 3", 0, 3),
            ("angle 3", 3, 3),
            ("magnitude 4", 0, 3),
            ("angle 4", 4, 3),
            ("magnitude 5", 0, 3),
            ("angle 5", 5, 3),
            ("magnitude 6", 0, 3),
            ("angle 6", 6, 3),
            ("magnitude 7", 0, 3),
            ("angle 7", 7, 3),
            ("reserved", 0, 2),
            ("discarded", 0, 8),
            ("floor", 0, 8),
            ("residue", 0, 8),
        ],
    );
    let setup = setup(&identity, &fields.pack(), &Limits::BASE).expect("accepted");
    let floors = pack(&[(0, 1), (0, 2), (1, 1), (0, 16), (0, 7), (0b10101, 5)]);
    let packet = [floors, vec![0xC5; 294_912 / 8]].concat();
    let (mut curves, mut words) = (vec![0; 32_768], vec![0; 294_912]);
    let mut read = |bytes: usize, words: &mut [u32]| {
        let answer = audio(&identity, &setup, &mut Tally::default(), &packet[..bytes], &mut curves, words);
        answer.map(|answer| answer.words).map_err(|refusal| refusal.number)
    };
    assert_eq!(read(4, &mut words), Ok(5));
    assert_eq!(read(4, &mut words[..4]), Err(17));
    assert_eq!(read(packet.len() - 1, &mut words), Ok(294_909));
    assert_eq!(read(packet.len(), &mut words), Ok(294_912));
    assert_eq!(read(packet.len(), &mut words[..294_911]), Err(17));
}
