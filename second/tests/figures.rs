//! The figures of 01, "Figures to check against", and those in its rules.

use second::audio::{audio, Tally, Window};
use second::bits::{ilog, read_field, Cursor};
use second::book::{lookup1_values, read_codeword, verdict, Verdict};
use second::floor::{curve, final_y, point_on_line, range, unwrap_value};
use second::generate::fields::{base, pack, Field, Fields, IDENTITY};
use second::identification::Identity;
use second::ledger::{self, Codeword, Ledger};
use second::limits::Limits;
use second::setup::setup;
use second::space::CodeSpace;

/// The example of 002.
const EXAMPLE: [u8; 8] = [2, 4, 4, 4, 4, 2, 3, 3];

fn words(strings: &[&str]) -> Vec<Option<Codeword>> {
    let parse = |string: &&str| Codeword {
        length: string.len() as u32,
        bits: u32::from_str_radix(string, 2).expect("binary digits"),
    };
    strings.iter().map(|string| Some(parse(string))).collect()
}

fn ledger_answers(lengths: &[u8]) -> (Vec<Option<Codeword>>, u64) {
    ledger::answers(&lengths.iter().map(|&length| u32::from(length)).collect::<Vec<_>>())
}

#[test]
fn ilog_is_the_place_of_the_highest_set_bit() {
    assert_eq!([0, 1, 2, 3, 4, 7].map(ilog), [0, 1, 2, 2, 3, 3]);
    assert_eq!(ilog(u32::MAX), 32);
}

#[test]
fn fields_fill_bytes_from_the_low_bit_up() {
    // 000, section 2.1.6: four fields of 4, 3, 7 and 13 bits.
    let packet = pack(&[(12, 4), (7, 3), (17, 7), (6969, 13)]);
    assert_eq!(packet, [0b1111_1100, 0b0100_1000, 0b1100_1110, 0b0000_0110]);
    let fields = [(0, 4, 12), (4, 3, 7), (7, 7, 17), (14, 13, 6969)];
    for (position, width, value) in fields {
        assert_eq!(read_field(&packet, position, width), Some(value));
    }
}

#[test]
fn reading_0_bits_gives_0_at_the_end_but_not_past_it() {
    assert_eq!(read_field(&[7], 8, 0), Some(0));
    assert_eq!(read_field(&[], 0, 0), Some(0));
    assert_eq!(read_field(&[7], 9, 0), None);
    assert_eq!(read_field(&[7], 8, 1), None);
    assert_eq!(read_field(&[7], 5, 4), None);
    assert_eq!(read_field(&[7], u64::MAX, 32), None);
}

#[test]
fn nothing_is_read_after_a_cut() {
    let mut cursor = Cursor::new(&[0xFF]);
    assert_eq!(cursor.field(5), Ok(31));
    assert_eq!(cursor.field(4).map_err(|cut| cut.place), Err(5));
    assert!(cursor.field(3).is_err());
    assert!(cursor.field(0).is_err());
    assert_eq!(cursor.next_bit(), None);
}

#[test]
fn lookup_type_1_has_the_greatest_root() {
    assert_eq!(lookup1_values(81, 4), 3);
    assert_eq!(lookup1_values(80, 4), 2);
    assert_eq!(lookup1_values(5, 65_535), 1);
    assert_eq!(lookup1_values(8_192, 1), 8_192);
}

#[test]
fn the_example_of_002_gets_its_codewords() {
    let expected = words(&["00", "0100", "0101", "0110", "0111", "10", "110", "111"]);
    assert_eq!(verdict(&EXAMPLE), Verdict::Accepted(expected.clone()));
    assert_eq!(ledger_answers(&EXAMPLE), (expected, 0));
}

#[test]
fn the_example_without_its_last_entry_is_8() {
    assert_eq!(verdict(&EXAMPLE[..7]), Verdict::LeftOver { strings: 536_870_912 });
    assert_eq!(ledger_answers(&EXAMPLE[..7]).1, 536_870_912);
}

#[test]
fn one_more_entry_of_any_length_is_7() {
    for length in 1..=32 {
        let lengths = [&EXAMPLE[..], &[length]].concat();
        assert_eq!(verdict(&lengths), Verdict::Exceeds { entry: 8 });
        let (answers, free) = ledger_answers(&lengths);
        assert_eq!((answers[8], free), (None, 0));
    }
}

#[test]
fn codewords_go_in_entry_order() {
    assert_eq!(verdict(&[2, 1, 2]), Verdict::Accepted(words(&["00", "1", "01"])));
    assert_eq!(verdict(&[1, 2]), Verdict::LeftOver { strings: 1 << 30 });
}

#[test]
fn a_sole_entry_is_taken_with_length_1_alone() {
    assert_eq!(verdict(&[1]), Verdict::Accepted(words(&["0"])));
    assert_eq!(verdict(&[0, 0, 1, 0]), Verdict::Accepted(vec![None, None, words(&["0"])[0], None]));
    assert_eq!(verdict(&[2]), Verdict::LeftOver { strings: 3 << 30 });
    assert_eq!(verdict(&[0, 0]), Verdict::LeftOver { strings: 1 << 32 });
}

#[test]
fn one_codeword_of_each_length_and_two_of_32_are_taken() {
    let lengths: Vec<u8> = (1..=32).chain([32]).collect();
    let Verdict::Accepted(codewords) = verdict(&lengths) else { panic!("not taken") };
    assert_eq!(codewords[32], Some(Codeword { length: 32, bits: u32::MAX }));
    assert_eq!(ledger_answers(&lengths), (codewords, 0));
}

#[test]
fn a_length_outside_1_to_32_is_refused_and_changes_nothing() {
    let (mut ledger, mut space) = (Ledger::default(), CodeSpace::default());
    for length in [0, 33, u32::MAX] {
        assert_eq!((ledger.enter(length), space.enter(length)), (None, None));
    }
    assert_eq!((ledger.free_strings(), space.free_strings()), (1 << 32, 1 << 32));
}

#[test]
fn the_ledger_answers_as_the_space_does_after_refusals_too() {
    let mut random = second::generate::random::Random::new(3);
    for _ in 0..400 {
        let (mut ledger, mut space) = (Ledger::default(), CodeSpace::default());
        let most = random.between(2, 32);
        for _ in 0..random.below(60) {
            let length = random.between(1, most);
            assert_eq!(ledger.enter(length), space.enter(length));
            assert_eq!(ledger.free_strings(), space.free_strings());
        }
    }
}

#[test]
fn a_codeword_is_read_bit_by_bit() {
    // 0111 then 10, leftmost bit first.
    let packet = [0b0001_1110];
    assert_eq!(read_codeword(&EXAMPLE, &packet, 0), Some(Ok((4, 4))));
    assert_eq!(read_codeword(&EXAMPLE, &packet, 4), Some(Ok((5, 6))));
    assert!(matches!(read_codeword(&EXAMPLE, &[0b1000_0000], 7), Some(Err(cut)) if cut.place == 7));
}

#[test]
fn a_sole_entry_takes_one_bit_of_either_value() {
    let packet = [0b0111_0110];
    for position in 0..8 {
        assert_eq!(read_codeword(&[0, 1], &packet, position), Some(Ok((1, position + 1))));
    }
    assert!(matches!(read_codeword(&[0, 1], &packet, 8), Some(Err(cut)) if cut.place == 8));
    assert!(matches!(read_codeword(&[0, 1], &packet, 9), Some(Err(_))));
    assert!(matches!(read_codeword(&[1], &[], 0), Some(Err(cut)) if cut.place == 0));
}

#[test]
fn values_are_unwrapped_in_their_room() {
    let given = [3, 4, 199, 200].map(|value| unwrap_value(100, value, 256));
    assert_eq!(given, [98, 102, 0, 200]);
    assert_eq!([111, 112].map(|value| unwrap_value(200, value, 256)), [144, 143]);
}

#[test]
fn the_floor_of_004_has_its_final_y() {
    let x_list = [0, 128, 64, 32, 96, 16, 48, 80, 112];
    let read = [110, 20, 9, 89, 0, 49, 19, 60, 19];
    let (y, flags) = final_y(&x_list, &read, 256);
    assert_eq!(y, [110, 20, 60, 40, 40, 50, 40, 80, 20]);
    assert_eq!(flags, [true; 9]);
    let curve = curve(&x_list, &y, &flags, 1, 160);
    assert_eq!((curve[0], curve[1], curve[15], curve[16]), (110, 107, 54, 50));
    assert_eq!(curve[128..], [20; 32]);
}

#[test]
fn the_line_of_the_figures() {
    assert_eq!([1, 15].map(|x| point_on_line(0, 110, 16, 50, x)), [107, 54]);
}

#[test]
fn y_is_clamped_after_the_last_value() {
    // The second point stands at 127 while the third is predicted: 43 + 84 / 2.
    let (y, _) = final_y(&[0, 64, 32], &[43, 127, 0], 86);
    assert_eq!(y, [43, 85, 85]);
    assert_eq!([1, 2, 3, 4].map(range), [256, 128, 86, 64]);
}

#[test]
fn a_value_past_the_range_predicts_unclamped() {
    // 300 at X 32: halfway from 10 is 155. -45 at X 32: halfway from 200 is 78.
    let (y, _) = final_y(&[0, 64, 32, 16], &[10, 10, 300, 0], 256);
    assert_eq!(y, [10, 10, 255, 155]);
    let (y, _) = final_y(&[0, 64, 32, 16], &[200, 200, 300, 0], 256);
    assert_eq!(y, [200, 200, 0, 78]);
}

#[test]
fn rooms_may_be_negative() {
    // Predicted 300: the high room is -44, and every value passes the room.
    assert_eq!(unwrap_value(300, 1, 256), 300 - 1 - 44 - 1);
    // Predicted -45: the low room is -45, smaller than the high room.
    assert_eq!(unwrap_value(-45, 1, 256), 1 + 45 - 45);
}

#[test]
fn a_point_with_value_0_is_flagged_as_a_neighbour() {
    let (y, flags) = final_y(&[0, 64, 32, 16], &[10, 10, 0, 2], 256);
    assert_eq!((y, flags), (vec![10, 10, 10, 11], vec![true; 4]));
    let (_, flags) = final_y(&[0, 64, 32, 16], &[10, 10, 0, 0], 256);
    assert_eq!(flags, [true, true, false, false]);
}

/// The base setup for 256 and 2048, in mode 1 a long block with both flags 0.
#[test]
fn window_points_and_samples_of_the_figures() {
    let identity = Identity { block_sizes: [256, 2048], ..IDENTITY };
    let setup = setup(&identity, &base().pack(), &Limits::BASE).expect("accepted");
    let mut tally = Tally { block_size: 256, samples: 0 };
    let packet = pack(&[(0, 1), (1, 2), (0, 2), (0, 3)]);
    let answer = audio(&identity, &setup, &mut tally, &packet, &mut [0; 3072], &mut []).expect("accepted");
    let window = Window { left_start: 448, left_end: 576, right_start: 1472, right_end: 1600 };
    assert_eq!((answer.window, answer.samples), (window, 576));
    assert_eq!(tally, Tally { block_size: 2048, samples: 576 });
}

#[test]
fn both_sides_of_8192_entries() {
    let dense: Vec<Field> = std::iter::repeat_n(("length", 12, 5), 8_192).collect();
    let book = |entries| base().with(&[("entries 0", entries)]);
    assert_eq!(book(8_192).replacing("length 0 0", "length 0 1", &dense).number(), 0);
    assert_eq!(book(8_193).replacing("length 0 0", "length 0 1", &dense).number(), 14);
}

#[test]
fn both_sides_of_16384_entries_in_all() {
    let dense: Vec<Field> = std::iter::repeat_n(("length", 12, 5), 8_192).collect();
    let first = base().with(&[("entries 0", 8_192)]).replacing("length 0 0", "length 0 1", &dense);
    let second = |entries| {
        let run = [("first length 1", 12, 5), ("run 1", 8_192, 14)];
        first.clone().with(&[("entries 1", entries), ("lookup 1", 0)]).replacing(
            "first length 1",
            "run 1",
            &run,
        )
    };
    let cut = |fields: Fields| fields.replacing("minimum 1", "multiplicand 1 1", &[]);
    assert_eq!(cut(second(8_192)).number(), 13, "the plan's book has no values");
    let third = [("pattern 2", second::book::PATTERN, 24), ("dimensions 2", 1, 16), ("entries 2", 1, 24)];
    let three = second(8_192).with(&[("books", 2)]).replacing("minimum 1", "times", &third);
    let refusal = three.read().expect_err("refused");
    assert_eq!((refusal.number, refusal.place), (14, three.position("entries 2")));
}

#[test]
fn both_sides_of_16384_multiplicands() {
    let book = |dimensions, count| {
        let values = std::iter::repeat_n(("multiplicand", 1, 3), count).collect::<Vec<Field>>();
        base()
            .with(&[("dimensions 1", dimensions), ("lookup 1", 2), ("partition size", dimensions - 1)])
            .replacing("multiplicand 1 0", "multiplicand 1 1", &values)
    };
    assert_eq!(book(4_096, 16_384).number(), 0);
    assert_eq!(book(4_097, 16_388).number(), 14);
    let before_the_first = book(4_097, 0).up_to("times").read().expect_err("refused");
    assert_eq!((before_the_first.number, before_the_first.place), (14, base().position("pattern 1")));
}

/// So many explicit X values in partitions of one class.
fn floor_with(dimensions: u32, partitions: usize, x_values: &[u32]) -> Fields {
    let classes = std::iter::repeat_n(("partition class", 0, 4), partitions).collect::<Vec<Field>>();
    let x_values = x_values.iter().map(|&x| ("x", x, 15)).collect::<Vec<Field>>();
    base()
        .with(&[("partitions", partitions as u32), ("class dimensions", dimensions - 1), ("range bits", 15)])
        .replacing("partition class", "partition class", &classes)
        .replacing("x 2", "x 3", &x_values)
}

#[test]
fn both_sides_of_65_x_values() {
    let x_values: Vec<u32> = (1..=64).collect();
    assert_eq!(floor_with(7, 9, &x_values[..63]).number(), 0);
    assert_eq!(floor_with(8, 8, &x_values).number(), 12);
    let count_first = floor_with(8, 8, &x_values[..63]).up_to("residues");
    let refusal = count_first.read().expect_err("refused");
    assert_eq!((refusal.number, refusal.place), (12, base().position("floor type")));
}

#[test]
fn both_sides_of_the_mode_count() {
    let setup = base().read().expect("accepted");
    let read = |mode| {
        let packet = pack(&[(0, 1), (mode, 2), (0, 5)]);
        audio(&IDENTITY, &setup, &mut Tally::default(), &packet, &mut [0; 192], &mut [])
    };
    assert_eq!(read(2).map(|answer| answer.mode), Ok(2));
    assert_eq!(read(3).map_err(|refusal| (refusal.number, refusal.place)), Err((16, 1)));
}

#[test]
fn both_sides_of_the_room() {
    let setup = base().read().expect("accepted");
    // Mode 0, the first floor used with all values 0, the others unused.
    let packet = pack(&[(0, 1), (0, 2), (1, 1), (0, 16), (0, 1), (0, 4), (0, 2), (0, 32), (0, 32)]);
    let read = |curve_bytes: usize, places: usize| {
        let (mut curves, mut words) = (vec![1; curve_bytes], vec![1; places]);
        let answer = audio(&IDENTITY, &setup, &mut Tally::default(), &packet, &mut curves, &mut words);
        let zero = curves.iter().all(|&byte| byte == 0) && words.iter().all(|&word| word == 0);
        (answer.map(|answer| answer.words).map_err(|refusal| refusal.number), zero)
    };
    let (words, _) = read(96, 1_000);
    let words = words.expect("accepted") as usize;
    assert!(words > 0);
    assert_eq!(read(96, words).0, Ok(words as u64));
    assert_eq!(read(96, words - 1), (Err(17), true));
    assert_eq!(read(95, words), (Err(17), true));
}
