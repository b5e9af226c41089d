//! Refusals of setup packets (01, "When the packet is sent back") and their order.

use second::generate::fields::{base, Field, Fields, IDENTITY};
use second::identification::Identity;
use second::limits::Limits;
use second::setup::setup;

/// The number and place of the refusal, place given as a field's name.
fn assert_refused(fields: &Fields, number: u8, place: &str) {
    let refusal = fields.read().expect_err("refused");
    assert_eq!((refusal.number, refusal.place), (number, fields.position(place)), "at {place}");
}

fn assert_change_refused(changes: &[(&str, u32)], number: u8, place: &str) {
    assert_refused(&base().with(changes), number, place);
}

#[test]
fn content_is_read_as_it_was_written() {
    let content = base().read().expect("accepted");
    assert_eq!(content.books[0].lengths(), [1, 1]);
    assert_eq!(content.books[1].lengths(), [2; 4]);
    let values = content.books[1].values().expect("lookup type 1");
    assert_eq!((values.width, &values.multiplicands[..]), (3, &[5, 7][..]));
    assert_eq!(content.floors[0].x_list(), [0, 32, 16, 8]);
    assert_eq!(content.floors[0].classes()[0].subclass_books, [Some(1), None]);
    assert_eq!(content.residues[0].partition_size, 8);
    assert_eq!(content.residues[0].plan[0][0], Some(1));
    assert_eq!(content.mappings[0].couplings, [(0, 1)]);
    assert_eq!(content.mappings[0].multiplex, [0, 1, 0]);
    assert_eq!(content.modes.iter().map(|mode| mode.long_block).collect::<Vec<_>>(), [false, true, false]);
}

#[test]
fn rule_1_a_cut_before_any_field() {
    for &(name, _, width) in base().0.iter().filter(|field| field.2 > 7) {
        let fields = base().up_to(name);
        let refusal = fields.read().expect_err("refused");
        assert_eq!(refusal.number, 1, "{width} bits of {name}");
    }
}

#[test]
fn rule_2_comes_byte_by_byte() {
    for name in ["type", "v", "o", "r", "b", "i", "s"] {
        assert_change_refused(&[(name, 3)], 2, name);
    }
    assert_refused(&base().with(&[("b", 0)]).up_to("i"), 2, "b");
}

#[test]
fn rule_5_framing_bit() {
    assert_change_refused(&[("framing", 0)], 5, "framing");
}

#[test]
fn rule_6_pattern_dimensions_entries_lookup_type() {
    assert_change_refused(&[("pattern 0", 0x56_4343)], 6, "pattern 0");
    assert_change_refused(&[("dimensions 0", 0), ("entries 0", 0)], 6, "dimensions 0");
    assert_change_refused(&[("entries 0", 0)], 6, "entries 0");
    assert_change_refused(&[("lookup 0", 3)], 6, "lookup 0");
}

#[test]
fn rule_6_the_pattern_is_one_field() {
    assert_eq!(
        base().with(&[("pattern 0", 0)]).replacing("pattern 0", "framing", &[("half", 0, 16)]).number(),
        1
    );
}

#[test]
fn rule_6_an_ordered_run_past_the_entries() {
    assert_change_refused(&[("run 1", 5)], 6, "run 1");
    assert_change_refused(&[("run 1", 7)], 6, "run 1");
}

#[test]
fn rule_6_an_ordered_length_above_32_is_judged_before_its_run() {
    let runs = [("first length 1", 31, 5), ("run 1", 0, 3)];
    let fields = base().replacing("first length 1", "framing", &runs);
    assert_refused(&fields, 6, "pattern 1");
}

#[test]
fn a_run_of_0_raises_the_length() {
    let runs = [("first length 1", 0, 5), ("run 1", 0, 3), ("run 2", 4, 3)];
    let fields = base().replacing("first length 1", "run 1", &runs);
    assert_eq!(fields.read(), base().read());
}

#[test]
fn rule_7_a_length_exceeds_the_space() {
    let lengths = [("length", 0, 5), ("length", 0, 5), ("length", 31, 5)];
    let fields = base().with(&[("entries 0", 3)]).replacing("length 0 0", "length 0 1", &lengths);
    assert_refused(&fields, 7, "pattern 0");
}

#[test]
fn rule_7_waits_for_all_lengths() {
    let lengths = [("length", 0, 5), ("length", 0, 5), ("length", 0, 5), ("length", 0, 4)];
    let fields = base().with(&[("entries 0", 9)]).replacing("length 0 0", "framing", &lengths);
    assert_eq!(fields.number(), 1);
}

#[test]
fn rule_8_space_is_left_over() {
    assert_change_refused(&[("length 0 1", 1)], 8, "pattern 0");
    let empty = [("sparse 0", 1, 1), ("used", 0, 1), ("used", 0, 1)];
    assert_refused(&base().replacing("sparse 0", "length 0 1", &empty), 8, "pattern 0");
    let sole_of_2 = [("sparse 0", 1, 1), ("used", 0, 1), ("used", 1, 1), ("length", 1, 5)];
    assert_refused(&base().replacing("sparse 0", "length 0 1", &sole_of_2), 8, "pattern 0");
}

#[test]
fn rule_8_comes_before_the_lookup_type_is_read() {
    assert_refused(&base().with(&[("length 0 1", 1)]).up_to("lookup 0"), 8, "pattern 0");
}

#[test]
fn a_sole_entry_of_length_1_may_stand_anywhere() {
    let sole = [("sparse 0", 1, 1), ("used", 0, 1), ("used", 1, 1), ("length", 0, 5)];
    let fields = base().replacing("sparse 0", "length 0 1", &sole);
    assert_eq!(fields.read().expect("accepted").books[0].lengths(), [0, 1]);
}

#[test]
fn rule_9_fields_that_are_0() {
    for name in ["time", "mapping type", "reserved", "window 1", "transform 2"] {
        assert_change_refused(&[(name, 1)], 9, name);
    }
    assert_change_refused(&[("reserved", 2)], 9, "reserved");
}

#[test]
fn discarded_bytes_and_form_are_no_content() {
    let other = base().with(&[("discarded 0", 0), ("discarded 1", 255)]);
    assert_eq!(other.read(), base().read());
    let cascade = [("cascade flag 1", 1, 1), ("high", 0, 5)];
    assert_eq!(base().replacing("cascade flag 1", "cascade flag 1", &cascade).read(), base().read());
    let times = [("times", 1, 6), ("time", 0, 16), ("time", 0, 16)];
    assert_eq!(base().replacing("times", "time", &times).read(), base().read());
}

#[test]
fn rule_10_floor_and_residue_type() {
    assert_change_refused(&[("floor type", 2)], 10, "floor type");
    assert_change_refused(&[("residue type", 3)], 10, "residue type");
    for residue_type in 0..=2 {
        assert_eq!(base().with(&[("residue type", residue_type)]).number(), 0);
    }
}

#[test]
fn rule_11_numbers_that_are_not_set_up() {
    for name in ["master book", "class book", "plan 0 0"] {
        assert_change_refused(&[(name, 2)], 11, name);
    }
    assert_change_refused(&[("subclass book 0", 3)], 11, "subclass book 0");
    for name in ["submap floor 1", "submap residue 0", "mapping 2"] {
        assert_change_refused(&[(name, 1)], 11, name);
    }
    for name in ["magnitude", "angle"] {
        assert_change_refused(&[(name, 3)], 11, name);
    }
    assert_change_refused(&[("multiplex 2", 2)], 11, "multiplex 2");
}

#[test]
fn rule_11_coupling_of_a_channel_with_itself() {
    assert_change_refused(&[("angle", 0)], 11, "angle");
    let mono = Identity { channels: 1, ..IDENTITY };
    let couplings = [("coupling flag", 1, 1), ("steps", 0, 8)];
    let fields = base().replacing("coupling flag", "angle", &couplings);
    let refusal = setup(&mono, &fields.pack(), &Limits::BASE).expect_err("refused");
    assert_eq!((refusal.number, refusal.place), (11, fields.position("reserved")));
}

#[test]
fn rule_12_equal_x_values() {
    assert_change_refused(&[("x 3", 16)], 12, "floor type");
    assert_change_refused(&[("x 3", 0)], 12, "floor type");
    let no_range = base().with(&[("range bits", 0)]).replacing("x 2", "x 3", &[]);
    assert_refused(&no_range, 12, "floor type");
}

#[test]
fn a_floor_without_partitions_has_two_x_values() {
    let fields = base()
        .with(&[("partitions", 0), ("range bits", 0)])
        .replacing("partition class", "subclass book 1", &[])
        .replacing("x 2", "x 3", &[]);
    assert_eq!(fields.read().expect("accepted").floors[0].x_list(), [0, 1]);
}

#[test]
fn rule_13_begin_above_end() {
    assert_change_refused(&[("begin", 25)], 13, "residue type");
    assert_eq!(base().with(&[("begin", 24)]).number(), 0);
}

#[test]
fn rule_13_classifications_to_the_power_of_the_dimensions() {
    let three: [Field; 6] = [
        ("cascade 0", 1, 3),
        ("cascade flag 0", 0, 1),
        ("cascade 1", 0, 3),
        ("cascade flag 1", 0, 1),
        ("cascade 2", 0, 3),
        ("cascade flag 2", 0, 1),
    ];
    let fields = base().with(&[("classifications", 2)]).replacing("cascade 0", "cascade flag 1", &three);
    assert_refused(&fields, 13, "residue type");
    assert_refused(&fields.clone().with(&[("class book", 1)]), 13, "residue type");
    assert_eq!(base().with(&[("class book", 1)]).number(), 0, "2^2 is 4");
}

#[test]
fn rule_13_a_vector_book_without_values() {
    assert_change_refused(&[("plan 0 0", 0)], 13, "residue type");
}

#[test]
fn rule_13_dimensions_divide_the_partition_size() {
    assert_change_refused(&[("partition size", 8)], 13, "residue type");
}

#[test]
fn rule_11_comes_before_13_in_a_residue() {
    assert_change_refused(&[("begin", 25), ("plan 0 0", 2)], 11, "plan 0 0");
}

#[test]
fn rule_14_floor_type_0_and_too_many_entries() {
    assert_change_refused(&[("floor type", 0)], 14, "floor type");
    assert_change_refused(&[("entries 1", 8_193)], 14, "entries 1");
    assert_refused(&base().with(&[("entries 0", 8_193)]).up_to("ordered 0"), 14, "entries 0");
}

#[test]
fn rule_18_an_unsound_identity_comes_first() {
    let identity = Identity { block_sizes: [100, 128], ..IDENTITY };
    let refusal = setup(&identity, &[], &Limits::BASE).expect_err("refused");
    assert_eq!((refusal.number, refusal.place), (18, 0));
}

#[test]
fn larger_limits_are_a_callers_choice() {
    let limits = Limits { entries_in_a_book: 1, ..Limits::BASE };
    let refusal = setup(&IDENTITY, &base().pack(), &limits).expect_err("refused");
    assert_eq!((refusal.number, refusal.place), (14, base().position("entries 0")));
}
