//! Audio packets that random ones would hardly be, each with the number or the count of words
//! that 01 gives.

use crate::audio::{need, read_any, rooms, tallies, unsound, Case, Held, Reader, MOST_WORDS, TOOL};
use crate::lent::Places;
use crate::library::{Identity, Tally};
use crate::report::Report;
use second::bits::ilog;
use second::book::{lookup1_values, Book, Values};
use second::floor::Floor;
use second::generate::content;
use second::generate::fields::{base, pack, IDENTITY};
use second::generate::packet::AudioWriter;
use second::generate::random::Random;
use second::generate::Stream;
use second::identification;
use second::mapping::{Mapping, Mode, Submap};
use second::residue::{Residue, PASSES};
use second::setup::Setup;
use second::tables::{Tables, COUNT, NEEDS};

pub fn boundaries(random: &mut Random, report: &mut Report) -> Result<(), String> {
    let reader = &mut Reader::new(report);
    modes(reader)?;
    orders(reader)?;
    around_small_packets(random, reader)?;
    tables_and_identities(reader)?;
    lone_entries(random, reader)?;
    ranges(random, reader)?;
    channels_and_submaps(random, reader)?;
    largest(random, reader)?;
    every_cut(random, reader)
}

/// Both sides have to give this number.
fn expect(name: &str, number: u32, case: &Case, reader: &mut Reader) -> Result<(), String> {
    let given = reader.read(case)?.0.refusal;
    let right = given == number;
    right.then_some(()).ok_or(format!("{name}: both give {given}, not {number}"))
}

/// The small setup of the rules' tests.
fn small() -> Result<Setup, String> {
    base().read().map_err(|refusal| format!("{refusal:?}"))
}

/// The small setup's floor in 20 bits: two Y, then the master book's entry 1, so that the
/// first value has no book and the second has book 1; its entry 0.
const FLOOR: [(u32, u32); 5] = [(1, 1), (200, 8), (100, 8), (1, 1), (0, 2)];

/// Packets of the small setup: short with a floor and its residue, long with three floors,
/// short without a floor.
fn small_packets() -> Vec<Vec<u8>> {
    let residue = [(0, 2), (2, 2), (0, 1), (3, 2), (2, 2), (1, 2), (0x5A_A5_C3, 24), (u32::MAX, 32)];
    let short = [&[(0, 1), (0, 2)][..], &FLOOR, &[(0, 2)], &residue].concat();
    let long = [&[(0, 1), (1, 2), (1, 1), (0, 1)][..], &FLOOR, &FLOOR, &FLOOR, &residue].concat();
    vec![pack(&short), pack(&long), pack(&[(0, 1), (2, 2), (0, 3)])]
}

/// Every number of modes; the first, the last, the one behind it and the greatest that its
/// bits can name, with all window flags, whole and cut.
fn modes(reader: &mut Reader) -> Result<(), String> {
    let mut content = small()?;
    for count in 1..=64 {
        content.modes = (0..count).map(|mode| Mode { long_block: mode % 3 != 1, mapping: 0 }).collect();
        let held = &Held::new(&IDENTITY, content.clone());
        let width = ilog(count - 1);
        for mode in [0, count - 1, count, (1 << width) - 1] {
            if mode >> width != 0 {
                continue;
            }
            for flags in 0..4 {
                let packet = pack(&[(0, 1), (mode, width), (flags, 2), (0, 3)]);
                let case = held.case(Tally::default(), &packet, TOOL);
                let number = if mode < count { 0 } else { 16 };
                expect(&format!("mode {mode} of {count}"), number, &case, reader)?;
                reader.read(&Case { packet: &packet[..packet.len() - 1], ..case })?;
            }
        }
    }
    Ok(())
}

/// Faults that compete: 18, then the first in reading order, then 17, then 19 (01, "Order").
fn orders(reader: &mut Reader) -> Result<(), String> {
    let held = &Held::new(&IDENTITY, small()?);
    let zero = &Tables::zero(&NEEDS);
    let packets = small_packets();
    let (audio, comment, mode_3, empty): (_, &[u8], &[u8], &[u8]) = (&packets[0][..], &[1], &[6], &[]);
    let [fresh, unsound] = [(0, 0), (0, 1)].map(|(blocksize, samples)| Tally { blocksize, samples });
    let [full, almost] =
        [u64::MAX, u64::MAX - 32].map(|samples| Tally { blocksize: IDENTITY.block_sizes[0], samples });
    let none = Places { curves: 0, words: 0 };
    let few_words = Places { words: 1, ..TOOL };
    let case = |tally, packet, places| held.case(tally, packet, places);
    let wrong_identity = Identity { rate: 0, ..held.identity };
    let without_identity = |case| Case { identity: wrong_identity, ..case };
    let without_tables = |case| Case { tables: zero, content: None, ..case };
    let cases = [
        ("good", 0, case(fresh, audio, TOOL)),
        ("18 of the identity before 15", 18, without_identity(case(fresh, comment, TOOL))),
        ("18 of the identity before 17", 18, without_identity(case(fresh, audio, none))),
        ("18 of the tables before 1", 18, without_tables(case(fresh, empty, TOOL))),
        ("18 of the tables before 16", 18, without_tables(case(fresh, mode_3, none))),
        ("18 of the tables before 19", 18, without_tables(case(full, audio, TOOL))),
        ("18 of the tally before 1", 18, case(unsound, empty, TOOL)),
        ("18 of the tally before 15", 18, case(unsound, comment, none)),
        ("1 of no bytes before 17", 1, case(fresh, empty, none)),
        ("1 of no bytes before 19", 1, case(full, empty, TOOL)),
        ("15 before 16", 15, case(fresh, &[7], TOOL)),
        ("15 before 17 and 19", 15, case(full, comment, none)),
        ("16 before 17 and 19", 16, case(full, mode_3, none)),
        ("17 of the curves before 19", 17, case(full, audio, none)),
        ("17 of the words before 19", 17, case(full, audio, few_words)),
        ("19", 19, case(full, audio, TOOL)),
        ("19 without a floor", 19, case(full, &[0], Places { words: 0, ..TOOL })),
        ("2^64 - 1", 0, case(almost, audio, TOOL)),
        ("a tally of another size", 18, case(Tally { blocksize: 256, samples: 0 }, audio, TOOL)),
        ("a tally of the long size", 0, case(Tally { blocksize: 128, samples: 5 }, audio, TOOL)),
    ];
    for (name, number, case) in cases {
        expect(name, number, &case, reader)?;
    }
    Ok(())
}

/// The small packets cut at every byte, in all rooms and with all tallies around their needs.
fn around_small_packets(random: &mut Random, reader: &mut Reader) -> Result<(), String> {
    let held = &Held::new(&IDENTITY, small()?);
    for packet in small_packets() {
        for length in 0..=packet.len() {
            reader.read(&held.case(Tally::default(), &packet[..length], TOOL))?;
        }
        let (answer, tally) = reader.read(&held.case(Tally::default(), &packet, TOOL))?;
        let need = need(&held.identity, &answer);
        for curves in need.curves - 2..=need.curves + 2 {
            for words in need.words.saturating_sub(2)..=need.words + 2 {
                reader.read(&held.case(tally, &packet, Places { curves, words }))?;
            }
        }
        for _ in 0..40 {
            rooms(held, tally, &packet, &answer, random, reader)?;
            tallies(held, &packet, &answer, random, reader)?;
            unsound(held, tally, &packet, random, reader)?;
        }
    }
    Ok(())
}

/// Each table too short and longer, all zero, none at all; channels of all numbers.
fn tables_and_identities(reader: &mut Reader) -> Result<(), String> {
    let held = &Held::new(&IDENTITY, small()?);
    let packet = &small_packets()[0];
    let case = held.case(Tally::default(), packet, TOOL);
    for places in [NEEDS, [0; COUNT], NEEDS.map(|need| need + 7)] {
        read_any(&Case { tables: &Tables::zero(&places), ..case }, reader)?;
    }
    for table in 0..COUNT {
        for count in [0, NEEDS[table] - 1, NEEDS[table], NEEDS[table] + 1] {
            let mut places = NEEDS;
            places[table] = count;
            read_any(&Case { tables: &held.tables.clone().resized(&places), ..case }, reader)?;
        }
    }
    for channels in (0..=20).chain([255, 256, 259, 1 << 16 | 3, u32::MAX]) {
        read_any(&Case { identity: Identity { channels, ..held.identity }, ..case }, reader)?;
    }
    Ok(())
}

/// A book with one used entry, the last of so many, and values.
fn lone_book(dimensions: u32, entries: usize) -> Result<Book, String> {
    let mut lengths = vec![0; entries];
    lengths[entries - 1] = 1;
    book(dimensions, lengths)
}

/// A book with values in a lattice.
fn book(dimensions: u32, lengths: Vec<u8>) -> Result<Book, String> {
    let multiplicands = vec![0; lookup1_values(lengths.len() as u32, dimensions) as usize];
    let values = Values { lookup_type: 1, minimum: 0, delta: 0, width: 1, sequence: false, multiplicands };
    Book::new(dimensions, lengths, Some(values)).map_err(|verdict| format!("{verdict:?}"))
}

/// Two points and no partition: a flag, then two Y of 8 bits.
fn plain_floor() -> Result<Floor, String> {
    Floor::new(Vec::new(), Vec::new(), 1, 7, vec![0, 128]).ok_or("no floor".into())
}

/// A residue whose partitions and vectors come from lone entries, and the words it asks for.
struct Lone {
    residue_type: u32,
    end: u32,
    partition_size: u32,
    class_dimensions: u32,
    passes: usize,
    vector_dimensions: u32,
    words: usize,
}

/// Class words alone, as many as eight channels of the largest block can have.
const CLASS_WORDS: Lone = Lone {
    residue_type: 2,
    end: 0xFF_FFFF,
    partition_size: 1,
    class_dimensions: 1,
    passes: 0,
    vector_dimensions: 1,
    words: 32_768,
};

/// The tool's places and one more, in several ways, and the most there are.
const LONE: [Lone; 15] = [
    CLASS_WORDS,
    Lone { end: 32_768, ..CLASS_WORDS },
    Lone { end: 16_384, words: 16_384, ..CLASS_WORDS },
    Lone { end: 16_385, words: 16_385, ..CLASS_WORDS },
    Lone { end: 8_192, passes: 1, words: 16_384, ..CLASS_WORDS },
    Lone { end: 16_383, class_dimensions: 65_535, passes: 1, words: 16_384, ..CLASS_WORDS },
    Lone { end: 16_384, class_dimensions: 65_535, passes: 1, words: 16_385, ..CLASS_WORDS },
    Lone { partition_size: 32_768, passes: 1, words: 32_769, ..CLASS_WORDS },
    Lone { end: 24_576, partition_size: 3, passes: 1, vector_dimensions: 3, words: 16_384, ..CLASS_WORDS },
    Lone { end: 24_579, partition_size: 3, passes: 1, vector_dimensions: 3, words: 16_386, ..CLASS_WORDS },
    Lone { partition_size: 1 << 24, passes: 8, words: 0, ..CLASS_WORDS },
    Lone { residue_type: 0, end: 2_048, words: 16_384, ..CLASS_WORDS },
    Lone { residue_type: 0, passes: 8, words: MOST_WORDS, ..CLASS_WORDS },
    Lone { residue_type: 1, passes: 8, words: MOST_WORDS, ..CLASS_WORDS },
    Lone { passes: 8, words: MOST_WORDS, ..CLASS_WORDS },
];

/// Eight channels, blocks of 8,192 alone.
const LARGE: identification::Identity =
    identification::Identity { channels: 8, block_sizes: [8_192, 8_192], ..IDENTITY };

/// A lone entry takes one bit, whatever it is: a packet asks for as many places as it has bits
/// behind the floors, up to what the residue asks for, and a missing bit ends it. Where it is
/// cut in a floor, it asks for none.
fn lone_entries(random: &mut Random, reader: &mut Reader) -> Result<(), String> {
    for lone in &LONE {
        for (entries, used) in [(1, 8), (3, 1)] {
            let held = &Held::new(&LARGE, lone.content(entries)?);
            let floors = floors_of_eight(used);
            let bits: usize = floors.iter().map(|&(_, width)| width as usize).sum();
            let words = random.bytes(lone.words / 8 + 2).into_iter().map(|byte| (byte.into(), 8));
            let packet = pack(&floors.into_iter().chain(words).collect::<Vec<_>>());
            let (first, last) = (bits.div_ceil(8), (bits + lone.words).div_ceil(8));
            for length in [first, first + 1, last - 1, last, last + 1] {
                let words = lone.words.min((8 * length).saturating_sub(bits));
                lone_words(held, &packet[..length], words, reader)?;
            }
            for length in 1..first {
                let case = held.case(Tally::default(), &packet[..length], Places { words: 0, ..TOOL });
                expect("lone entries behind a cut floor", 0, &case, reader)?;
            }
        }
    }
    Ok(())
}

/// The packet has so many codewords: accepted with room for them, and 17 with less.
fn lone_words(held: &Held, packet: &[u8], words: usize, reader: &mut Reader) -> Result<(), String> {
    let rooms = [words, words + 1, words.saturating_sub(1), TOOL.words, TOOL.words + 1, 0, MOST_WORDS];
    for room in rooms {
        let case = held.case(Tally::default(), packet, Places { words: room, ..TOOL });
        let (answer, _) = reader.read(&case)?;
        let right = if room < words { (17, 0) } else { (0, words as u64) };
        if (answer.refusal, answer.codewords) != right {
            let given = (answer.refusal, answer.codewords);
            return Err(format!("{words} lone entries in room for {room}: both give {given:?}"));
        }
    }
    Ok(())
}

/// A packet's fields up to its residue: the type, both window flags, and the floors of eight
/// channels, of which the first so many are used.
fn floors_of_eight(used: u32) -> Vec<(u32, u32)> {
    let floors = (0..8).flat_map(|channel| match channel < used {
        true => vec![(1, 1), (17 * channel, 8), (255 - channel, 8)],
        false => vec![(0, 1)],
    });
    [(0, 1), (3, 2)].into_iter().chain(floors).collect()
}

impl Lone {
    /// One submap whose channels are all coupled to the first, with a lone entry of so many.
    fn content(&self, entries: usize) -> Result<Setup, String> {
        let row = std::array::from_fn(|pass| (pass < self.passes).then_some(1));
        Ok(Setup {
            books: vec![lone_book(self.class_dimensions, entries)?, lone_book(self.vector_dimensions, 1)?],
            floors: vec![plain_floor()?],
            residues: vec![Residue {
                residue_type: self.residue_type,
                begin: 0,
                end: self.end,
                partition_size: self.partition_size,
                class_book: 0,
                plan: vec![row],
            }],
            mappings: vec![Mapping {
                couplings: (1..8).map(|channel| (channel - 1, channel)).collect(),
                multiplex: Vec::new(),
                submaps: vec![Submap { floor: 0, residue: 0 }],
            }],
            modes: vec![Mode { long_block: true, mapping: 0 }],
        })
    }
}

/// Begin and end on both sides of half a block and of a submap's whole size, with class words
/// of one bit: one for each partition.
fn ranges(random: &mut Random, reader: &mut Reader) -> Result<(), String> {
    let identity = &identification::Identity { channels: 4, block_sizes: [64, 64], ..IDENTITY };
    let floors = [(0, 1), (0, 2), (1, 1), (9, 8), (99, 8), (0, 1), (1, 1), (7, 8), (77, 8), (0, 1)];
    let packet = [pack(&floors), random.bytes(16)].concat();
    let bounds = [0, 1, 31, 32, 33, 63, 64, 65, 127, 128, 129, 0xFF_FFFF];
    for residue_type in 0..3 {
        // One vector of four channels, or two vectors, which are live.
        let (size, vectors) = if residue_type == 2 { (128, 1) } else { (32, 2) };
        for begin in bounds {
            for end in bounds.into_iter().filter(|&end| end >= begin) {
                for partition_size in [1, 3] {
                    let range = Residue { begin, end, partition_size, ..lone_residue(residue_type) };
                    let held = &Held::new(identity, one_of_each(range)?);
                    let partitions = (end.min(size) - begin.min(size)) / partition_size;
                    let (answer, _) = reader.read(&held.case(Tally::default(), &packet, TOOL))?;
                    if answer.codewords != u64::from(vectors * partitions) {
                        return Err(format!("both read {} words in {begin} to {end}", answer.codewords));
                    }
                }
            }
        }
    }
    Ok(())
}

/// Class words of book 0 alone.
fn lone_residue(residue_type: u32) -> Residue {
    Residue { residue_type, begin: 0, end: 0, partition_size: 1, class_book: 0, plan: vec![[None; PASSES]] }
}

/// One long mode, one submap, nothing coupled, one lone entry.
fn one_of_each(residue: Residue) -> Result<Setup, String> {
    Ok(Setup {
        books: vec![lone_book(1, 1)?],
        floors: vec![plain_floor()?],
        residues: vec![residue],
        mappings: vec![mapping(Vec::new(), Vec::new())],
        modes: vec![Mode { long_block: true, mapping: 0 }],
    })
}

/// Four channels of which any may have a floor, coupled in chains, in submaps of which some
/// have no channel, by each type of residue.
fn channels_and_submaps(random: &mut Random, reader: &mut Reader) -> Result<(), String> {
    let identity = &identification::Identity { channels: 4, ..IDENTITY };
    let chains = [
        vec![],
        vec![(0, 1), (1, 2), (2, 3)],
        vec![(2, 3), (1, 2), (0, 1)],
        vec![(1, 0), (3, 2), (1, 3), (1, 0), (0, 2)],
        (0..256).map(|step| if step < 255 { (3, 1) } else { (1, 2) }).collect(),
    ];
    let multiplexes = [vec![], vec![0, 1, 0, 1], vec![2, 1, 0, 1], vec![14; 4], vec![7, 0, 7, 14]];
    for couplings in chains {
        for multiplex in &multiplexes {
            for residue_type in 0..3 {
                let mapping = mapping(couplings.clone(), multiplex.clone());
                let held = &Held::new(identity, chained(residue_type, mapping)?);
                for used in 0..16 {
                    let packet = with_floors(used, random);
                    let room = Places { words: 400, ..TOOL };
                    let (answer, tally) = reader.read(&held.case(Tally::default(), &packet, room))?;
                    rooms(held, tally, &packet, &answer, random, reader)?;
                    for most in [packet.len(), packet.len().min(9)] {
                        reader.read(&held.case(tally, &packet[..random.place(most)], room))?;
                    }
                }
            }
        }
    }
    Ok(())
}

fn mapping(couplings: Vec<(u8, u8)>, multiplex: Vec<u8>) -> Mapping {
    let count = multiplex.iter().max().map_or(1, |&last| last + 1);
    let submaps = (0..count).map(|submap| Submap { floor: 0, residue: submap % 3 }).collect();
    Mapping { couplings, multiplex, submaps }
}

/// Three residues of one type. The first has class words of two digits, and two vector books
/// in pass 0, so that the order of partitions and vectors shows; so has the last, which begins
/// late and ends past every block. The one between them has lone entries alone.
fn chained(residue_type: u32, mapping: Mapping) -> Result<Setup, String> {
    let mut plan = vec![[None; PASSES]; 2];
    plan[0][0] = Some(1);
    plan[1][0] = Some(3);
    plan[1][1] = Some(1);
    plan[1][7] = Some(3);
    let mut lone_plan = vec![[None; PASSES]];
    lone_plan[0][2] = Some(2);
    let first = Residue { residue_type, begin: 3, end: 61, partition_size: 8, class_book: 0, plan };
    let lone = Residue { class_book: 2, plan: lone_plan, ..first.clone() };
    let last = Residue { begin: 20, end: 0xFF_FFFF, partition_size: 6, ..first.clone() };
    let vector_books = [book(2, vec![1, 2, 3, 3])?, lone_book(4, 2)?, book(1, vec![3, 2, 3, 2, 2])?];
    Ok(Setup {
        books: [vec![book(2, vec![2, 2, 3, 3, 2])?], vector_books.to_vec()].concat(),
        floors: vec![plain_floor()?],
        residues: vec![first, lone, last],
        mappings: vec![mapping],
        modes: vec![Mode { long_block: true, mapping: 0 }],
    })
}

/// A packet with floors for the channels whose bit is set, then up to 90 bytes of residue.
fn with_floors(used: u32, random: &mut Random) -> Vec<u8> {
    let mut fields = vec![(0, 1), (random.below(4), 2)];
    for channel in 0..4 {
        match used >> channel & 1 {
            1 => fields.extend([(1, 1), (random.below(256), 8), (random.below(256), 8)]),
            _ => fields.push((0, 1)),
        }
    }
    fields.extend((0..random.below(91)).map(|_| (random.below(256), 8)));
    pack(&fields)
}

/// Packets of the largest setup of all channels.
fn largest(random: &mut Random, reader: &mut Reader) -> Result<(), String> {
    for channels in 1..=8 {
        let identity = &identification::Identity { channels, ..IDENTITY };
        let content = content::largest_setup(random, identity);
        let held = &Held::new(identity, content.clone());
        let writer = AudioWriter::new(identity, &content);
        let mut tally = Tally::default();
        for _ in 0..8 {
            let packet = writer.packet(random).written.bytes;
            let (answer, after) = reader.read(&held.case(tally, &packet, TOOL))?;
            rooms(held, tally, &packet, &answer, random, reader)?;
            unsound(held, tally, &packet, random, reader)?;
            tally = after;
        }
    }
    Ok(())
}

/// Small packets of random streams, cut after every byte.
fn every_cut(random: &mut Random, reader: &mut Reader) -> Result<(), String> {
    let mut packets = 0;
    while packets < 40 {
        let stream = Stream::new(random.next_u64());
        let held = &Held::new(&stream.identity, stream.content);
        for packet in &stream.audio {
            let bytes = &packet.written.bytes;
            if (20..300).contains(&bytes.len()) {
                let room = Places { words: packet.words.len().max(2_000), ..TOOL };
                for length in 0..=bytes.len() {
                    reader.read(&held.case(Tally::default(), &bytes[..length], room))?;
                }
                packets += 1;
            }
        }
    }
    Ok(())
}
