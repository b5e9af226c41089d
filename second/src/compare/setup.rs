//! The setup call: its number and every place of the ten tables, zeros on a refusal.

use crate::identification::in_library_form;
use crate::lent::{filling, Rooms};
use crate::library::{self, Identity};
use crate::report::{hex, Answer, Call, Given, Report};
use crate::{codeword, setup_sound, sound};
use second::book::PATTERN;
use second::generate::fields::{base, Field, Fields, IDENTITY};
use second::generate::random::Random;
use second::generate::{content, flipped, spoilt, with_faults};
use second::limits::Limits;
use second::setup::{setup, Setup};
use second::tables::{tables, Tables, COUNT, NAMES, NEEDS};
use second::write::{write_setup, Written};

/// What both sides said to a packet.
#[derive(Debug)]
pub struct Said {
    pub number: u32,
    pub content: Option<Setup>,
}

/// The second program's answer: 18 before 17, 17 before anything in the packet.
fn second_answer(identity: &Identity, packet: &[u8], places: &[usize; COUNT]) -> Result<Setup, u32> {
    let identity = sound::if_sound(identity).ok_or(18u32)?;
    if places.iter().zip(&NEEDS).any(|(places, need)| places < need) {
        return Err(17);
    }
    setup(&identity, packet, &Limits::BASE).map_err(|refusal| refusal.number.into())
}

/// Hands one packet to both, with tables of so many places.
pub fn packet_into(
    identity: Identity,
    packet: &[u8],
    places: &[usize; COUNT],
    rooms: &mut Rooms,
    report: &mut Report,
) -> Result<Said, String> {
    let number = library::setup(identity, packet, rooms.lend(places, filling(packet)));
    let (second_number, content) = match second_answer(&identity, packet, places) {
        Ok(content) => (0, Some(content)),
        Err(number) => (number, None),
    };
    let expected = content.as_ref().map_or_else(|| Tables::zero(&[0; COUNT]), tables);
    let library = Given { answer: Answer::Number(number), left: rooms.differences(&expected) };
    let second = Given { answer: Answer::Number(second_number), left: Vec::new() };
    let input = || format!("{identity:?} packet {} into {}", hex(packet, 2), other_places(places));
    report.compare(Call::Setup, &library, &second, input)?;
    Ok(Said { number, content })
}

/// The numbers of places that are not the need.
fn other_places(places: &[usize; COUNT]) -> String {
    let others = NAMES.iter().zip(places).zip(&NEEDS).filter(|((_, places), need)| places != need);
    let others: Vec<String> = others.map(|((name, places), _)| format!("{name} {places}")).collect();
    format!("places [{}]", others.join(", "))
}

/// Hands one packet to both with tables of the fixed need.
fn packet(identity: Identity, packet: &[u8], rooms: &mut Rooms, report: &mut Report) -> Result<Said, String> {
    packet_into(identity, packet, &NEEDS, rooms, report)
}

/// One round: a random setup as it is, into other rooms, for other identities, and spoilt;
/// then its tables and its books.
pub fn round(random: &mut Random, report: &mut Report) -> Result<(), String> {
    let rooms = &mut Rooms::default();
    let identity = content::identity(random);
    let content = content::setup(random, &identity);
    let written = write_setup(&content, identity.channels, random);
    let form = in_library_form(&identity);
    around(form, &written.bytes, random, rooms, report)?;
    for spoilt in some(spoilt(&written, random), 80, random) {
        packet(form, &spoilt, rooms, report)?;
    }
    for _ in 0..30 {
        packet(form, &with_faults(&written, random), rooms, report)?;
        packet(form, &with_faults(&small(), random), rooms, report)?;
    }
    setup_sound::around(form, &content, 40, random, report)?;
    codeword::around(form, &content, 40, random, report)
}

/// So many of a list, picked at random, or all of a shorter one.
pub fn some<T>(mut list: Vec<T>, most: usize, random: &mut Random) -> Vec<T> {
    random.shuffle(&mut list);
    list.truncate(most);
    list
}

/// A packet as it is, with tables longer and shorter than the need, for unsound identities
/// and for others; cut, and with bits flipped. Gives the content.
pub fn around(
    identity: Identity,
    bytes: &[u8],
    random: &mut Random,
    rooms: &mut Rooms,
    report: &mut Report,
) -> Result<Option<Setup>, String> {
    let whole = packet(identity, bytes, rooms, report)?;
    let longer = NEEDS.map(|need| need + random.place(4) * random.place(40));
    packet_into(identity, bytes, &longer, rooms, report)?;
    let mut short = if random.one_in(2) { NEEDS } else { longer };
    let table = random.place(COUNT);
    short[table] = if random.one_in(3) { random.place(NEEDS[table]) } else { NEEDS[table] - 1 };
    packet_into(identity, bytes, &short, rooms, report)?;
    let mut changed = identity;
    sound::change(&mut changed, random);
    packet_into(changed, bytes, random.pick(&[NEEDS, short, longer]), rooms, report)?;
    for _ in 0..2 {
        packet(Identity { channels: random.between(1, 8), ..identity }, bytes, rooms, report)?;
    }
    for _ in 0..2 {
        packet(identity, &bytes[..random.place(bytes.len())], rooms, report)?;
        packet(identity, &flipped(bytes, random), rooms, report)?;
    }
    Ok(whole.content)
}

/// The small setup of the rules' tests.
fn small() -> Written {
    let mut writer = second::write::BitWriter::default();
    for &(_, value, width) in &base().0 {
        writer.field(value, width);
    }
    writer.finish()
}

/// What random packets would hardly be, each with the number that 01 gives.
pub fn boundaries(random: &mut Random, report: &mut Report) -> Result<(), String> {
    let rooms = &mut Rooms::default();
    every_field(random, rooms, report)?;
    rooms_and_identities(rooms, report)?;
    for (name, fields, number) in sizes().into_iter().chain(orders()) {
        expect(name, &fields.pack(), number, rooms, report)?;
    }
    largest(random, rooms, report)?;
    every_cut(random, rooms, report)?;
    setup_sound::boundaries(random, report)
}

/// The second program has to give this number, and the library the same answer.
fn expect(
    name: &str,
    bytes: &[u8],
    number: u32,
    rooms: &mut Rooms,
    report: &mut Report,
) -> Result<(), String> {
    let given = packet(in_library_form(&IDENTITY), bytes, rooms, report)?.number;
    if given == number {
        return Ok(());
    }
    Err(format!("{name}: both give {given}, not {number}: {}", hex(bytes, 2)))
}

/// Each field of the small setup with other values, whole and cut around the field's end.
fn every_field(random: &mut Random, rooms: &mut Rooms, report: &mut Report) -> Result<(), String> {
    let identity = in_library_form(&IDENTITY);
    let written = &small();
    for (&field, &(_, value, width)) in written.fields.iter().zip(&base().0) {
        let behind = (field.position + width as usize) / 8;
        for value in [0, u32::MAX, value.wrapping_add(1), value.wrapping_sub(1), random.next_u64() as u32] {
            let changed = written.with_field(field, value);
            packet(identity, &changed, rooms, report)?;
            for length in [behind - 1, behind, behind + 1] {
                packet(identity, &changed[..length.min(changed.len())], rooms, report)?;
            }
        }
    }
    Ok(())
}

/// Each table one place short, none at all, and longer; unsound identities before all.
fn rooms_and_identities(rooms: &mut Rooms, report: &mut Report) -> Result<(), String> {
    let identity = in_library_form(&IDENTITY);
    let unsound = Identity { rate: 0, ..identity };
    let whole = &small().bytes[..];
    for bytes in [whole, &whole[..40], &[]] {
        for table in 0..COUNT {
            for places in [0, NEEDS[table] - 1, NEEDS[table], NEEDS[table] + 1, 2 * NEEDS[table]] {
                let mut all = NEEDS;
                all[table] = places;
                packet_into(identity, bytes, &all, rooms, report)?;
                packet_into(unsound, bytes, &all, rooms, report)?;
            }
        }
        packet_into(identity, bytes, &[0; COUNT], rooms, report)?;
        packet_into(unsound, bytes, &[0; COUNT], rooms, report)?;
        for channels in 0..=20 {
            packet(Identity { channels, ..identity }, bytes, rooms, report)?;
        }
    }
    Ok(())
}

/// The largest setup of all channels: as it is, with a bit flipped, its tables changed.
fn largest(random: &mut Random, rooms: &mut Rooms, report: &mut Report) -> Result<(), String> {
    for channels in 1..=8 {
        let identity = second::identification::Identity { channels, ..IDENTITY };
        let content = content::largest_setup(random, &identity);
        let bytes = write_setup(&content, channels, random).bytes;
        let identity = in_library_form(&identity);
        around(identity, &bytes, random, rooms, report)?;
        for _ in 0..4 {
            packet(identity, &flipped(&bytes, random), rooms, report)?;
        }
        setup_sound::around(identity, &content, 20, random, report)?;
        setup_sound::last_book(identity, &content, report)?;
        codeword::around(identity, &content, 20, random, report)?;
    }
    Ok(())
}

/// The small setup and two random ones, cut after every byte.
fn every_cut(random: &mut Random, rooms: &mut Rooms, report: &mut Report) -> Result<(), String> {
    let mut setups = vec![(in_library_form(&IDENTITY), small().bytes)];
    while setups.len() < 3 {
        let identity = content::identity(random);
        let content = content::setup(random, &identity);
        let bytes = write_setup(&content, identity.channels, random).bytes;
        if (200..800).contains(&bytes.len()) {
            setups.push((in_library_form(&identity), bytes));
        }
    }
    for (identity, bytes) in setups {
        for length in 0..=bytes.len() {
            packet(identity, &bytes[..length], rooms, report)?;
        }
    }
    Ok(())
}

type Case = (&'static str, Fields, u32);

/// A book of ordered lengths that fill the space, up to its lookup type.
fn ordered_book(dimensions: u32, entries: u32) -> Vec<Field> {
    let depth = entries.ilog2();
    let short = (2 << depth) - entries;
    let mut fields = vec![
        ("pattern", PATTERN, 24),
        ("dimensions", dimensions, 16),
        ("entries", entries, 24),
        ("ordered", 1, 1),
        ("first length", depth.max(1) - 1, 5),
    ];
    if entries > 1 {
        fields.push(("run", short, second::bits::ilog(entries)));
    }
    match entries - short.min(entries) {
        _ if entries == 1 => fields.push(("run", 1, 1)),
        0 => {}
        rest => fields.push(("run", rest, second::bits::ilog(rest))),
    }
    fields
}

/// The same without values, with a lookup table of this type, or up to its multiplicands.
fn book(dimensions: u32, entries: u32, lookup_type: u32, multiplicands: u32) -> Vec<Field> {
    let mut fields = ordered_book(dimensions, entries);
    fields.push(("lookup", lookup_type, 4));
    if lookup_type != 0 {
        fields.extend([("minimum", 1, 32), ("delta", 2, 32), ("width", 3, 4), ("sequence", 0, 1)]);
        fields.extend((0..multiplicands).map(|number| ("multiplicand", number % 16, 4)));
    }
    fields
}

/// The small setup with these books behind its own, which have 6 entries and 2
/// multiplicands; what follows is the same.
fn with_books(books: &[Vec<Field>]) -> Fields {
    let mut fields = base().with(&[("books", 1 + books.len() as u32)]);
    let place = fields.0.iter().position(|field| field.0 == "times").unwrap_or(0);
    fields.0.splice(place..place, books.concat());
    fields
}

/// The same, ending behind the books.
fn ending_with_books(books: &[Vec<Field>]) -> Fields {
    with_books(books).up_to("times")
}

/// The small setup with one floor of so many explicit X values, the last partition of
/// another class.
fn with_x_values(explicit: u32) -> Fields {
    let (partitions, rest) = ((explicit - 1) / 8, (explicit - 1) % 8);
    let classes = (0..=partitions).map(|partition| ("class", u32::from(partition == partitions), 4));
    let class =
        |dimensions| [("dimensions", dimensions, 3), ("subclass bits", 0, 2), ("subclass book", 0, 8)];
    let mut floor = vec![("partitions", partitions + 1, 5)];
    floor.extend(classes);
    floor.extend(class(7));
    floor.extend(class(rest));
    floor.extend([("multiplier", 2, 2), ("range bits", 8, 4)]);
    floor.extend((0..explicit).map(|number| ("x", 1 + (37 * number) % 255, 8)));
    base().replacing("partitions", "x 3", &floor)
}

/// Ends so many X values after the range bits.
fn ending_in_x(explicit: u32, read: usize) -> Fields {
    let mut fields = with_x_values(explicit);
    let place = fields.0.iter().position(|field| field.0 == "x").unwrap_or(0);
    fields.0.truncate(place + read);
    fields
}

/// Both sides of every size.
fn sizes() -> Vec<Case> {
    let large = || book(1, 8_192, 0, 0);
    vec![
        ("8,192 entries", with_books(&[large()]), 0),
        ("8,193 entries", with_books(&[book(1, 8_193, 0, 0)]), 14),
        ("8,193 entries at a cut", ending_with_books(&[ordered_book(1, 8_193)[..3].to_vec()]), 14),
        ("8,192 entries at a cut", ending_with_books(&[ordered_book(1, 8_192)[..3].to_vec()]), 1),
        (
            "0xFFFFFF entries",
            ending_with_books(&[vec![("p", PATTERN, 24), ("d", 1, 16), ("e", 0xFF_FFFF, 24)]]),
            14,
        ),
        ("16,384 entries", with_books(&[large(), book(1, 8_186, 0, 0)]), 0),
        ("16,385 entries", with_books(&[large(), book(1, 8_187, 0, 0)]), 14),
        ("16,384 entries and one book", with_books(&[large(), book(1, 8_186, 0, 0), book(1, 1, 0, 0)]), 14),
        ("16,385 entries at a cut", ending_with_books(&[large(), ordered_book(1, 8_187)[..3].to_vec()]), 14),
        ("16,384 multiplicands, type 2", with_books(&[book(8_191, 2, 2, 16_382)]), 0),
        ("16,384 multiplicands, one entry", with_books(&[book(16_382, 1, 2, 16_382)]), 0),
        ("16,385 multiplicands, one entry", with_books(&[book(16_383, 1, 2, 16_383)]), 14),
        ("16,386 multiplicands", with_books(&[book(8_192, 2, 2, 16_384)]), 14),
        ("16,385 multiplicands at a cut", ending_with_books(&[book(16_383, 1, 2, 0)]), 14),
        ("16,384 multiplicands at a cut", ending_with_books(&[book(16_382, 1, 2, 0)]), 1),
        ("16,384 and one of type 1", with_books(&[book(8_191, 2, 2, 16_382), book(9, 2, 1, 1)]), 14),
        ("16,383 and one of type 1", with_books(&[book(16_381, 1, 2, 16_381), book(9, 2, 1, 1)]), 0),
        ("type 1 in one dimension", with_books(&[book(1, 8_192, 1, 8_192), book(1, 8_186, 1, 8_186)]), 0),
        ("65,535 dimensions of 8,192", ending_with_books(&[book(65_535, 8_192, 2, 0)]), 14),
        ("65,535 dimensions, type 1", with_books(&[book(65_535, 8_192, 1, 1)]), 0),
        ("81 entries in 4 dimensions", with_books(&[book(4, 81, 1, 3)]), 0),
        ("80 entries in 4 dimensions", with_books(&[book(4, 80, 1, 2)]), 0),
        ("65 X values", with_x_values(63), 0),
        ("66 X values", with_x_values(64), 12),
        ("66 X values at a cut", ending_in_x(64, 63), 12),
        ("66 X values at an earlier cut", ending_in_x(64, 60), 1),
        ("65 X values at a cut", ending_in_x(63, 61), 1),
        ("an X equal to another", base().with(&[("x 3", 16)]), 12),
        ("an X equal to 0", base().with(&[("x 2", 0)]), 12),
        ("equal X at a cut", base().with(&[("x 3", 16)]).up_to("residues"), 12),
        ("equal X, the second cut", base().with(&[("x 2", 0)]).up_to("x 2"), 1),
        ("range bits 0", base().with(&[("range bits", 0)]).replacing("x 2", "x 3", &[]), 12),
    ]
}

/// Faults that compete: the first in reading order counts, with the exceptions of 01.
fn orders() -> Vec<Case> {
    let changed = |changes: &[(&str, u32)]| base().with(changes);
    let overfull = [("length", 0, 5), ("length", 0, 5), ("length", 31, 5)];
    let overfull = || changed(&[("entries 0", 3)]).replacing("length 0 0", "length 0 1", &overfull);
    let runs = |entries, runs: &[Field]| {
        changed(&[("entries 1", entries)]).replacing("first length 1", "run 1", runs)
    };
    let second_residue = |begin, kind| {
        let mut fields = base().with(&[("residues", 1), ("begin", begin)]);
        let place = fields.0.iter().position(|field| field.0 == "mappings").unwrap_or(0);
        fields.0.insert(place, ("second type", kind, 16));
        fields.0.truncate(place + 1);
        fields
    };
    vec![
        ("7 before 6", overfull().with(&[("lookup 0", 3)]), 7),
        ("7 at the lookup's cut", overfull().up_to("lookup 0"), 7),
        ("1 before 7", overfull().with(&[("entries 0", 9)]).up_to("lookup 0"), 1),
        ("8 before 6", changed(&[("length 0 1", 1), ("lookup 0", 3)]), 8),
        ("8 at the lookup's cut", changed(&[("length 0 1", 1)]).up_to("lookup 0"), 8),
        ("6 of a run before 7", runs(5, &[("f", 0, 5), ("r", 3, 3), ("r", 3, 2)]), 6),
        ("7 where runs end", runs(5, &[("f", 0, 5), ("r", 3, 3), ("r", 2, 2)]), 7),
        ("6 of a length before 7", runs(5, &[("f", 31, 5), ("r", 3, 3)]), 6),
        ("6 of a length at a cut", runs(5, &[("f", 31, 5), ("r", 3, 3)]).up_to("lookup 1"), 6),
        ("length 32 with all entries", runs(5, &[("f", 31, 5), ("r", 5, 3)]), 8),
        ("6 before 14", changed(&[("dimensions 0", 0), ("entries 0", 8_193)]), 6),
        ("6 of 0 entries", changed(&[("entries 0", 0), ("ordered 0", 1)]), 6),
        ("14 before 6", changed(&[("entries 0", 8_193), ("lookup 0", 3)]), 14),
        ("2 before 6", changed(&[("s", 0), ("pattern 0", 0)]), 2),
        ("11 before 13", changed(&[("begin", 25), ("plan 0 0", 2)]), 11),
        ("11 of the class book before 13", changed(&[("begin", 25), ("class book", 2)]), 11),
        ("13 before 11", changed(&[("begin", 25), ("angle", 0)]), 13),
        ("13 before 10", second_residue(25, 3), 13),
        ("10 behind a good residue", second_residue(24, 3), 10),
        ("1 before 13", changed(&[("begin", 25)]).up_to("plan 0 0"), 1),
        ("13 at a cut", changed(&[("begin", 25)]).up_to("mappings"), 13),
        ("12 before 13", changed(&[("x 3", 16), ("begin", 25)]), 12),
        ("11 before 12", changed(&[("master book", 2), ("x 3", 16)]), 11),
        ("9 before 14", changed(&[("time", 1), ("floor type", 0)]), 9),
        ("14 at a cut", changed(&[("floor type", 0)]).up_to("partitions"), 14),
        ("10 at a cut", changed(&[("floor type", 2)]).up_to("partitions"), 10),
        ("11 of the magnitude at a cut", changed(&[("magnitude", 3)]).up_to("reserved"), 11),
        ("11 before 9", changed(&[("angle", 0), ("reserved", 1)]), 11),
        ("9 before 11", changed(&[("reserved", 1), ("multiplex 0", 2)]), 9),
        ("9 before 5", changed(&[("transform 2", 1), ("framing", 0)]), 9),
        ("11 before 5", changed(&[("mapping 2", 1), ("framing", 0)]), 11),
        ("5", changed(&[("framing", 0)]), 5),
        ("good", base(), 0),
    ]
}
