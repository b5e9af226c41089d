//! The recogniser of tables: those of good content, with one place changed, and those of
//! content that meets some rule no longer.

use crate::identification::in_library_form;
use crate::library::{self, Identity};
use crate::report::{Answer, Call, Given, Report};
use crate::sound;
use second::book::{sole_entry, Book, Values};
use second::floor::Floor;
use second::generate::fields::{base, IDENTITY};
use second::generate::random::Random;
use second::recognise::recognise;
use second::setup::Setup;
use second::space::CodeSpace;
use second::tables::{
    tables, Tables, BOOK_ROW, BOOK_SOLE_ENTRY, CLASS_ROW, CLASS_SUBCLASSES, COUNT, FLOOR_CLASSES, FLOOR_ROW,
    MAPPING_ROW, MODE_ROW, NAMES, NEEDS, PLAN_ROW, RESIDUE_ROW,
};

/// Most entries and most multiplicands of a setup (01, row 14).
const MOST: usize = 16_384;

/// Hands tables to both and gives the answer.
fn ask(
    identity: Identity,
    tables: &Tables,
    report: &mut Report,
    what: impl FnOnce() -> String,
) -> Result<bool, String> {
    let second = sound::if_sound(&identity).is_some_and(|identity| recognise(&identity, tables).is_some());
    let given = |sound| Given { answer: Answer::Holds(sound), left: () };
    let library = given(library::setup_sound(identity, tables));
    let input = || format!("{identity:?}, {}\n  {}", what(), in_words(tables));
    report.compare(Call::SetupSound, &library, &given(second), input)?;
    Ok(second)
}

/// Hands tables to both, which have to give this answer.
fn expect(
    good: bool,
    identity: Identity,
    tables: &Tables,
    report: &mut Report,
    what: impl Fn() -> String,
) -> Result<(), String> {
    let answer = ask(identity, tables, report, &what)?;
    if answer == good {
        Ok(())
    } else {
        Err(format!("both sides answer {answer} to {}", what()))
    }
}

/// Each table up to its last number that is not 0.
pub fn in_words(tables: &Tables) -> String {
    let words = tables.places().into_iter().zip(NAMES).enumerate().map(|(table, (places, name))| {
        let end =
            (0..places).rev().find(|&place| tables.number(table, place) != 0).map_or(0, |last| last + 1);
        let numbers: Vec<String> =
            (0..end).map(|place| format!("{:x}", tables.number(table, place))).collect();
        format!("{name} of {places} [{}]", numbers.join(" "))
    });
    words.collect::<Vec<String>>().join("\n  ")
}

/// The tables of a content: as they are, for other identities, of other lengths, with one
/// place changed so many times; then those of other contents.
pub fn around(
    identity: Identity,
    content: &Setup,
    times: u32,
    random: &mut Random,
    report: &mut Report,
) -> Result<(), String> {
    let exact = &mut tables(content);
    ask(identity, exact, report, || "tables of a setup".into())?;
    let mut changed = identity;
    sound::change(&mut changed, random);
    for other in [Identity { channels: random.between(1, 8), ..identity }, changed] {
        ask(other, exact, report, || "another identity".into())?;
    }
    other_lengths(identity, exact, random, report)?;
    sole_entries(identity, exact, content, random, report)?;
    for _ in 0..times {
        change_and_ask(identity, exact, content, random, report)?;
    }
    for _ in 0..times {
        let Some(other) = other_content(content, random) else { continue };
        ask(identity, &tables(&other), report, || "tables of another content".into())?;
    }
    Ok(())
}

/// Longer ones with zeros, or something else, behind the need; and one place short.
fn other_lengths(
    identity: Identity,
    exact: &Tables,
    random: &mut Random,
    report: &mut Report,
) -> Result<(), String> {
    let mut longer = exact.clone().resized(&NEEDS.map(|need| need + random.place(9)));
    ask(identity, &longer, report, || "longer tables".into())?;
    let table = random.place(COUNT);
    let places = longer.places()[table];
    if places > NEEDS[table] {
        let place = NEEDS[table] + random.place(places - NEEDS[table]);
        longer.set(table, place, 1 << random.below(8));
        ask(identity, &longer, report, || format!("a number behind {}", NAMES[table]))?;
    }
    let mut places = exact.places();
    places[table] = if random.one_in(4) { random.place(NEEDS[table]) } else { NEEDS[table] - 1 };
    let short = exact.clone().resized(&places);
    ask(identity, &short, report, || format!("{} too short", NAMES[table]))?;
    Ok(())
}

/// The place for a sole used entry in the rows of three books, of those with one where there
/// are such.
fn sole_entries(
    identity: Identity,
    tables: &mut Tables,
    content: &Setup,
    random: &mut Random,
    report: &mut Report,
) -> Result<(), String> {
    let mut books: Vec<usize> = (0..content.books.len()).collect();
    random.shuffle(&mut books);
    books.sort_by_key(|&book| sole_entry(content.books[book].lengths()).is_none());
    for &book in books.iter().take(3) {
        let row = book * BOOK_ROW;
        other_sole_entries(identity, tables, row, random, report)?;
        moved_sole_entry(identity, tables, row, random, report)?;
    }
    Ok(())
}

/// No other number is good for the sole entry of the book whose row begins here.
fn other_sole_entries(
    identity: Identity,
    tables: &mut Tables,
    row: usize,
    random: &mut Random,
    report: &mut Report,
) -> Result<(), String> {
    let place = row + BOOK_SOLE_ENTRY;
    let (entries, right) = (tables.books[row + 1], tables.books[place]);
    let near = [0, 1, right.wrapping_sub(1), right + 1, entries, right | 1 << 16, u32::MAX];
    let any = [random.below(entries + 2), random.next_u64() as u32, 1 << random.below(32)];
    for wrong in near.into_iter().chain(any).filter(|&wrong| wrong != right) {
        tables.books[place] = wrong;
        let what = || format!("sole entry at {place} was {right:x}, is {wrong:x}");
        expect(false, identity, tables, report, what)?;
    }
    tables.books[place] = right;
    Ok(())
}

/// A sole entry that moves in its book takes its number along.
fn moved_sole_entry(
    identity: Identity,
    tables: &mut Tables,
    row: usize,
    random: &mut Random,
    report: &mut Report,
) -> Result<(), String> {
    let place = row + BOOK_SOLE_ENTRY;
    let [entries, begin, right] = [row + 1, row + 2, place].map(|place| tables.books[place] as usize);
    if right == 0 || entries == 1 {
        return Ok(());
    }
    let old = right - 1;
    let new = (right + random.place(entries - 1)) % entries;
    let what = || format!("sole entry {old} of the book at {row} moved to {new}");
    tables.lengths.swap(begin + old, begin + new);
    expect(false, identity, tables, report, what)?;
    tables.books[place] = new as u32 + 1;
    expect(true, identity, tables, report, what)?;
    tables.lengths.swap(begin + old, begin + new);
    tables.books[place] = right as u32;
    Ok(())
}

/// One place, changed for the time of a call.
fn change_and_ask(
    identity: Identity,
    tables: &mut Tables,
    content: &Setup,
    random: &mut Random,
    report: &mut Report,
) -> Result<bool, String> {
    let (table, place, old) = change(tables, content, random);
    let new = tables.number(table, place);
    let answer =
        ask(identity, tables, report, || format!("{} at {place} was {old:x}, is {new:x}", NAMES[table]));
    tables.set(table, place, old);
    answer
}

/// Puts another number into one place, or the same; gives table, place and what was there.
pub fn change(tables: &mut Tables, content: &Setup, random: &mut Random) -> (usize, usize, u32) {
    let (table, place) = place_to_change(tables, content, random);
    let old = tables.number(table, place);
    let new = match random.below(8) {
        0 => 0,
        1 => old.wrapping_add(1),
        2 => old.wrapping_sub(1),
        3 => old ^ 1 << random.below(32),
        4 => random.below(70),
        5 => tables.number(table, random.place(place + 1)),
        6 => u32::MAX,
        _ => random.next_u64() as u32,
    };
    tables.set(table, place, new);
    (table, place, old)
}

/// Mostly a place that content fills and that is not 0, else one behind it or any.
fn place_to_change(tables: &Tables, content: &Setup, random: &mut Random) -> (usize, usize) {
    let filled = filled(content);
    let table = loop {
        let table = random.place(COUNT);
        if filled[table] != 0 {
            break table;
        }
    };
    let last = NEEDS[table] - 1;
    match random.below(12) {
        0 => (table, random.place(NEEDS[table])),
        1 => (table, (filled[table] + random.place(12)).min(last)),
        2 => (table, random.place(filled[table])),
        _ => {
            let mut place = random.place(filled[table]);
            for _ in 0..8 {
                if tables.number(table, place) == 0 {
                    place = random.place(filled[table]);
                }
            }
            (table, place)
        }
    }
}

/// How many places of each table the content fills.
fn filled(content: &Setup) -> [usize; COUNT] {
    let Setup { books, floors, residues, mappings, modes } = content;
    let (entries, multiplicands) = totals(books);
    [
        5,
        BOOK_ROW * books.len(),
        entries,
        entries,
        multiplicands,
        FLOOR_ROW * floors.len(),
        RESIDUE_ROW * residues.len(),
        PLAN_ROW * residues.len(),
        MAPPING_ROW * mappings.len(),
        MODE_ROW * modes.len(),
    ]
}

fn totals(books: &[Book]) -> (usize, usize) {
    let entries = books.iter().map(|book| book.lengths().len()).sum();
    let multiplicands = books.iter().filter_map(Book::values).map(|values| values.multiplicands.len()).sum();
    (entries, multiplicands)
}

/// Content that differs in one thing and may break a rule, where it fits the tables.
fn other_content(content: &Setup, random: &mut Random) -> Option<Setup> {
    let mut other = content.clone();
    match random.below(10) {
        0 => more_or_less(&mut other.books, 256, random),
        1 => more_or_less(&mut other.floors, 64, random),
        2 => more_or_less(&mut other.residues, 64, random),
        3 => more_or_less(&mut other.mappings, 64, random),
        4 => more_or_less(&mut other.modes, 64, random),
        5 | 6 => {
            let place = random.place(other.books.len());
            other.books[place] = other_book(&other.books[place], random)?;
        }
        7 => {
            let place = random.place(other.floors.len());
            other.floors[place] = other_floor(&other.floors[place], random)?;
        }
        8 => change_residue(&mut other, random),
        _ => change_mapping(&mut other, random),
    }
    let (entries, multiplicands) = totals(&other.books);
    (entries <= MOST && multiplicands <= MOST).then_some(other)
}

/// One taken away, or one twice.
fn more_or_less<T: Clone>(list: &mut Vec<T>, most: usize, random: &mut Random) {
    let place = random.place(list.len());
    if random.one_in(2) || list.len() == most {
        list.remove(place);
    } else {
        list.insert(random.place(list.len() + 1), list[place].clone());
    }
}

/// Other dimensions, lengths in another order, an unused entry more, or other values.
fn other_book(book: &Book, random: &mut Random) -> Option<Book> {
    let mut dimensions = book.dimensions();
    let mut lengths = book.lengths().to_vec();
    let mut values = book.values().cloned();
    match random.below(6) {
        0 => dimensions = *random.pick(&[0, 1, 2, 3, 4, 65_535, 65_536, u32::MAX]),
        1 => random.shuffle(&mut lengths),
        2 => lengths.insert(random.place(lengths.len() + 1), 0),
        3 => values = None,
        4 if values.is_none() => {
            values = Some(Values {
                lookup_type: random.below(4),
                minimum: 0,
                delta: 0,
                width: 1,
                sequence: false,
                multiplicands: vec![1; random.place(4)],
            });
        }
        _ => change_values(values.as_mut()?, random),
    }
    // Type 0 has no values in the tables.
    values = values.filter(|values| values.lookup_type != 0);
    Book::new(dimensions, lengths, values).ok()
}

fn change_values(values: &mut Values, random: &mut Random) {
    match random.below(5) {
        0 => values.lookup_type = random.between(1, 4),
        1 => values.width = random.below(35),
        2 => values.multiplicands.push(0),
        3 => values.multiplicands.truncate(values.multiplicands.len() - 1),
        _ => values.sequence = !values.sequence,
    }
}

fn other_floor(floor: &Floor, random: &mut Random) -> Option<Floor> {
    let mut partition_classes = floor.partition_classes().to_vec();
    let mut classes = floor.classes().to_vec();
    let mut multiplier = floor.multiplier();
    let mut range_bits = floor.range_bits();
    let mut x_list = floor.x_list().to_vec();
    match random.below(9) {
        0 => {
            partition_classes.pop();
        }
        1 => {
            classes.pop();
        }
        2 if classes.len() < 16 => classes.push(classes.first()?.clone()),
        3 => multiplier = random.below(6),
        4 => range_bits = random.below(16),
        5 => {
            x_list.pop();
        }
        6 if x_list.len() < 65 => x_list.push(random.below(x_list[1])),
        7 if partition_classes.len() < 31 => partition_classes.push(random.below(17) as u8),
        _ => {
            let place = random.place(classes.len().max(1));
            let class = classes.get_mut(place)?;
            match random.below(5) {
                0 => class.dimensions = random.below(10),
                1 => class.master_book = None,
                2 => class.master_book = Some(random.below(256) as u8),
                3 => *class.subclass_books.first_mut()? = Some(random.below(256) as u8),
                _ => {
                    class.subclass_bits = random.below(4);
                    class.subclass_books.resize(1 << class.subclass_bits, None);
                }
            }
        }
    }
    *x_list.get_mut(1)? = 1 << range_bits;
    Floor::new(partition_classes, classes, multiplier, range_bits, x_list)
}

fn change_residue(content: &mut Setup, random: &mut Random) {
    let place = random.place(content.residues.len());
    let residue = &mut content.residues[place];
    match random.below(7) {
        0 => residue.residue_type = random.below(4),
        1 => (residue.begin, residue.end) = (residue.end, residue.begin),
        2 => residue.end = *random.pick(&[0, 0xFF_FFFF, 0x100_0000, u32::MAX]),
        3 => residue.partition_size = *random.pick(&[0, 1, 2, 12, 1 << 24, (1 << 24) + 1, u32::MAX]),
        4 => residue.class_book = random.place(content.books.len() + 1).min(255) as u8,
        5 if residue.plan.len() < 64 => residue.plan.push([None; 8]),
        _ => {
            let row = random.place(residue.plan.len());
            residue.plan[row][random.place(8)] = Some(random.place(content.books.len() + 1).min(255) as u8);
        }
    }
}

fn change_mapping(content: &mut Setup, random: &mut Random) {
    let place = random.place(content.mappings.len());
    let mapping = &mut content.mappings[place];
    match random.below(7) {
        0 => mapping.multiplex.push(random.below(17) as u8),
        1 => {
            mapping.multiplex.pop();
        }
        2 if mapping.couplings.len() < 256 => {
            mapping.couplings.push((random.below(9) as u8, random.below(9) as u8));
        }
        3 => {
            mapping.couplings.pop();
        }
        4 => mapping.submaps.truncate(1),
        5 if mapping.submaps.len() < 16 => mapping.submaps.push(mapping.submaps[0]),
        _ => {
            let mode = random.place(content.modes.len());
            content.modes[mode].mapping = random.below(content.mappings.len() as u32 + 1) as u8;
        }
    }
}

/// All zero, or every place the same; lengths that make no book, with the codewords that
/// they would get; every place of the small setup's rows changed.
pub fn boundaries(random: &mut Random, report: &mut Report) -> Result<(), String> {
    let identity = in_library_form(&IDENTITY);
    let content = base().read().map_err(|refusal| format!("{refusal:?}"))?;
    for places in [NEEDS, [0; COUNT], NEEDS.map(|need| need + 7)] {
        ask(identity, &Tables::zero(&places), report, || "all zero".into())?;
    }
    for number in [1, u32::MAX] {
        let mut full = Tables::zero(&NEEDS);
        for (table, need) in NEEDS.into_iter().enumerate() {
            (0..need).for_each(|place| full.set(table, place, number));
        }
        ask(identity, &full, report, || format!("{number:x} everywhere"))?;
    }
    let tables = &mut tables(&content);
    small_lengths(identity, tables, report)?;
    for table in 0..COUNT {
        for place in 0..filled(&content)[table] {
            let old = tables.number(table, place);
            let mut news = vec![old.wrapping_add(1)];
            if old != 0 {
                news.extend([0, old - 1, old + 2]);
            }
            for new in news {
                tables.set(table, place, new);
                ask(identity, tables, report, || format!("{} at {place} is {new:x}", NAMES[table]))?;
            }
            tables.set(table, place, old);
        }
        let behind = filled(&content)[table]..NEEDS[table];
        for place in [behind.start, behind.end - 1].into_iter().filter(|place| behind.contains(place)) {
            tables.set(table, place, random.below(255) + 1);
            ask(identity, tables, report, || format!("{} behind the content", NAMES[table]))?;
            tables.set(table, place, 0);
        }
    }
    Ok(())
}

/// The last of 256 books as master book, in a plan and as class book, where it may stand,
/// and as subclass book, which no field can name.
pub fn last_book(identity: Identity, content: &Setup, report: &mut Report) -> Result<(), String> {
    let tables = &mut tables(content);
    let mut at = |(table, place): (usize, usize), good: bool| {
        let old = tables.number(table, place);
        tables.set(table, place, if table == 6 { 255 } else { 256 });
        let what = || format!("the last book in {} at {place}", NAMES[table]);
        expect(good, identity, tables, report, what)?;
        tables.set(table, place, old);
        Ok::<(), String>(())
    };
    for (number, class) in content.floors[0].classes().iter().enumerate() {
        let row = FLOOR_CLASSES + number * CLASS_ROW;
        at((5, row + CLASS_SUBCLASSES), false)?;
        at((5, row + CLASS_SUBCLASSES - 1), class.subclass_bits != 0)?;
    }
    at((7, 0), true)?;
    at((6, RESIDUE_ROW - 1), true)
}

/// The small setup's first book with any two lengths, good or not, each as the sole entry,
/// none or one that is not there.
fn small_lengths(identity: Identity, tables: &mut Tables, report: &mut Report) -> Result<(), String> {
    const LENGTHS: [u8; 8] = [0, 1, 2, 3, 31, 32, 33, 255];
    let old = (tables.lengths.clone(), tables.codewords.clone());
    for first in LENGTHS {
        for second in LENGTHS {
            let space = &mut CodeSpace::default();
            for (place, length) in [first, second].into_iter().enumerate() {
                tables.lengths[place] = length;
                tables.codewords[place] = space.enter(length.into()).map_or(0, |codeword| codeword.bits);
            }
            for sole in 0..=3 {
                tables.books[BOOK_SOLE_ENTRY] = sole;
                let good = match (first, second) {
                    (1, 1) => sole == 0,
                    (1, 0) => sole == 1,
                    (0, 1) => sole == 2,
                    _ => false,
                };
                let what = || format!("lengths {first} and {second}, sole entry {sole}");
                expect(good, identity, tables, report, what)?;
            }
        }
    }
    tables.books[BOOK_SOLE_ENTRY] = 0;
    (tables.lengths, tables.codewords) = old;
    Ok(())
}
