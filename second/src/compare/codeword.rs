//! The call that reads one codeword of a book in the tables: the number, the entry and the
//! place behind its codeword, which is settled as a byte and a bit below 8.

use crate::identification::in_library_form;
use crate::library::{self, CodewordAnswer, Identity};
use crate::report::{hex, Answer, Call, Given, Report};
use crate::setup_sound::in_words;
use crate::sound;
use second::bits::Cursor;
use second::book::Book;
use second::generate::fields::{base, IDENTITY};
use second::generate::random::Random;
use second::recognise::recognise;
use second::setup::Setup;
use second::tables::{tables, Tables, BOOK_ROW, BOOK_SOLE_ENTRY, COUNT, NEEDS};

/// Where a codeword is read.
#[derive(Clone, Debug)]
pub struct Place<'a> {
    pub book: u32,
    pub packet: &'a [u8],
    pub byte: usize,
    pub bit: u8,
}

/// The second program's answer, given what it recognises in the tables: 18, then 11, then
/// the entry or the cut (1).
fn second_answer(content: Option<&Setup>, place: &Place) -> CodewordAnswer {
    let refused = |refusal| CodewordAnswer { refusal, entry: 0, byte: 0, bit: 0 };
    let Some(content) = content else {
        return refused(18);
    };
    let Some(book) = content.books.get(place.book as usize) else {
        return refused(11);
    };
    // A position that does not fit is past the end of every packet.
    let position = u64::try_from(8 * place.byte as u128 + u128::from(place.bit)).unwrap_or(u64::MAX);
    let cursor = &mut Cursor::at(place.packet, position);
    match book.read_entry(cursor) {
        Err(_) => refused(1),
        Ok(entry) => {
            let position = cursor.position();
            CodewordAnswer { refusal: 0, entry, byte: (position / 8) as usize, bit: (position % 8) as u8 }
        }
    }
}

/// Reads one codeword on both sides; `content` is what the second program recognises in
/// the tables.
pub fn read(
    identity: Identity,
    tables: &Tables,
    content: Option<&Setup>,
    place: &Place,
    report: &mut Report,
) -> Result<(), String> {
    let Place { book, packet, byte, bit } = *place;
    let given = |answer: CodewordAnswer| Given {
        answer: Answer::Number(answer.refusal),
        left: (answer.entry, answer.byte, answer.bit),
    };
    let library = given(library::codeword(identity, tables, book, packet, byte, bit));
    let second = given(second_answer(content, place));
    let input = || {
        let packet = hex(packet, 2);
        format!("{identity:?} book {book} at {byte}, {bit} of {packet}\n  {}", in_words(tables))
    };
    report.compare(Call::Codeword, &library, &second, input)
}

/// So many codewords of a content's books in random packets; then of tables or for an
/// identity that are unsound, or may be.
pub fn around(
    identity: Identity,
    content: &Setup,
    times: u32,
    random: &mut Random,
    report: &mut Report,
) -> Result<(), String> {
    let exact = tables(content);
    for _ in 0..times {
        let packet = random_packet(random);
        read(identity, &exact, Some(content), &place(content, &packet, random), report)?;
    }
    let packet = random_packet(random);
    let place = place(content, &packet, random);
    let mut changed = identity;
    sound::change(&mut changed, random);
    read_any(changed, &exact, &place, report)?;
    let longer = exact.clone().resized(&NEEDS.map(|need| need + random.place(5)));
    read_any(identity, &longer, &place, report)?;
    let mut spoilt = exact;
    for book in [place.book as usize, random.place(content.books.len())] {
        let sole = book * BOOK_ROW + BOOK_SOLE_ENTRY;
        if sole < spoilt.books.len() {
            let old = spoilt.books[sole];
            spoilt.books[sole] ^= 1 << random.below(4);
            read_any(identity, &spoilt, &place, report)?;
            spoilt.books[sole] = old;
        }
    }
    let table = random.place(COUNT);
    spoilt.set(table, random.place(NEEDS[table]), random.below(300));
    read_any(identity, &spoilt, &place, report)?;
    read_any(identity, &Tables::zero(&NEEDS), &place, report)
}

/// A sole entry and other books, from every bit a byte can count, in, at and past the end.
pub fn boundaries(random: &mut Random, report: &mut Report) -> Result<(), String> {
    let identity = in_library_form(&IDENTITY);
    let mut content = base().read().map_err(|refusal| format!("{refusal:?}"))?;
    content.books[0] = Book::new(1, vec![0, 1, 0], None).map_err(|verdict| format!("{verdict:?}"))?;
    let tables = tables(&content);
    for length in [0, 1, 33] {
        let packet = random.bytes(length);
        for byte in [0, 1, length.saturating_sub(2), length, length + 1, 1 << 61, usize::MAX - 31, usize::MAX]
        {
            for bit in 0..=u8::MAX {
                for book in 0..2 {
                    let place = Place { book, packet: &packet, byte, bit };
                    read(identity, &tables, Some(&content), &place, report)?;
                }
            }
        }
    }
    Ok(())
}

/// Reads one codeword of tables that may be unsound.
fn read_any(identity: Identity, tables: &Tables, place: &Place, report: &mut Report) -> Result<(), String> {
    let content = sound::if_sound(&identity).and_then(|identity| recognise(&identity, tables));
    read(identity, tables, content.as_ref(), place, report)
}

/// Up to 12 bytes; long codewords are all ones more often than chance would have it.
fn random_packet(random: &mut Random) -> Vec<u8> {
    let count = random.place(13);
    match random.below(4) {
        0 => vec![0xFF; count],
        1 => vec![0; count],
        _ => random.bytes(count),
    }
}

/// Mostly a book that is there and a place in the packet; else around their ends, or any.
pub fn place<'a>(content: &Setup, packet: &'a [u8], random: &mut Random) -> Place<'a> {
    let books = content.books.len() as u32;
    let book = match random.below(16) {
        0 => books,
        1 => *random.pick(&[books + 1, 255, 256, 257, 1 << 16, u32::MAX]),
        _ => random.below(books),
    };
    let byte = match random.below(12) {
        0 => packet.len(),
        1 => packet.len() + 1,
        2 => *random.pick(&[usize::MAX, usize::MAX / 8, usize::MAX / 8 + 1, 1 << 61, 1 << 32]),
        _ => random.place(packet.len() + 1),
    };
    let bit = match random.below(12) {
        0 => random.below(256),
        1 => random.between(8, 40),
        _ => random.below(8),
    };
    Place { book, packet, byte, bit: bit as u8 }
}
