//! Generated streams: what was written is read, a cut packet stands as 01 says,
//! refusals leave nothing behind, and the ledger agrees with the books and with lengths that
//! are entered one by one.

use super::{claim, hex, Counts};
use crate::audio::{audio, Answer, Tally};
use crate::bits::read_field;
use crate::book::{read_codeword, verdict, Book, Verdict};
use crate::floor::{curve, final_y, range};
use crate::generate::content::lengths_to_enter;
use crate::generate::packet::AudioPacket;
use crate::generate::random::Random;
use crate::generate::{spoilt, Stream};
use crate::identification::{identification, Identity};
use crate::ledger;
use crate::limits::Limits;
use crate::lines::{CURVE_BYTES, WORD_PLACES};
use crate::recognise::recognise;
use crate::refusal::Refusal;
use crate::rules::meets_every_rule;
use crate::setup::{setup, Setup};
use crate::space;
use crate::strings::balance;
use crate::tables::tables;
use crate::write::{write_setup, BitWriter};

/// Books above this size are compared with the plain ledger only now and then.
const PLAIN_LEDGER_ENTRIES: u32 = 600;

/// Places for the words of the longest list any packet gives: 8 channels of 4,096
/// class words, and as many vectors in each of 8 passes.
const MOST_WORDS: usize = 9 * 8 * 4_096;

/// Places lent for spoilt packets, where the whole one needs no more.
const SOME_WORDS: usize = 2_048;

/// What was seen in all streams.
#[derive(Clone, Copy, Debug, Default)]
pub struct Seen {
    pub streams: u64,
    pub packets: Counts,
    pub words: u64,
    pub codewords: u64,
    pub lengths: u64,
}

/// Checks the streams of `seed`, `seed + 1` and so on, until so many packets have
/// been read.
pub fn check_seeds(seed: u64, packets: u64) -> Result<Seen, String> {
    let mut check = Check::default();
    while check.seen.packets.accepted() + check.seen.packets.refused() < packets {
        let seed = seed.wrapping_add(check.seen.streams);
        check.stream(seed).map_err(|fault| format!("seed {seed}: {fault}"))?;
        check.seen.streams += 1;
    }
    Ok(check.seen)
}

/// The buffers lent, and what was seen.
#[derive(Debug)]
struct Check {
    curves: Vec<u8>,
    words: Vec<u32>,
    seen: Seen,
}

impl Default for Check {
    fn default() -> Self {
        Check { curves: vec![0; CURVE_BYTES], words: vec![0; MOST_WORDS], seen: Seen::default() }
    }
}

impl Check {
    fn stream(&mut self, seed: u64) -> Result<(), String> {
        let stream = &Stream::new(seed);
        let random = &mut Random::new(!seed);
        self.identification(stream, random)?;
        self.setup(stream, random)?;
        for book in &stream.content.books {
            self.book(book, random)?;
        }
        let mut tally = Tally::default();
        for packet in &stream.audio {
            self.audio(stream, packet, &mut tally, random)?;
        }
        self.entering(&lengths_to_enter(random))
    }

    fn identification(&mut self, stream: &Stream, random: &mut Random) -> Result<(), String> {
        let read = identification(&stream.identification.bytes);
        self.seen.packets.add(&read);
        claim(read == Ok(stream.identity), || format!("identity {:?} read as {read:?}", stream.identity))?;
        for packet in spoilt(&stream.identification, random) {
            let read = identification(&packet);
            self.seen.packets.add(&read);
            check_place(&packet, &read)?;
            claim(read.map_or(true, |identity| identity.is_sound(&Limits::BASE)), || hex(&packet))?;
        }
        Ok(())
    }

    fn setup(&mut self, stream: &Stream, random: &mut Random) -> Result<(), String> {
        let limits = &Limits::BASE;
        let whole = &stream.setup.bytes;
        let read = setup(&stream.identity, whole, limits);
        self.seen.packets.add(&read);
        claim(read.as_ref() == Ok(&stream.content), || {
            let answer = read.as_ref().map(|_| "other content");
            format!("setup read as {answer:?}: {}", hex(whole))
        })?;
        check_tables(&stream.identity, &stream.content)?;
        for packet in spoilt(&stream.setup, random) {
            let read = setup(&stream.identity, &packet, limits);
            self.seen.packets.add(&read);
            check_place(&packet, &read)?;
            if let Ok(content) = &read {
                check_tables(&stream.identity, content)?;
                let good = meets_every_rule(content, &stream.identity, limits);
                claim(good, || format!("setup accepted against the rules: {}", hex(&packet)))?;
                let rewritten = write_setup(content, stream.identity.channels, random);
                let again = setup(&stream.identity, &rewritten.bytes, limits);
                claim(again == read, || format!("setup rewritten as another: {}", hex(&packet)))?;
            }
            let cut = whole.starts_with(&packet) && packet.len() < whole.len();
            claim(!cut || read.is_err_and(|refusal| refusal.number == 1), || {
                format!("setup cut to {} bytes is not refused with 1", packet.len())
            })?;
        }
        let mut unsound = stream.identity;
        unsound.rate = 0;
        let read = setup(&unsound, whole, limits);
        self.seen.packets.add(&read);
        claim(read == Err(Refusal::without_place(18)), || "unsound identity".into())
    }

    /// Codewords are those of the ledger, and each one leads to its entry; to a sole used entry
    /// either bit leads (02, wish 3).
    fn book(&mut self, book: &Book, random: &mut Random) -> Result<(), String> {
        let lengths = book.lengths();
        let Verdict::Accepted(codewords) = verdict(lengths) else {
            return Err(format!("lengths {lengths:?} are not accepted"));
        };
        if book.entries() <= PLAIN_LEDGER_ENTRIES || random.one_in(4) {
            compare_with_ledger(lengths, &codewords)?;
        }
        let used: Vec<_> =
            (0..).zip(&codewords).filter_map(|(entry, word)| Some((entry, (*word)?))).collect();
        for _ in 0..used.len().min(20) {
            let &(entry, codeword) = random.pick(&used);
            let lead = random.below(20);
            let mut writer = BitWriter::default();
            writer.field(0, lead);
            match used.len() {
                1 => writer.bit(random.below(2)),
                _ => writer.codeword(codeword),
            }
            let packet = writer.finish().bytes;
            let read = read_codeword(lengths, &packet, u64::from(lead));
            let expected = (entry, u64::from(lead + codeword.length));
            claim(read == Some(Ok(expected)), || format!("{lengths:?} {codeword:?} read as {read:?}"))?;
            self.seen.codewords += 1;
        }
        Ok(())
    }

    /// The answers to lengths entered one by one are the ledger's, and balance.
    fn entering(&mut self, lengths: &[u8]) -> Result<(), String> {
        self.seen.lengths += lengths.len() as u64;
        let answers = space::answers(lengths);
        let wide: Vec<u32> = lengths.iter().map(|&length| length.into()).collect();
        let plain = ledger::answers(&wide).0;
        claim(plain == answers, || format!("lengths {lengths:?}: {answers:?}, the ledger {plain:?}"))?;
        balance(lengths, &answers).map_err(|fault| format!("lengths {lengths:?}: {fault}"))
    }

    fn audio(
        &mut self,
        stream: &Stream,
        packet: &AudioPacket,
        tally: &mut Tally,
        random: &mut Random,
    ) -> Result<(), String> {
        let bytes = &packet.written.bytes;
        let before = *tally;
        let answer = self.read(stream, bytes, tally, MOST_WORDS)?;
        let answer = answer.map_err(|refusal| format!("refused {}: {}", refusal.number, hex(bytes)))?;
        self.seen.words += answer.words;
        self.compare(stream, packet, &answer).map_err(|fault| format!("{fault}: {}", hex(bytes)))?;
        let whole = Whole {
            used: answer.floor_used.clone(),
            curves: self.curves.clone(),
            words: self.words[..answer.words as usize].to_vec(),
        };
        self.rooms(stream, bytes, &answer)?;
        self.tallies(stream, bytes, &before, &answer)?;
        let room = SOME_WORDS.max(whole.words.len());
        for spoilt in spoilt(&packet.written, random) {
            let answer = self.read(stream, &spoilt, &mut before.clone(), room)?;
            if bytes.starts_with(&spoilt) {
                self.compare_cut(&whole, &answer).map_err(|fault| format!("{fault}: {}", hex(&spoilt)))?;
            }
        }
        Ok(())
    }

    /// Reads a packet over buffers that hold other things.
    fn read(
        &mut self,
        stream: &Stream,
        packet: &[u8],
        tally: &mut Tally,
        room: usize,
    ) -> Result<Result<Answer, Refusal>, String> {
        let (curves, lent) = (&mut self.curves[..], &mut self.words[..room]);
        curves.fill(0xA5);
        lent.fill(0xA5A5_A5A5);
        let before = *tally;
        let answer = audio(&stream.identity, &stream.content, tally, packet, curves, lent);
        self.seen.packets.add(&answer);
        check_place(packet, &answer)?;
        let (curve_bytes, words) = match &answer {
            Ok(answer) => (answer.floor_used.len() * answer.block_size as usize / 2, answer.words as usize),
            Err(_) => (0, 0),
        };
        let rest_is_zero = curves[curve_bytes..].iter().all(|&byte| byte == 0)
            && lent[words..].iter().all(|&word| word == 0);
        claim(rest_is_zero, || format!("outputs not zero: {}", hex(packet)))?;
        claim(answer.is_ok() || *tally == before, || format!("tally changed: {}", hex(packet)))?;
        Ok(answer)
    }

    /// The packet read is the packet written.
    fn compare(&self, stream: &Stream, packet: &AudioPacket, answer: &Answer) -> Result<(), String> {
        let flags = (answer.previous_window_flag, answer.next_window_flag);
        let head = (packet.mode, (packet.previous_window_flag, packet.next_window_flag));
        claim((answer.mode, flags) == head, || format!("mode or flags: {answer:?}"))?;
        let mode = stream.content.modes[answer.mode as usize];
        let half = (answer.block_size / 2) as usize;
        for (channel, values) in packet.floors.iter().enumerate() {
            let expected = expected_curve(&stream.content, mode.mapping, channel, values.as_deref(), half);
            let drawn = &self.curves[channel * half..][..half];
            claim(answer.floor_used[channel] == values.is_some(), || {
                format!("floor use of channel {channel}")
            })?;
            claim(drawn == expected, || format!("curve of channel {channel}"))?;
        }
        let words = &self.words[..answer.words as usize];
        claim(words.starts_with(&packet.words), || "words".into())?;
        claim(!packet.whole || words.len() == packet.words.len(), || "number of words".into())
    }

    /// A cut packet is refusal 1, or it stands: the floors read before the cut are
    /// the same, later ones unused, and its words begin the whole packet's (01).
    fn compare_cut(&self, whole: &Whole, answer: &Result<Answer, Refusal>) -> Result<(), String> {
        let answer = match answer {
            Err(refusal) => {
                return claim(refusal.number == 1, || format!("cut packet refused {}", refusal.number))
            }
            Ok(answer) => answer,
        };
        let half = (answer.block_size / 2) as usize;
        for (channel, &used) in answer.floor_used.iter().enumerate() {
            let place = channel * half..(channel + 1) * half;
            let same = whole.used[channel] && self.curves[place.clone()] == whole.curves[place];
            claim(!used || same, || format!("cut packet's floor {channel}"))?;
        }
        let words = &self.words[..answer.words as usize];
        claim(whole.words.starts_with(words), || "cut packet's words".into())
    }

    /// Exact room is enough, one place less is refusal 17.
    fn rooms(&mut self, stream: &Stream, packet: &[u8], answer: &Answer) -> Result<(), String> {
        let curve_bytes = answer.floor_used.len() * answer.block_size as usize / 2;
        let words = answer.words as usize;
        let short_of_words = words.checked_sub(1).map(|short| (curve_bytes, short));
        let rooms = [Some((curve_bytes, words)), Some((curve_bytes - 1, words)), short_of_words];
        for (curve_room, word_room) in rooms.into_iter().flatten() {
            let (curves, words_lent) = (&mut self.curves[..curve_room], &mut self.words[..word_room]);
            let tally = &mut Tally::default();
            let read = audio(&stream.identity, &stream.content, tally, packet, curves, words_lent);
            self.seen.packets.add(&read);
            let expected = if (curve_room, word_room) == (curve_bytes, words) { None } else { Some(17) };
            let given = read.err().map(|refusal| refusal.number);
            claim(given == expected, || format!("rooms {curve_room} {word_room}: {given:?}"))?;
        }
        Ok(())
    }

    /// Samples up to 2^64 - 1 are good, one more is 19; an unsound tally is 18.
    fn tallies(
        &mut self,
        stream: &Stream,
        packet: &[u8],
        before: &Tally,
        answer: &Answer,
    ) -> Result<(), String> {
        let block_size = stream.identity.block_sizes[1];
        let finished = u64::from(block_size / 4 + answer.block_size / 4);
        let expected =
            if before.block_size == 0 { 0 } else { u64::from(before.block_size / 4 + answer.block_size / 4) };
        claim(answer.samples == expected, || format!("samples {}", answer.samples))?;
        let cases = [
            (Tally { block_size, samples: u64::MAX - finished }, None),
            (Tally { block_size, samples: u64::MAX - finished + 1 }, Some(19)),
            (Tally { block_size: 0, samples: 1 }, Some(18)),
            (Tally { block_size: block_size + 1, samples: 0 }, Some(18)),
        ];
        for (tally, expected) in cases {
            let (curves, words) = (&mut self.curves, &mut self.words[..answer.words as usize]);
            let read = audio(&stream.identity, &stream.content, &mut tally.clone(), packet, curves, words);
            self.seen.packets.add(&read);
            let given = read.err().map(|refusal| refusal.number);
            claim(given == expected, || format!("{tally:?}: {given:?}"))?;
        }
        Ok(())
    }
}

/// A setup's tables are recognised as those of its content.
fn check_tables(identity: &Identity, content: &Setup) -> Result<(), String> {
    let recognised = recognise(identity, &tables(content));
    claim(recognised.as_ref() == Some(content), || format!("tables hold {recognised:?}, not {content:?}"))
}

/// What a whole packet gave.
struct Whole {
    used: Vec<bool>,
    curves: Vec<u8>,
    words: Vec<u32>,
}

fn expected_curve(
    content: &Setup,
    mapping: u8,
    channel: usize,
    values: Option<&[u32]>,
    half: usize,
) -> Vec<u8> {
    let Some(values) = values else {
        return vec![0; half];
    };
    let mapping = &content.mappings[usize::from(mapping)];
    let submap = mapping.submaps[mapping.submap_of(channel)];
    let floor = &content.floors[usize::from(submap.floor)];
    let (y, flags) = final_y(floor.x_list(), values, range(floor.multiplier()));
    curve(floor.x_list(), &y, &flags, floor.multiplier(), half)
}

fn compare_with_ledger(lengths: &[u8], codewords: &[Option<ledger::Codeword>]) -> Result<(), String> {
    let used: Vec<u32> =
        lengths.iter().filter(|&&length| length != 0).map(|&length| u32::from(length)).collect();
    let (answers, free) = ledger::answers(&used);
    let expected: Vec<_> = codewords.iter().filter(|codeword| codeword.is_some()).copied().collect();
    claim(answers == expected, || format!("ledger answers {answers:?} for {lengths:?}"))?;
    claim(free == 0 || used == [1], || format!("ledger leaves {free} for {lengths:?}"))
}

/// A refusal's place lies in the packet, and 1 is given where a bit is missing.
fn check_place<T>(packet: &[u8], answer: &Result<T, Refusal>) -> Result<(), String> {
    let Err(refusal) = answer else {
        return Ok(());
    };
    let inside = refusal.place <= 8 * packet.len() as u64;
    let missing = refusal.number != 1 || read_field(packet, refusal.place, 64).is_none();
    claim(inside && missing, || format!("{refusal:?} for {}", hex(packet)))
}

/// The tool's room holds every curve, but not every list of words.
const _: () = assert!(CURVE_BYTES == 8 * 8_192 / 2 && WORD_PLACES < MOST_WORDS);
