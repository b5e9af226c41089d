//! The audio calls: the answer, every place of both outputs, and the tally, which the one
//! brings up to date where it lies and the other takes and gives.

use crate::identification::in_library_form;
use crate::lent::{filling, lend, Outputs, Places};
use crate::library::{self, AudioAnswer, Identity, Tally, Used, Window};
use crate::report::{hex, Answer, Call, Given, Reason, Report};
use crate::setup::some;
use crate::setup_sound::{self, in_words};
use crate::sound;
use second::audio;
use second::generate::random::Random;
use second::generate::{spoilt, Stream};
use second::recognise::recognise;
use second::setup::Setup;
use second::tables::{tables, Tables, COUNT, NEEDS};

/// The places of the longest list of words that any packet gives: 8 channels of 4,096 class
/// words, and as many vectors in each of 8 passes.
pub const MOST_WORDS: usize = 9 * 8 * 4_096;

/// Room for the outputs of the tool (01).
pub const TOOL: Places = Places { curves: 32_768, words: 16_384 };

/// A stream's identity and setup, as both sides take them.
#[derive(Clone, Debug)]
pub struct Held {
    pub identity: Identity,
    pub content: Setup,
    pub tables: Tables,
}

impl Held {
    /// Of content that meets every rule for a sound identity.
    pub fn new(identity: &second::identification::Identity, content: Setup) -> Held {
        let tables = tables(&content);
        Held { identity: in_library_form(identity), content, tables }
    }

    pub fn case<'a>(&'a self, tally: Tally, packet: &'a [u8], places: Places) -> Case<'a> {
        let Held { identity, content, tables } = self;
        Case { tally, identity: *identity, tables, content: Some(content), packet, places }
    }
}

/// What a call is given.
#[derive(Clone, Copy, Debug)]
pub struct Case<'a> {
    pub tally: Tally,
    pub identity: Identity,
    pub tables: &'a Tables,
    /// What the second program recognises in the tables.
    pub content: Option<&'a Setup>,
    pub packet: &'a [u8],
    pub places: Places,
}

/// Everything that is compared; of the outputs, how they differ from the second program's.
#[derive(Clone, Debug, PartialEq, Eq)]
struct Left {
    answer: AudioAnswer,
    /// One, or more where a call wrote beside it.
    tally: Vec<Tally>,
    differences: Vec<String>,
}

/// Reads packets on both sides, with what is lent for it, kept from call to call.
#[derive(Debug)]
pub struct Reader<'a> {
    outputs: Outputs,
    curves: Vec<u8>,
    words: Vec<u32>,
    pub report: &'a mut Report,
}

impl<'a> Reader<'a> {
    pub fn new(report: &'a mut Report) -> Reader<'a> {
        Reader { outputs: Outputs::default(), curves: Vec::new(), words: Vec::new(), report }
    }

    /// Reads one packet on both sides by both calls, and gives the answer and the tally.
    pub fn read(&mut self, case: &Case) -> Result<(AudioAnswer, Tally), String> {
        self.read_by(&[Call::Audio, Call::AudioByValue], case)
    }

    /// The same by one of the calls, or by both.
    pub fn read_by(&mut self, calls: &[Call], case: &Case) -> Result<(AudioAnswer, Tally), String> {
        let (answer, tally, reason) = self.second(case);
        let expected = Left { answer, tally: vec![tally], differences: Vec::new() };
        for &call in calls {
            let left = self.library(call, case);
            let given = |left: Left| Given { answer: Answer::Number(left.answer.refusal), left };
            self.report.compare(call, &given(left), &given(expected.clone()), || in_full(case))?;
            if let Some(reason) = reason {
                self.report.count_reason(call, reason);
            }
        }
        Ok((answer, tally))
    }

    fn library(&mut self, call: Call, case: &Case) -> Left {
        let Case { tally, identity, tables, packet, places, .. } = *case;
        let lent = self.outputs.lend(places, filling(packet));
        let (answer, tally) = if call == Call::Audio {
            lend(1, tally, |tally| library::audio(&mut tally[0], identity, tables, packet, lent))
        } else {
            let left = library::audio_by_value(tally, identity, tables, packet, lent);
            (left.answer, vec![left.tally])
        };
        Left { answer, tally, differences: self.outputs.differences(&self.curves, &self.words) }
    }

    /// The second program's answer, its tally, and the reason where a number has several. It
    /// leaves its outputs to be compared.
    fn second(&mut self, case: &Case) -> (AudioAnswer, Tally, Option<Reason>) {
        self.curves.clear();
        self.curves.resize(case.places.curves, 0);
        self.words.clear();
        self.words.resize(case.places.words, 0);
        let Some(identity) = sound::if_sound(&case.identity) else {
            return (refused(18), case.tally, Some(Reason::Identity));
        };
        let Some(content) = case.content else {
            let short = case.tables.places().iter().zip(&NEEDS).any(|(places, need)| places < need);
            let reason = if short { Reason::ShortTables } else { Reason::Tables };
            return (refused(18), case.tally, Some(reason));
        };
        let mut tally = audio::Tally { block_size: case.tally.blocksize, samples: case.tally.samples };
        let (curves, words) = (&mut self.curves, &mut self.words);
        match audio::audio(&identity, content, &mut tally, case.packet, curves, words) {
            Ok(answer) => (in_answer_form(&answer), in_tally_form(tally), None),
            Err(refusal) => {
                let reason = match refusal.number {
                    17 => Some(few(&identity, content, case.packet, case.places)),
                    18 => Some(Reason::Tally),
                    _ => None,
                };
                (refused(refusal.number.into()), case.tally, reason)
            }
        }
    }
}

/// Which output is too small, where one is; the curves are judged first.
fn few(
    identity: &second::identification::Identity,
    content: &Setup,
    packet: &[u8],
    places: Places,
) -> Reason {
    let (mut curves, mut words) = (vec![0; places.curves], vec![0; MOST_WORDS]);
    let read = audio::audio(identity, content, &mut Default::default(), packet, &mut curves, &mut words);
    if read.is_err_and(|refusal| refusal.number == 17) {
        Reason::FewCurves
    } else {
        Reason::FewWords
    }
}

/// A refusal's number alone.
fn refused(refusal: u32) -> AudioAnswer {
    let window = Window::default();
    let (samples, codewords, used) = (0, 0, Used([0; 255]));
    AudioAnswer { refusal, mode: 0, blocksize: 0, previous: 0, next: 0, window, samples, codewords, used }
}

fn in_answer_form(answer: &audio::Answer) -> AudioAnswer {
    let audio::Window { left_start, left_end, right_start, right_end } = answer.window;
    let mut used = [0; 255];
    for (place, &floor_used) in used.iter_mut().zip(&answer.floor_used) {
        *place = floor_used.into();
    }
    AudioAnswer {
        refusal: 0,
        mode: answer.mode,
        blocksize: answer.block_size,
        previous: answer.previous_window_flag.into(),
        next: answer.next_window_flag.into(),
        window: Window { left_start, left_end, right_start, right_end },
        samples: answer.samples,
        codewords: answer.words,
        used: Used(used),
    }
}

fn in_tally_form(tally: audio::Tally) -> Tally {
    Tally { blocksize: tally.block_size, samples: tally.samples }
}

fn in_full(case: &Case) -> String {
    let Case { tally, identity, tables, packet, places, .. } = case;
    let packet = hex(packet, 2);
    format!("{tally:?} {identity:?} {places:?} packet {packet}\n  {}", in_words(tables))
}

/// The places that an accepted packet needs.
pub fn need(identity: &Identity, answer: &AudioAnswer) -> Places {
    Places { curves: (identity.channels * answer.blocksize / 2) as usize, words: answer.codewords as usize }
}

/// One round: a random stream's packets in order; each in rooms and with tallies around what
/// it needs, spoilt, and with an identity or tables that are unsound or may be.
pub fn round(random: &mut Random, report: &mut Report) -> Result<(), String> {
    let stream = Stream::new(random.next_u64());
    let held = Held::new(&stream.identity, stream.content);
    let reader = &mut Reader::new(report);
    let mut tally = Tally::default();
    for packet in &stream.audio {
        let bytes = &packet.written.bytes;
        let room = Places { words: MOST_WORDS, ..TOOL };
        let (answer, after) = reader.read(&held.case(tally, bytes, room))?;
        rooms(&held, tally, bytes, &answer, random, reader)?;
        tallies(&held, bytes, &answer, random, reader)?;
        let room = Places { words: need(&held.identity, &answer).words.max(500), ..TOOL };
        for spoilt in some(spoilt(&packet.written, random), 24, random) {
            reader.read(&held.case(tally, &spoilt, room))?;
        }
        unsound(&held, tally, bytes, random, reader)?;
        tally = after;
    }
    Ok(())
}

/// An accepted packet in exact room, in more, and one place short of each output or more.
pub fn rooms(
    held: &Held,
    tally: Tally,
    packet: &[u8],
    answer: &AudioAnswer,
    random: &mut Random,
    reader: &mut Reader,
) -> Result<(), String> {
    let need = need(&held.identity, answer);
    let mut reads = |curves: usize, words: usize| {
        let read = reader.read(&held.case(tally, packet, Places { curves, words }))?.0.refusal;
        let fits = curves >= need.curves && words >= need.words;
        let right = read == if fits { answer.refusal } else { 17 };
        right.then_some(()).ok_or(format!("both give {read} in {curves} and {words} of {need:?}"))
    };
    reads(need.curves, need.words)?;
    reads(need.curves - 1, need.words)?;
    reads(need.curves, need.words.saturating_sub(1))?;
    reads(need.curves - 1, need.words.saturating_sub(1))?;
    reads(need.curves + random.place(40), need.words + 1 + random.place(40))?;
    reads(random.place(need.curves), need.words + random.place(2))?;
    reads(need.curves + random.place(2), random.place(need.words + 1))
}

/// An accepted packet with tallies that come to 2^64 - 1, to one more and one less, or are
/// unsound; in exact room and one place short of it.
pub fn tallies(
    held: &Held,
    packet: &[u8],
    answer: &AudioAnswer,
    random: &mut Random,
    reader: &mut Reader,
) -> Result<(), String> {
    let Identity { blocksize0, blocksize1, .. } = held.identity;
    let blocksize = *random.pick(&[blocksize0, blocksize1]);
    let last = u64::MAX - u64::from(blocksize / 4 + answer.blocksize / 4);
    let other =
        *random.pick(&[blocksize1 + 1, blocksize0 - 1, blocksize1 << 1, blocksize0 << 16, 1, u32::MAX]);
    let tallies = [
        (blocksize, last, 0),
        (blocksize, last + 1, 19),
        (blocksize, last - 1, 0),
        (blocksize, u64::MAX, 19),
        (0, 0, 0),
        (0, 1, 18),
        (0, *random.pick(&[last, u64::MAX, 1 << 32]), 18),
        (other, *random.pick(&[0, last, u64::MAX]), 18),
    ];
    let need = need(&held.identity, answer);
    for (blocksize, samples, number) in tallies {
        let case = held.case(Tally { blocksize, samples }, packet, need);
        let read = reader.read(&case)?.0.refusal;
        if read != number {
            return Err(format!("both give {read}, not {number}: {}", in_full(&case)));
        }
    }
    // 17 goes before 19, and 18 before 17.
    let short = Places { curves: need.curves - 1, ..need };
    reader.read(&held.case(Tally { blocksize, samples: u64::MAX }, packet, short))?;
    reader.read(&held.case(Tally { blocksize: other, samples: 0 }, packet, short))?;
    Ok(())
}

/// A packet with another identity, with a number changed in the tables, and with one of them
/// too short or longer.
pub fn unsound(
    held: &Held,
    tally: Tally,
    packet: &[u8],
    random: &mut Random,
    reader: &mut Reader,
) -> Result<(), String> {
    let case = held.case(tally, packet, TOOL);
    let mut changed = held.identity;
    sound::change(&mut changed, random);
    read_any(&Case { identity: changed, ..case }, reader)?;
    let channels = random.between(1, 8);
    read_any(&Case { identity: Identity { channels, ..held.identity }, ..case }, reader)?;
    let mut tables = held.tables.clone();
    for _ in 0..3 {
        let (table, place, old) = setup_sound::change(&mut tables, &held.content, random);
        read_any(&Case { tables: &tables, ..case }, reader)?;
        tables.set(table, place, old);
    }
    let mut places = NEEDS.map(|need| need + random.place(5));
    tables = tables.resized(&places);
    read_any(&Case { tables: &tables, ..case }, reader)?;
    let table = random.place(COUNT);
    places[table] = NEEDS[table] - 1;
    read_any(&Case { tables: &tables.resized(&places), ..case }, reader)?;
    Ok(())
}

/// Reads one packet with tables that may be unsound with the identity.
pub fn read_any(case: &Case, reader: &mut Reader) -> Result<(AudioAnswer, Tally), String> {
    let content = sound::if_sound(&case.identity).and_then(|identity| recognise(&identity, case.tables));
    reader.read(&Case { content: content.as_ref(), ..*case })
}
