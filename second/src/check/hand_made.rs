//! Record files made by hand, one or more for each rule of the tool (01, "The tool reads
//! standard input as records"), with the lines they have to give. They stand here and not in
//! `records/` because many have bodies of 49,152 bytes and more.

use crate::book::{Book, Values};
use crate::floor::Floor;
use crate::generate::fields::{base, pack, IDENTITY};
use crate::generate::random::Random;
use crate::identification::Identity;
use crate::mapping::{Mapping, Mode, Submap};
use crate::records::GREATEST_BODY;
use crate::residue::{Residue, PASSES};
use crate::setup::Setup;
use crate::write::{write_identification, write_setup};

/// A record file and its lines.
#[derive(Clone, Debug)]
pub struct HandMade {
    pub name: String,
    pub records: Vec<u8>,
    pub lines: String,
}

/// A record file on the way, each record with its line.
#[derive(Clone, Debug, Default)]
struct Making {
    records: Vec<u8>,
    lines: String,
    count: u64,
}

const IDENTIFICATION: u16 = 1;
const SETUP: u16 = 2;
const AUDIO: u16 = 3;

const IDENTITY_LINE: &str = "identity channels 3 rate 8000 blocks 64 128";
const SETUP_LINE: &str = "setup books 2 modes 3";
const LARGE_LINE: &str = "identity channels 8 rate 8000 blocks 8192 8192";

/// Kinds that are unknown; some have a known kind in one of their bytes.
const UNKNOWN_KINDS: [u16; 12] = [0, 4, 5, 0xFF, 0x100, 0x101, 0x102, 0x103, 0x201, 0x300, 0x8003, u16::MAX];

impl Making {
    /// A record and its line, without the number.
    fn record(mut self, kind: u16, body: &[u8], line: &str) -> Self {
        self.records.extend((body.len() as u32).to_le_bytes());
        self.records.extend(kind.to_le_bytes());
        self.records.extend(body);
        self.count += 1;
        self.lines.push_str(&format!("{} {line}\n", self.count));
        self
    }

    /// The last line, after the last whole record.
    fn end(mut self, name: impl Into<String>) -> HandMade {
        self.lines.push_str(&format!("end {}\n", self.count));
        HandMade { name: name.into(), records: self.records, lines: self.lines }
    }

    /// Bytes with which the input ends inside a record.
    fn torn(mut self, name: impl Into<String>, bytes: &[u8]) -> HandMade {
        self.records.extend(bytes);
        self.lines.push_str(&format!("{} torn\n", self.count + 1));
        self.end(name)
    }

    fn good_identification(self) -> Self {
        self.record(IDENTIFICATION, &identification(), IDENTITY_LINE)
    }

    fn good_setup(self) -> Self {
        self.record(SETUP, &setup(), SETUP_LINE)
    }

    /// A packet without floors, of 64 or of 128, that finishes so many samples.
    fn short(self, samples: u64) -> Self {
        self.record(AUDIO, &[0], &format!("audio block 64 samples {samples} words 0"))
    }

    fn long(self, samples: u64) -> Self {
        self.record(AUDIO, &[2], &format!("audio block 128 samples {samples} words 0"))
    }

    fn audio_refused(self, number: u8) -> Self {
        self.record(AUDIO, &[0], &format!("refused {number}"))
    }

    /// Identification, setup, a short and a long packet: what comes next finds all in place.
    fn begun(self) -> Self {
        self.good_identification().good_setup().short(0).long(48)
    }
}

fn identification() -> Vec<u8> {
    write_identification(&IDENTITY).bytes
}

fn setup() -> Vec<u8> {
    base().pack()
}

/// One used floor, its channel coupled to the next: of each of two vectors three class words,
/// each of class 0 with four vectors.
fn thirty_words() -> Vec<u8> {
    let floor = [(1, 1), (200, 8), (100, 8), (1, 1), (0, 2)];
    pack(&[&[(0, 1), (0, 2)][..], &floor, &[(0, 2), (0, 32), (0, 22)]].concat())
}

/// A body of so many bytes that begins so.
fn filled(beginning: &[u8], length: usize) -> Vec<u8> {
    let mut body = beginning.to_vec();
    body.resize(length, 0);
    body
}

/// Every file.
pub fn all() -> Vec<HandMade> {
    let mut all = vec![
        Making::default().end("nothing at all"),
        too_long_of_each_kind(),
        too_long_of_each_length(),
        too_long_with_records_inside(),
        greatest_bodies(),
        unknown_kinds(),
        empty_bodies(),
        refused_identifications(),
        refused_setups(),
        nothing_before_its_need(),
        identification_again(),
        setup_again(),
        refused_audio(),
        words(),
        class_words_to_the_last_place(),
        numbers(),
    ];
    all.extend(torn());
    all
}

/// The file cut at every byte: every line but "too long", in few bytes.
pub fn small() -> HandMade {
    Making::default()
        .record(SETUP, &[], "refused 18")
        .begun()
        .record(4, &[0], "kind unknown")
        .record(AUDIO, &thirty_words(), "audio block 64 samples 48 words 30")
        .record(AUDIO, &[], "refused 1")
        .record(SETUP, &[5], "refused 1")
        .audio_refused(18)
        .end("small")
}

/// What asks for most: a place for every class word and vector of eight channels of the largest
/// block, and as many class words in one pass as there can be.
pub fn most() -> HandMade {
    let mut making = Making::default().record(IDENTIFICATION, &large_identification(), LARGE_LINE);
    for residue_type in 0..3 {
        for passes in [0, PASSES] {
            making = making
                .record(SETUP, &lone_setup(residue_type, 0xFF_FFFF, passes), "setup books 1 modes 1")
                .record(AUDIO, &NO_FLOOR, "audio block 8192 samples 0 words 0")
                .record(AUDIO, &one_floor(32_768 * (1 + passes)), "refused 17")
                .record(AUDIO, &NO_FLOOR, "audio block 8192 samples 4096 words 0");
        }
    }
    making.end("most places asked for")
}

/// Skipped whatever the kind, with what would be good in front; all stays as it was.
fn too_long_of_each_kind() -> HandMade {
    let length = GREATEST_BODY as usize + 1;
    Making::default()
        .begun()
        .record(IDENTIFICATION, &filled(&identification(), length), "too long")
        .long(64)
        .record(SETUP, &filled(&setup(), length), "too long")
        .long(64)
        .record(SETUP, &filled(&[], length), "too long")
        .long(64)
        .record(AUDIO, &filled(&[0], length), "too long")
        .long(64)
        .record(0, &filled(&[], length), "too long")
        .record(4, &filled(&[], length), "too long")
        .record(u16::MAX, &filled(&[], length), "too long")
        .short(48)
        .end("too long, of each kind")
}

/// Lengths whose low 16 bits would be short, or whose skipping ends at a buffer's end.
fn too_long_of_each_length() -> HandMade {
    let lengths = [49_153, 49_154, 65_535, 65_536, 65_537, 65_566, 98_304, 131_072, 131_078, 1 << 20];
    let making = lengths.into_iter().enumerate().fold(Making::default().begun(), |making, (i, length)| {
        let making = making.record(AUDIO, &filled(&[0], length), "too long");
        if i % 2 == 0 {
            making.long(64)
        } else {
            making
        }
    });
    making
        .record(AUDIO, &filled(&[0], 65_536), "too long")
        .end("too long, of each length, and the end behind one")
}

/// What is skipped is not read as records.
fn too_long_with_records_inside() -> HandMade {
    let inside = Making::default().good_identification().records.repeat(1_400);
    Making::default().begun().record(9, &inside, "too long").long(64).end("too long, with records inside")
}

/// 49,152 bytes are read; what follows the packet's last bit is ignored.
fn greatest_bodies() -> HandMade {
    let length = GREATEST_BODY as usize;
    Making::default()
        .record(IDENTIFICATION, &filled(&identification(), length), IDENTITY_LINE)
        .record(SETUP, &filled(&setup(), length), SETUP_LINE)
        .record(AUDIO, &filled(&[0], length), "audio block 64 samples 0 words 0")
        .record(AUDIO, &filled(&thirty_words(), length), "audio block 64 samples 32 words 30")
        .record(AUDIO, &filled(&[1], length), "refused 15")
        .record(4, &filled(&[], length), "kind unknown")
        .record(AUDIO, &filled(&[2], length - 1), "audio block 128 samples 48 words 0")
        .record(AUDIO, &filled(&[2], length + 1), "too long")
        .long(64)
        .end("bodies of 49,152, one less and one more")
}

/// Counted, and nothing is changed.
fn unknown_kinds() -> HandMade {
    let bodies = [vec![], vec![0], identification(), setup()];
    let making =
        UNKNOWN_KINDS.into_iter().enumerate().fold(Making::default().begun(), |making, (i, kind)| {
            making.record(kind, &bodies[i % bodies.len()], "kind unknown").long(64)
        });
    making.end("unknown kinds")
}

fn empty_bodies() -> HandMade {
    Making::default()
        .record(SETUP, &[], "refused 18")
        .record(AUDIO, &[], "refused 18")
        .record(IDENTIFICATION, &[], "refused 1")
        .record(0, &[], "kind unknown")
        .good_identification()
        .record(AUDIO, &[], "refused 18")
        .record(SETUP, &[], "refused 1")
        .record(AUDIO, &[], "refused 18")
        .good_setup()
        .record(AUDIO, &[], "refused 1")
        .short(0)
        .record(IDENTIFICATION, &[], "refused 1")
        .record(AUDIO, &[], "refused 1")
        .record(u16::MAX, &[], "kind unknown")
        .long(48)
        .end("empty bodies")
}

/// Between good ones; identity, tables and tally stay.
fn refused_identifications() -> HandMade {
    let good = identification();
    let with = |place: usize, value: u8| {
        let mut body = good.clone();
        body[place] = value;
        body
    };
    Making::default()
        .record(IDENTIFICATION, &with(0, 3), "refused 2")
        .record(SETUP, &setup(), "refused 18")
        .begun()
        .record(IDENTIFICATION, &with(0, 5), "refused 2")
        .long(64)
        .record(IDENTIFICATION, &with(7, 1), "refused 3")
        .long(64)
        .record(IDENTIFICATION, &with(11, 0), "refused 4")
        .long(64)
        .record(IDENTIFICATION, &with(11, 9), "refused 14")
        .long(64)
        .record(IDENTIFICATION, &with(29, 0), "refused 5")
        .long(64)
        .record(IDENTIFICATION, &good[..29], "refused 1")
        .long(64)
        .good_setup()
        .short(0)
        .good_identification()
        .record(IDENTIFICATION, &with(11, 0), "refused 4")
        .good_setup()
        .short(0)
        .end("refused identifications between good ones")
}

/// The tables are gone, the identity stays.
fn refused_setups() -> HandMade {
    let good = setup();
    let without_framing = base().with(&[("framing", 0)]).pack();
    Making::default()
        .begun()
        .record(SETUP, &[], "refused 1")
        .audio_refused(18)
        .record(AUDIO, &[], "refused 18")
        .record(SETUP, &without_framing, "refused 5")
        .audio_refused(18)
        .good_setup()
        .short(0)
        .long(48)
        .record(SETUP, &without_framing, "refused 5")
        .audio_refused(18)
        .good_setup()
        .long(0)
        .record(SETUP, &identification(), "refused 2")
        .audio_refused(18)
        .record(SETUP, &good[..good.len() - 1], "refused 1")
        .audio_refused(18)
        .good_setup()
        .short(0)
        .end("refused setups after good ones")
}

/// A setup before the identification is 18 whatever it is, and leaves nothing behind.
fn nothing_before_its_need() -> HandMade {
    Making::default()
        .audio_refused(18)
        .record(AUDIO, &[1], "refused 18")
        .record(SETUP, &setup(), "refused 18")
        .record(SETUP, &[1, 2, 3], "refused 18")
        .audio_refused(18)
        .good_identification()
        .audio_refused(18)
        .good_setup()
        .short(0)
        .end("setup and audio before what they need")
}

/// Equal or another, a good one clears tables and tally.
fn identification_again() -> HandMade {
    let other = Identity { rate: 48_000, block_sizes: [64, 256], ..IDENTITY };
    Making::default()
        .begun()
        .good_identification()
        .audio_refused(18)
        .record(AUDIO, &[], "refused 18")
        .good_setup()
        .short(0)
        .record(
            IDENTIFICATION,
            &write_identification(&other).bytes,
            "identity channels 3 rate 48000 blocks 64 256",
        )
        .audio_refused(18)
        .good_setup()
        .record(AUDIO, &[2], "audio block 256 samples 0 words 0")
        .short(80)
        .good_identification()
        .record(SETUP, &[], "refused 1")
        .audio_refused(18)
        .good_setup()
        .long(0)
        .end("a good identification again")
}

/// The tally starts anew.
fn setup_again() -> HandMade {
    Making::default()
        .begun()
        .good_setup()
        .long(0)
        .long(64)
        .short(48)
        .good_setup()
        .good_setup()
        .short(0)
        .short(32)
        .end("a good setup again")
}

/// The tally stays: the next packet counts from the last one accepted.
fn refused_audio() -> HandMade {
    Making::default()
        .good_identification()
        .good_setup()
        .record(AUDIO, &[1], "refused 15")
        .short(0)
        .record(AUDIO, &[], "refused 1")
        .long(48)
        .record(AUDIO, &[6], "refused 16")
        .record(AUDIO, &[3], "refused 15")
        .long(64)
        .record(AUDIO, &[1], "refused 15")
        .short(48)
        .end("refused audio between good")
}

/// Words read, and a packet cut after every byte: behind a beginning of 25 bits each 9 bits have a
/// class word of 1 bit and four vectors of 2.
fn words() -> HandMade {
    let packet = thirty_words();
    let counts = [0, 0, 0, 4, 8, 13, 17, 22, 26];
    let making = Making::default().good_identification().good_setup().record(
        AUDIO,
        &packet,
        "audio block 64 samples 0 words 30",
    );
    let making = counts.into_iter().enumerate().fold(making, |making, (i, count)| {
        let line = format!("audio block 64 samples 32 words {count}");
        making.record(AUDIO, &packet[..i + 1], &line)
    });
    making
        .record(AUDIO, &packet, "audio block 64 samples 32 words 30")
        .end("words of a packet cut after every byte")
}

/// 16,384 places are enough for as many words, and one word more is 17; the tally stays then. A
/// packet that ends in front of them has as many words as bits.
fn class_words_to_the_last_place() -> HandMade {
    let exact = "audio block 8192 samples 4096 words 16384";
    Making::default()
        .record(IDENTIFICATION, &large_identification(), LARGE_LINE)
        .record(SETUP, &lone_setup(2, 16_384, 0), "setup books 1 modes 1")
        .record(AUDIO, &one_floor(16_384), "audio block 8192 samples 0 words 16384")
        .record(AUDIO, &filled(&one_floor(16_384), 3_000), exact)
        .record(AUDIO, &one_floor(16_384 - 8), "audio block 8192 samples 4096 words 16381")
        .record(AUDIO, &NO_FLOOR, "audio block 8192 samples 4096 words 0")
        .record(SETUP, &lone_setup(2, 16_385, 0), "setup books 1 modes 1")
        .record(AUDIO, &one_floor(16_385), "refused 17")
        .record(AUDIO, &one_floor(0), "audio block 8192 samples 0 words 5")
        .record(AUDIO, &one_floor(16_385), "refused 17")
        .record(AUDIO, &NO_FLOOR, "audio block 8192 samples 4096 words 0")
        .record(SETUP, &lone_setup(1, 2_048, 0), "setup books 1 modes 1")
        .record(AUDIO, &one_floor(16_384), "audio block 8192 samples 0 words 16384")
        .record(AUDIO, &one_floor(16_384), exact)
        .end("16,384 words and one more")
}

/// Numbers of one to five digits, past 2^16.
fn numbers() -> HandMade {
    (0..70_000)
        .fold(Making::default(), |making, i| match i % 5 {
            0 => making.record(AUDIO, &[], "refused 18"),
            1 => making.record(IDENTIFICATION, &[1], "refused 1"),
            _ => making.record(i as u16 | 4, &[], "kind unknown"),
        })
        .end("70,000 records")
}

/// The input ends inside a record: in its header, behind it, in its body, in one too long.
fn torn() -> Vec<HandMade> {
    let mut files = Vec::new();
    let mut add = |name: String, bytes: &[u8]| {
        files.push(Making::default().torn(format!("first record torn: {name}"), bytes));
        files.push(Making::default().begun().torn(format!("fifth record torn: {name}"), bytes));
    };
    let record = Making::default().good_identification().records;
    for length in 1..6 {
        add(format!("{length} bytes of a header"), &record[..length]);
    }
    for length in [6, 7, record.len() - 1] {
        add(format!("{length} of {} bytes", record.len()), &record[..length]);
    }
    add("unknown kind".into(), &[2, 0, 0, 0, 9, 9, 1]);
    let too_long = Making::default().record(AUDIO, &filled(&[0], 65_600), "too long").records;
    for length in [6, 7, 49_157, 49_158, 49_159, 65_535, 65_536, 65_542, too_long.len() - 1] {
        add(format!("{length} of {} bytes, too long", too_long.len()), &too_long[..length]);
    }
    let greatest = Making::default().record(AUDIO, &filled(&[0], 49_152), "").records;
    add("the greatest body less a byte".into(), &greatest[..greatest.len() - 1]);
    add("the greatest length there is".into(), &[0xFF, 0xFF, 0xFF, 0xFF, 1, 0, 1, 2, 3]);
    add("half of the greatest length".into(), &filled(&[0, 0, 0, 0x80, 9, 9], 100_000));
    files.push(
        Making::default()
            .begun()
            .record(1, &filled(&[], 50_000), "too long")
            .torn("torn behind too long", &[9]),
    );
    files
}

/// Eight channels, blocks of 8,192 alone.
fn large_identification() -> Vec<u8> {
    write_identification(&Identity { channels: 8, block_sizes: [8_192, 8_192], ..IDENTITY }).bytes
}

/// Type and window flags 0, a used floor of two Y, seven unused ones: 27 bits, and behind them
/// as many for words, up to the end of the byte, of both values.
fn one_floor(words: usize) -> Vec<u8> {
    let mut packet = vec![0xA8; (27 + words).div_ceil(8)];
    packet[..3].copy_from_slice(&[8, 0, 0]);
    packet
}

/// Eight unused floors.
const NO_FLOOR: [u8; 2] = [0, 0];

/// One book with one used entry, which takes one bit: a class word for each place up to
/// `end`, and a vector in each of the passes. All channels are coupled to the first.
fn lone_setup(residue_type: u32, end: u32, passes: usize) -> Vec<u8> {
    let values =
        Values { lookup_type: 1, minimum: 0, delta: 0, width: 1, sequence: false, multiplicands: vec![0] };
    let setup = Setup {
        books: vec![Book::new(1, vec![1], Some(values)).expect("a sole entry of length 1")],
        floors: vec![Floor::new(vec![], vec![], 1, 7, vec![0, 128]).expect("two X that differ")],
        residues: vec![Residue {
            residue_type,
            begin: 0,
            end,
            partition_size: 1,
            class_book: 0,
            plan: vec![std::array::from_fn(|pass| (pass < passes).then_some(0))],
        }],
        mappings: vec![Mapping {
            couplings: (1..8).map(|channel| (0, channel)).collect(),
            multiplex: vec![],
            submaps: vec![Submap { floor: 0, residue: 0 }],
        }],
        modes: vec![Mode { long_block: true, mapping: 0 }],
    };
    write_setup(&setup, 8, &mut Random::new(0)).bytes
}
