//! One call many times, on the library or on the second program, with the same input. The
//! script `benchmark` counts its instructions and reports its time.
//!
//! The lent lists are not cleared between calls: what a call clears itself is part of it.
//! The second program makes new lists where it gives any.

use crate::audio::{Held, TOOL};
use crate::floor::{random_floor, Points};
use crate::identification::in_library_form;
use crate::lent::{OutputsMut, TablesMut};
use crate::{codewords, library};
use second::audio;
use second::book::verdict;
use second::floor::{curve, final_y, range};
use second::generate::content::complete_lengths;
use second::generate::random::Random;
use second::identification::{identification, Identity};
use second::limits::Limits;
use second::ogg;
use second::recognise::recognise;
use second::records::Kind;
use second::setup::setup;
use second::space::answers;
use second::tables::tables;
use std::error::Error;
use std::fs;
use std::hint::black_box;
use std::time::Instant;

/// The tool's example in 01.
const PACKET: [u8; 30] = [
    1, 0x76, 0x6F, 0x72, 0x62, 0x69, 0x73, 0, 0, 0, 0, 1, 0x40, 0x1F, 0, 0, 0, 0, 0, 0, 0, 0, 0, 0, 0, 0, 0,
    0, 0xB8, 1,
];

/// A common stereo stream, which `run` has made.
const STREAM: &str = "streams/build/made/channels-2-q4.ogg";

/// Settles every random input.
const SEED: u64 = 20;

#[derive(Clone, Copy, Debug, PartialEq, Eq)]
enum Side {
    Library,
    Second,
}

/// Runs a call so many times and prints the nanoseconds that one took.
pub fn run(input: &str, side: &str, times: &str) -> Result<(), Box<dyn Error>> {
    let times: u32 = times.parse()?;
    let side = match side {
        "library" => Side::Library,
        "second" => Side::Second,
        _ => return Err(format!("no side {side}").into()),
    };
    let mut call = call(input, side)?;
    let start = Instant::now();
    for _ in 0..times {
        call();
    }
    println!("{:.1}", start.elapsed().as_secs_f64() * 1e9 / f64::from(times));
    Ok(())
}

fn call(input: &str, side: Side) -> Result<Box<dyn FnMut()>, Box<dyn Error>> {
    Ok(match input {
        "identification" => identification_call(side),
        "enter_lengths" => enter_lengths_call(side),
        "codewords" => codewords_call(side),
        "points" => points_call(side),
        "curve1024" => curve_call(side, 1_024),
        "curve4096" => curve_call(side, 4_096),
        "setup" => setup_call(side)?,
        "setup_sound" => setup_sound_call(side)?,
        _ if input.ends_with(".ogg") => audio_packets_call(side, input)?,
        _ => return Err(format!("no input {input}").into()),
    })
}

fn identification_call(side: Side) -> Box<dyn FnMut()> {
    match side {
        Side::Library => Box::new(|| {
            black_box(library::identification(black_box(&PACKET)));
        }),
        Side::Second => Box::new(|| {
            black_box(identification(black_box(&PACKET))).ok();
        }),
    }
}

/// The lengths of a full book of 8,192 entries in any order.
fn book_lengths() -> Vec<u8> {
    let random = &mut Random::new(SEED);
    let mut lengths = complete_lengths(random, codewords::MOST_ENTRIES);
    random.shuffle(&mut lengths);
    lengths
}

fn enter_lengths_call(side: Side) -> Box<dyn FnMut()> {
    let lengths = book_lengths();
    let mut given = vec![0; lengths.len()];
    match side {
        Side::Library => Box::new(move || {
            black_box(library::enter_lengths(black_box(&lengths), black_box(&mut given)));
        }),
        Side::Second => Box::new(move || {
            black_box(answers(black_box(&lengths)));
        }),
    }
}

fn codewords_call(side: Side) -> Box<dyn FnMut()> {
    let lengths = book_lengths();
    let mut words = vec![0; lengths.len()];
    match side {
        Side::Library => Box::new(move || {
            black_box(library::codewords(black_box(&lengths), black_box(&mut words)));
        }),
        Side::Second => Box::new(move || {
            black_box(verdict(black_box(&lengths)));
        }),
    }
}

/// A floor of 65 points, all of them flagged, over half a block of 4,096.
fn largest_floor() -> Points {
    let random = &mut Random::new(SEED);
    loop {
        let floor = random_floor(random, 0);
        let inside =
            floor.values.iter().all(|&value| (1..range(floor.multiplier.into())).contains(&value.into()));
        if floor.x.len() == 65 && floor.x[1] == 4_096 && inside {
            return floor;
        }
    }
}

fn wide<T: Copy + Into<u32>>(list: &[T]) -> Vec<u32> {
    list.iter().map(|&number| number.into()).collect()
}

fn points_call(side: Side) -> Box<dyn FnMut()> {
    let Points { x, values, multiplier } = largest_floor();
    let (mut y, mut flags) = (vec![0; x.len()], vec![0; x.len()]);
    let (wide_x, wide_values) = (wide(&x), wide(&values));
    match side {
        Side::Library => Box::new(move || {
            let lent = (black_box(&mut y[..]), black_box(&mut flags[..]));
            black_box(library::floor_points(black_box(&x), black_box(&values), multiplier, lent.0, lent.1));
        }),
        Side::Second => Box::new(move || {
            black_box(final_y(black_box(&wide_x), black_box(&wide_values), range(multiplier.into())));
        }),
    }
}

fn curve_call(side: Side, half: usize) -> Box<dyn FnMut()> {
    let Points { x, values, multiplier } = largest_floor();
    let (mut y, mut flags) = (vec![0; x.len()], vec![0; x.len()]);
    library::floor_points(&x, &values, multiplier, &mut y, &mut flags);
    let (wide_x, wide_y) = (wide(&x), wide(&y));
    let set: Vec<bool> = flags.iter().map(|&flag| flag != 0).collect();
    let mut out = vec![0; half];
    match side {
        Side::Library => Box::new(move || {
            let drawn = library::floor_curve(black_box(&x), &y, &flags, multiplier, black_box(&mut out));
            black_box(drawn);
        }),
        Side::Second => Box::new(move || {
            black_box(curve(black_box(&wide_x), &wide_y, &set, multiplier.into(), half));
        }),
    }
}

/// A stream's packets.
struct Packets {
    identity: Identity,
    setup: Vec<u8>,
    audio: Vec<Vec<u8>>,
}

fn packets(path: &str) -> Result<Packets, Box<dyn Error>> {
    let file = fs::read(path).map_err(|fault| format!("{path}: {fault}"))?;
    let packets = ogg::packets(&file)?;
    let of_kind = |wanted| -> Result<Vec<Vec<u8>>, String> {
        let kinds = ogg::kinds(&packets)?;
        let found = kinds.into_iter().filter(|&(kind, _)| kind == wanted);
        Ok(found.map(|(_, packet)| packet.body.clone()).collect())
    };
    let first = of_kind(Kind::Identification)?.into_iter().next().ok_or("no identification")?;
    let identity = identification(&first).map_err(|fault| format!("{fault:?}"))?;
    let setup = of_kind(Kind::Setup)?.into_iter().next().ok_or("no setup")?;
    Ok(Packets { identity, setup, audio: of_kind(Kind::Audio)? })
}

/// Identity and setup packet of the stereo stream.
fn stereo() -> Result<(Identity, Vec<u8>), Box<dyn Error>> {
    let Packets { identity, setup, .. } = packets(STREAM)?;
    Ok((identity, setup))
}

/// One call reads all audio packets of a stream in order, into the tool's outputs.
fn audio_packets_call(side: Side, path: &str) -> Result<Box<dyn FnMut()>, Box<dyn Error>> {
    let Packets { identity, setup: setup_packet, audio: packets } = packets(path)?;
    let content = setup(&identity, &setup_packet, &Limits::BASE).map_err(|fault| format!("{fault:?}"))?;
    let (mut curves, mut words) = (vec![0; TOOL.curves], vec![0; TOOL.words]);
    let held = Held::new(&identity, content.clone());
    Ok(match side {
        Side::Library => Box::new(move || {
            let mut tally = library::Tally::default();
            for packet in black_box(&packets) {
                let lent = OutputsMut { curves: black_box(&mut curves), words: black_box(&mut words) };
                black_box(library::audio(&mut tally, held.identity, &held.tables, packet, lent));
            }
        }),
        Side::Second => Box::new(move || {
            let mut tally = audio::Tally::default();
            for packet in black_box(&packets) {
                let (curves, words) = (black_box(&mut curves), black_box(&mut words));
                black_box(audio::audio(&identity, &content, &mut tally, packet, curves, words)).ok();
            }
        }),
    })
}

/// The library clears and fills tables of the fixed need; the second program makes content.
fn setup_call(side: Side) -> Result<Box<dyn FnMut()>, Box<dyn Error>> {
    let (identity, packet) = stereo()?;
    let form = in_library_form(&identity);
    let mut lent = tables(&setup(&identity, &packet, &Limits::BASE).map_err(|fault| format!("{fault:?}"))?);
    Ok(match side {
        Side::Library => Box::new(move || {
            black_box(library::setup(form, black_box(&packet), TablesMut::from(black_box(&mut lent))));
        }),
        Side::Second => Box::new(move || {
            black_box(setup(&identity, black_box(&packet), &Limits::BASE)).ok();
        }),
    })
}

fn setup_sound_call(side: Side) -> Result<Box<dyn FnMut()>, Box<dyn Error>> {
    let (identity, packet) = stereo()?;
    let form = in_library_form(&identity);
    let tables = tables(&setup(&identity, &packet, &Limits::BASE).map_err(|fault| format!("{fault:?}"))?);
    Ok(match side {
        Side::Library => Box::new(move || {
            black_box(library::setup_sound(form, black_box(&tables)));
        }),
        Side::Second => Box::new(move || {
            black_box(recognise(&identity, black_box(&tables)));
        }),
    })
}
