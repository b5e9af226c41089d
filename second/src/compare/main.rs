//! Compares the second reader with the proved library, call by call.
//!
//! | Call | Module |
//! |---|---|
//! | `torchvalley_identification` | [`identification`] |
//! | `torchvalley_identity_sound` | [`sound`] |
//! | `torchvalley_enter_lengths` | [`enter_lengths`] |
//! | `torchvalley_codewords` | [`codewords`] |
//! | `torchvalley_floor_points`, `torchvalley_floor_curve` | [`floor`] |
//! | `torchvalley_setup` | [`setup`] |
//! | `torchvalley_setup_sound` | [`setup_sound`] |
//! | `torchvalley_codeword` | [`codeword`] |
//! | `torchvalley_audio`, `torchvalley_audio_by_value` | [`audio`], [`audio_boundaries`] |
//!
//! A call that joins the library is declared in [`library`], gets a case in
//! [`report::Call`] with its answers, a module with `round`, and its place in [`rounds`]
//! and in [`streams`].

#![deny(unsafe_code)]

mod audio;
mod audio_boundaries;
mod benchmark;
mod codeword;
mod codewords;
mod enter_lengths;
mod floor;
mod identification;
mod lent;
mod library;
mod report;
mod setup;
mod setup_sound;
mod sound;
mod streams;

use report::Report;
use second::generate::random::Random;
use second::outcome::{exit_code, Outcome};
use std::path::Path;
use std::process::ExitCode;
use std::{env, fs};

const USAGE: &str = "\
compare calls SEED COUNT                  random inputs, COUNT calls or more
compare streams LIST FOLDER [...]         published streams of each list
compare bench INPUT SIDE TIMES            one call so many times, SIDE library or second
compare bench FILE.ogg SIDE TIMES         all audio packets of a stream so many times";

fn main() -> ExitCode {
    let arguments: Vec<String> = env::args().skip(1).collect();
    let arguments: Vec<&str> = arguments.iter().map(String::as_str).collect();
    let outcome = match arguments[..] {
        ["calls", seed, count] => calls(seed, count),
        ["streams", ref lists @ ..] if !lists.is_empty() && lists.len().is_multiple_of(2) => {
            streams_of(lists)
        }
        ["bench", input, side, times] => benchmark::run(input, side, times),
        _ => Err(USAGE.into()),
    };
    exit_code(outcome)
}

fn calls(seed: &str, count: &str) -> Outcome {
    let (seed, count) = (seed.parse()?, count.parse()?);
    let report = &mut Report::default();
    let rounds = rounds(seed, count, report)?;
    println!("compare: seed {seed}, rounds {rounds}, calls {}, no difference", report.calls());
    println!("{report}");
    match &report.missing()[..] {
        [] => Ok(()),
        missing => Err(format!("not given twice on both sides: {}", missing.join(", ")).into()),
    }
}

/// The boundaries, then a round of each call for `seed`, `seed + 1` and so on, until so
/// many calls have been compared.
fn rounds(seed: u64, count: u64, report: &mut Report) -> Result<u64, String> {
    let with_seed = |seed: u64| move |fault: String| format!("seed {seed}: {fault}");
    sound::boundaries(&mut Random::new(seed), report).map_err(with_seed(seed))?;
    enter_lengths::boundaries(report).map_err(with_seed(seed))?;
    codewords::boundaries(report).map_err(with_seed(seed))?;
    setup::boundaries(&mut Random::new(seed), report).map_err(with_seed(seed))?;
    codeword::boundaries(&mut Random::new(seed), report).map_err(with_seed(seed))?;
    audio_boundaries::boundaries(&mut Random::new(seed), report).map_err(with_seed(seed))?;
    let mut rounds = 0;
    while rounds == 0 || report.calls() < count {
        let seed = seed.wrapping_add(rounds);
        round(&mut Random::new(seed), report).map_err(with_seed(seed))?;
        rounds += 1;
    }
    Ok(rounds)
}

fn round(random: &mut Random, report: &mut Report) -> Result<(), String> {
    identification::round(random, report)?;
    sound::round(random, report)?;
    enter_lengths::round(random, report)?;
    codewords::round(random, report)?;
    floor::round(random, report)?;
    setup::round(random, report)?;
    audio::round(random, report)
}

fn streams_of(lists: &[&str]) -> Outcome {
    let report = &mut Report::default();
    let mut seen = streams::Seen::default();
    for pair in lists.chunks_exact(2) {
        streams::list(&fs::read_to_string(pair[0])?, Path::new(pair[1]), report, &mut seen)?;
    }
    let streams::Seen { streams, absent, setups, setups_accepted, books, floors, packets, cuts } = seen;
    println!(
        "compare: streams {streams}, not at hand {absent}, setups {setups} ({setups_accepted} accepted), \
         books {books}, audio packets {packets}, of these cut after every byte {cuts}, floors {floors}, \
         no difference"
    );
    println!("{report}");
    Ok(())
}
