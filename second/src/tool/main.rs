//! Compares the proved tool with the second program, byte for byte.
//!
//! | What is tried | Module |
//! |---|---|
//! | a run, with its limit of time | [`program`] |
//! | lines compared, the smallest case named | [`compared`] |
//! | record files, streams, generated records | here |
//! | cuts at every byte, chunks, slow writers | [`feeding`] |
//! | failing input and output, the exit status | [`failures`] |
//! | little stack, little memory, valgrind | [`limits`] |
//! | stand-ins for the tool, with and without faults | [`stand_in`] |

#![deny(unsafe_code)]

mod compared;
mod failures;
mod feeding;
mod limits;
mod program;
mod stand_in;

use compared::{compare, compare_with, Seen};
use program::Program;
use second::check::hand_made;
use second::generate::write_streams;
use second::ogg;
use second::outcome::{exit_code, Outcome};
use second::records::write_record;
use std::error::Error;
use std::path::{Path, PathBuf};
use std::process::ExitCode;
use std::sync::atomic::{AtomicUsize, Ordering};
use std::sync::Mutex;
use std::time::Instant;
use std::{env, fs, thread};

const USAGE: &str = "\
tool compare SEED COUNT [LIST FOLDER ..] -- PROGRAM [ARGUMENT ..]
                      all comparisons, with COUNT generated records or more
tool stand-in FAULT   the second program's lines with a fault, or with none
tool faults           finds every fault of the stand-ins";

/// Records of one generated file, or more: whole streams.
const RECORDS_OF_A_SEED: u64 = 1_000;

/// Parts of a small file's cuts, so that two runs go side by side.
const PARTS_OF_CUTS: usize = 4;

/// Failures after which no more is tried.
const MOST_FAILURES: usize = 3;

/// Tries a program in one way.
type Trial = dyn Fn(&Program) -> Result<Seen, String> + Send + Sync;

/// What is tried, under a name.
struct Job {
    name: String,
    run: Box<Trial>,
}

fn job(
    name: impl Into<String>,
    run: impl Fn(&Program) -> Result<Seen, String> + Send + Sync + 'static,
) -> Job {
    Job { name: name.into(), run: Box::new(run) }
}

fn main() -> ExitCode {
    let arguments: Vec<String> = env::args().skip(1).collect();
    let arguments: Vec<&str> = arguments.iter().map(String::as_str).collect();
    let outcome = match arguments[..] {
        ["compare", seed, count, ref rest @ ..] => compare_all(seed, count, rest),
        ["stand-in", fault] => return stand_in::run(fault),
        ["faults"] => faults(),
        _ => Err(USAGE.into()),
    };
    exit_code(outcome)
}

fn compare_all(seed: &str, count: &str, rest: &[&str]) -> Outcome {
    let (seed, count) = (seed.parse()?, count.parse::<u64>()?);
    let split = rest.iter().position(|&word| word == "--").ok_or(USAGE)?;
    let (lists, program) = (&rest[..split], Program::new(&rest[split + 1..]));
    let mut groups = vec![record_files()?, files_made_by_hand(), generated(seed, count)?];
    for pair in lists.chunks_exact(2) {
        groups.push(streams(pair[0], pair[1])?);
    }
    groups.push(ways_of_feeding()?);
    groups.push(failing());
    groups.push(limited(seed));
    let mut all = Seen::default();
    for (name, jobs) in groups {
        all.add(run_group(name, &jobs, &program)?);
    }
    println!("tool: runs {}, lines compared:", all.runs);
    let counted: Vec<String> = all.lines.iter().map(|(line, count)| format!("{line}: {count}")).collect();
    println!("tool: {}", counted.join(", "));
    match &missing(&all)[..] {
        [] => Ok(()),
        missing => Err(format!("tool: lines that never came: {}", missing.join(", ")).into()),
    }
}

/// Lines that have to come. No input of a size that can be had gives 19.
fn missing(seen: &Seen) -> Vec<String> {
    let lines = ["identity", "setup", "audio", "kind unknown", "too long", "torn", "end"].map(String::from);
    let refusals = (1..=18).map(|number| format!("refused {number}"));
    lines.into_iter().chain(refusals).filter(|line| !seen.lines.contains_key(line)).collect()
}

type Group = (&'static str, Vec<Job>);

/// Runs jobs on all processors, until some have failed; each of these is told.
fn run_group(name: &str, jobs: &[Job], program: &Program) -> Result<Seen, String> {
    let start = Instant::now();
    let (next, seen, failed) = (AtomicUsize::new(0), Mutex::new(Seen::default()), Mutex::new(Vec::new()));
    thread::scope(|scope| {
        for _ in 0..thread::available_parallelism().map_or(2, |count| count.get()) {
            scope.spawn(|| {
                while let Some(job) = jobs.get(next.fetch_add(1, Ordering::Relaxed)) {
                    if failed.lock().expect("no panic").len() >= MOST_FAILURES {
                        return;
                    }
                    match (job.run)(program) {
                        Ok(more) => seen.lock().expect("no panic").add(more),
                        Err(fault) => failed.lock().expect("no panic").push(format!("{}: {fault}", job.name)),
                    }
                }
            });
        }
    });
    let (seen, failed) = (seen.into_inner().expect("no panic"), failed.into_inner().expect("no panic"));
    if failed.is_empty() {
        let (tried, runs, seconds) = (jobs.len(), seen.runs, start.elapsed().as_secs_f32());
        println!("tool: {name}: {tried} tried in {runs} runs, no difference, {seconds:.1} s");
        Ok(seen)
    } else {
        Err(format!("tool: {name}: {} or more of {} failed\n{}", failed.len(), jobs.len(), failed.join("\n")))
    }
}

/// The files in records/ with their lines.
fn record_files() -> Result<Group, Box<dyn Error>> {
    let mut jobs = Vec::new();
    for path in paths_of_records()? {
        let (records, lines) = (fs::read(&path)?, fs::read_to_string(path.with_extension("lines"))?);
        let name = file_name(&path);
        jobs.push(job(name.clone(), move |program| {
            compare_with(&name, &records, &lines, |input| program.run_on(input))
        }));
    }
    Ok(("record files", jobs))
}

fn file_name(path: &Path) -> String {
    path.file_name().unwrap_or_default().to_string_lossy().into()
}

fn paths_of_records() -> Result<Vec<PathBuf>, Box<dyn Error>> {
    let folder = concat!(env!("CARGO_MANIFEST_DIR"), "/records");
    let mut paths = Vec::new();
    for entry in fs::read_dir(folder)? {
        let path = entry?.path();
        if path.extension().is_some_and(|extension| extension == "records") {
            paths.push(path);
        }
    }
    paths.sort();
    if paths.is_empty() {
        return Err(format!("no record files in {folder}").into());
    }
    Ok(paths)
}

fn files_made_by_hand() -> Group {
    let files = hand_made::all().into_iter().chain([hand_made::small(), hand_made::most()]);
    let jobs = files.map(|file| {
        job(file.name.clone(), move |program| {
            compare_with(&file.name, &file.records, &file.lines, |input| program.run_on(input))
        })
    });
    ("files made by hand", jobs.collect())
}

/// One file for each seed, until there are so many records; each ends in another way.
fn generated(seed: u64, count: u64) -> Result<Group, Box<dyn Error>> {
    let mut jobs = Vec::new();
    let mut records = 0;
    let mut seed = seed;
    while records < count {
        let mut input = Vec::new();
        let written = write_streams(seed, RECORDS_OF_A_SEED, &mut input)?;
        records += written.records;
        let name = format!("generated, seed {seed} (second generate {seed} {RECORDS_OF_A_SEED})");
        jobs.push(job(name.clone(), move |program| compare(&name, &input, |input| program.run_on(input))));
        seed += written.streams;
    }
    println!("tool: generated: seeds {}, whole records {records}", jobs.len());
    Ok(("generated files", jobs))
}

/// The streams of a list that are at hand.
fn streams(list: &str, folder: &str) -> Result<Group, Box<dyn Error>> {
    let mut jobs = Vec::new();
    let mut absent = 0;
    for line in fs::read_to_string(list)?.lines().filter(|line| !line.is_empty() && !line.starts_with('#')) {
        let path = Path::new(folder).join(line.splitn(3, ' ').nth(2).ok_or(format!("no path: {line}"))?);
        if !path.exists() {
            absent += 1;
            continue;
        }
        jobs.push(job(path.display().to_string(), move |program| {
            let records = stream_as_records(&path).map_err(|fault| fault.to_string())?;
            compare(&file_name(&path), &records, |input| program.run_on(input))
        }));
    }
    println!("tool: {folder}: streams {}, not at hand {absent}", jobs.len());
    Ok(("streams", jobs))
}

fn stream_as_records(path: &Path) -> Result<Vec<u8>, Box<dyn Error>> {
    let packets = ogg::packets(&fs::read(path)?)?;
    let mut records = Vec::new();
    for (kind, packet) in ogg::kinds(&packets)? {
        write_record(&mut records, kind, &packet.body)?;
    }
    Ok(records)
}

fn ways_of_feeding() -> Result<Group, Box<dyn Error>> {
    let mut jobs = Vec::new();
    let stream = concat!(env!("CARGO_MANIFEST_DIR"), "/records/small-stream.records");
    for input in [hand_made::small().records, fs::read(stream)?] {
        println!("tool: cut at every byte: a file of {} bytes", input.len());
        for part in 0..PARTS_OF_CUTS {
            let input = input.clone();
            let name = format!("{} bytes cut after {part} and every {PARTS_OF_CUTS} more", input.len());
            jobs.push(job(name, move |program| feeding::every_cut(program, &input, part, PARTS_OF_CUTS)));
        }
    }
    jobs.push(job("long records cut", feeding::cuts_of_long_records));
    jobs.push(job("long records in chunks", feeding::long_records));
    for sizes in feeding::small_sizes() {
        jobs.push(job(format!("chunks of {sizes:?}"), move |program| feeding::slowly(program, &sizes)));
    }
    for path in paths_of_records()? {
        let name = format!("{} from the file itself", file_name(&path));
        jobs.push(job(name, move |program| feeding::from_file(program, &path)));
    }
    Ok(("ways of feeding", jobs))
}

fn failing() -> Group {
    let jobs = vec![
        job("output is full", failures::full_device),
        job("nobody reads", failures::broken_pipe),
        job("input is closed", failures::closed_input),
        job("input is a directory", failures::directory),
        job("input fails later", failures::failing_behind_records),
    ];
    ("failing input and output", jobs)
}

fn limited(seed: u64) -> Group {
    let mut jobs = vec![
        job("64 KiB of stack", move |program| limits::little_stack(program, seed)),
        job("32 MiB of memory", limits::little_memory),
    ];
    if limits::has_valgrind() {
        jobs.push(job("valgrind", move |program| limits::under_valgrind(program, seed)));
    } else {
        println!("tool: no valgrind here, so nothing is tried under it");
    }
    ("limits", jobs)
}

/// Runs all comparisons on the stand-ins: the one without a fault passes, each other is found.
fn faults() -> Outcome {
    let path = env::current_exe()?;
    let path = path.to_str().ok_or("the path is no text")?;
    let jobs = || -> Result<Vec<Job>, Box<dyn Error>> {
        let groups = [
            record_files()?,
            files_made_by_hand(),
            generated(1, 1)?,
            ways_of_feeding()?,
            failing(),
            limited(1),
        ];
        Ok(groups.into_iter().flat_map(|(_, jobs)| jobs).collect())
    };
    let jobs = jobs()?;
    run_group("stand-in without a fault", &jobs, &Program::new(&[path, "stand-in", "none"]))?;
    for fault in stand_in::FAULTS {
        let program = Program::new(&[path, "stand-in", fault]);
        let found = jobs.iter().find(|job| (job.run)(&program).is_err());
        println!("found {fault:?}: {}", found.ok_or(format!("not found: {fault}"))?.name);
    }
    Ok(())
}
