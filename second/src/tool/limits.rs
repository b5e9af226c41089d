//! Runs with little stack, with little memory, and under valgrind.

use crate::compared::{compare, compare_with, difference, lines, Seen};
use crate::program::Program;
use second::check::hand_made;
use second::generate::content::largest_setup;
use second::generate::fields::IDENTITY;
use second::generate::packet::AudioWriter;
use second::generate::random::Random;
use second::generate::write_streams;
use second::identification::Identity;
use second::records::{write_record, write_record_of, Kind, GREATEST_BODY};
use second::write::{write_identification, write_setup};
use std::io::Write;
use std::process::{Command, Stdio};

/// A shell's command that leaves 64 KiB of stack.
const LITTLE_STACK: &str = "ulimit -s 64 && exec \"$@\"";

/// A shell's command that leaves 32 MiB of memory.
const LITTLE_MEMORY: &str = "ulimit -v 32768 && exec \"$@\"";

/// How much goes through in little memory: bytes of large records, and a number of small ones.
const BYTES: usize = 200 << 20;
const SMALL_RECORDS: usize = 1_000_000;

/// As many books, floors, mappings and modes as there may be, and as many residues as fit into a
/// record's body with them; then audio packets.
fn largest(seed: u64) -> Vec<u8> {
    let random = &mut Random::new(seed);
    let identity = Identity { channels: 8, block_sizes: [64, 8_192], ..IDENTITY };
    let mut content = largest_setup(random, &identity);
    content.residues.truncate(22);
    for submap in content.mappings.iter_mut().flat_map(|mapping| &mut mapping.submaps) {
        submap.residue %= 22;
    }
    let setup = write_setup(&content, identity.channels, random).bytes;
    assert!(setup.len() as u64 <= GREATEST_BODY, "the largest setup has {} bytes", setup.len());
    let writer = AudioWriter::new(&identity, &content);
    let mut records = Vec::new();
    let mut write = |kind, body: &[u8]| write_record(&mut records, kind, body).expect("memory");
    write(Kind::Identification, &write_identification(&identity).bytes);
    write(Kind::Setup, &setup);
    for _ in 0..12 {
        write(Kind::Audio, &writer.packet(random).written.bytes);
    }
    records
}

/// Records that ask for most, with 64 KiB of stack.
pub fn little_stack(program: &Program, seed: u64) -> Result<Seen, String> {
    let program = program.in_shell(LITTLE_STACK);
    let most = hand_made::most();
    let mut seen =
        compare_with("64 KiB of stack", &most.records, &most.lines, |input| program.run_on(input))?;
    for seed in seed..seed + 2 {
        let name = format!("64 KiB of stack, the largest setup, seed {seed}");
        let input = largest(seed);
        let setups = lines(&input).matches("2 setup books 256 modes 64\n").count();
        if setups != 1 {
            return Err(format!("{name}: the second program refuses it"));
        }
        seen.add(compare(&name, &input, |input| program.run_on(input))?);
    }
    Ok(seen)
}

/// A block of records that begins with a good identification, so that it gives the same lines
/// whatever was before: packets, greatest bodies, and records that are too long.
fn large_block() -> Vec<u8> {
    let mut block = Vec::new();
    write_record(&mut block, Kind::Identification, &write_identification(&IDENTITY).bytes).expect("memory");
    block.extend(hand_made::small().records);
    let greatest = vec![0; GREATEST_BODY as usize];
    for (kind, body) in [(3, &greatest[..]), (9, &greatest), (2, &[0; 300_000]), (9, &[0; 2_000_000])] {
        write_record_of(&mut block, kind, body).expect("memory");
    }
    block
}

/// The lines of so many repetitions, without the last line.
fn repeated_lines(block: &[u8], times: usize) -> String {
    let once = lines(block);
    let whole = once.lines().count() - 1;
    let mut lines = String::new();
    for time in 0..times {
        for (number, line) in (time * whole + 1..).zip(once.lines().take(whole)) {
            let (_, rest) = line.split_once(' ').expect("a number");
            lines += &format!("{number} {rest}\n");
        }
    }
    lines + &format!("end {}\n", times * whole)
}

/// Three records of which no line depends on what was before.
const SMALL_BLOCK: [u8; 19] = [0, 0, 0, 0, 9, 9, 0, 0, 0, 0, 1, 0, 1, 0, 0, 0, 2, 0, 7];

/// Large records and small ones again and again, in 32 MiB of memory.
pub fn little_memory(program: &Program) -> Result<Seen, String> {
    let program = program.in_shell(LITTLE_MEMORY);
    let large = large_block();
    let mut seen = Seen::default();
    for (block, times) in [(&large[..], BYTES / large.len() + 1), (&SMALL_BLOCK, SMALL_RECORDS / 3)] {
        let written = block.repeat((1 << 16) / block.len() + 1);
        let every = written.len() / block.len();
        let right = repeated_lines(block, times.div_ceil(every) * every);
        let ended = program.run(|mut input| {
            for _ in 0..times.div_ceil(every) {
                if input.write_all(&written).is_err() {
                    return;
                }
            }
        });
        if let Some(difference) = difference(ended?, &right) {
            return Err(format!("32 MiB of memory, blocks of {} bytes: {difference}", block.len()));
        }
        seen.add(Seen::run());
    }
    Ok(seen)
}

/// Whether there is valgrind.
pub fn has_valgrind() -> bool {
    let mut command = Command::new("valgrind");
    command.arg("--version").stdout(Stdio::null()).stderr(Stdio::null());
    command.status().is_ok_and(|status| status.success())
}

/// Files made by hand and a generated one under memcheck, which shows reads of memory that was
/// never written and accesses outside.
pub fn under_valgrind(program: &Program, seed: u64) -> Result<Seen, String> {
    let program = program.under(&["valgrind", "--quiet", "--error-exitcode=99", "--exit-on-first-error=yes"]);
    let mut generated = Vec::new();
    write_streams(seed, 1, &mut generated).map_err(|fault| fault.to_string())?;
    let short =
        hand_made::all().into_iter().filter(|file| file.records.len() < 300_000 && file.name.len() < 60);
    let mut whole = hand_made::small().records;
    for file in short.filter(|file| !file.lines.contains("torn")) {
        whole.extend(file.records);
    }
    whole.extend(hand_made::most().records);
    let mut seen = Seen::default();
    for (name, input) in [("made by hand", &whole), ("generated", &generated), ("largest", &largest(seed))] {
        let name = format!("valgrind, {name}, seed {seed}");
        if let Some(difference) = difference(program.run_on(input)?, &lines(input)) {
            return Err(format!("{name}: {difference}"));
        }
        seen.add(Seen::run());
    }
    Ok(seen)
}
