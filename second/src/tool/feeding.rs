//! The same records fed otherwise: cut at a byte, in chunks, from a file. How the input arrives
//! must not show in the output.

use crate::compared::{compare, Seen};
use crate::program::{Ended, Program};
use second::check::hand_made;
use second::generate::random::Random;
use std::fs::{self, File};
use std::io::Write;
use std::path::Path;
use std::process::Stdio;
use std::thread;
use std::time::Duration;

/// A slow writer waits so long between chunks, so that most of them are read one by one.
const PAUSE: Duration = Duration::from_micros(150);

/// Chunks up to the pipe's own size and beyond; 6 is a header's, 49,152 and 49,158 the greatest
/// body's without and with it.
const LARGE_CHUNKS: [usize; 9] = [4_095, 4_096, 49_152, 49_153, 49_158, 65_535, 65_536, 65_537, 1 << 20];

/// A small file cut at every byte.
pub fn every_cut(program: &Program, input: &[u8], part: usize, parts: usize) -> Result<Seen, String> {
    let mut seen = Seen::default();
    for length in (part..=input.len()).step_by(parts) {
        seen.add(compare(&format!("cut after {length}"), &input[..length], |input| program.run_on(input))?);
    }
    Ok(seen)
}

/// Files with bodies of 49,152 and more, cut around the places where a buffer may end.
pub fn cuts_of_long_records(program: &Program) -> Result<Seen, String> {
    let mut seen = Seen::default();
    for name in
        ["bodies of 49,152, one less and one more", "too long, of each length, and the end behind one"]
    {
        let file = hand_made::all().into_iter().find(|file| file.name == name).ok_or("no such file")?;
        let mut at = 0;
        while at < file.records.len() {
            let length =
                u32::from_le_bytes(file.records[at..at + 4].try_into().expect("four bytes")) as usize;
            let end = at + 6 + length;
            for place in [at + 1, at + 5, at + 6, at + 7, at + 6 + 49_152, at + 6 + 49_153, end - 1, end] {
                if place <= end {
                    let cut = &file.records[..place];
                    seen.add(compare(&format!("cut after {place}"), cut, |input| program.run_on(input))?);
                }
            }
            at = end;
        }
    }
    Ok(seen)
}

/// In chunks of these sizes in turn.
fn fed(program: &Program, input: &[u8], sizes: &[usize], pause: Duration) -> Result<Ended, String> {
    program.run(|mut pipe| {
        let mut rest = input;
        for &size in sizes.iter().cycle() {
            let (chunk, behind) = rest.split_at(size.min(rest.len()));
            if rest.is_empty() || pipe.write_all(chunk).is_err() {
                return;
            }
            rest = behind;
            thread::sleep(pause);
        }
    })
}

/// The small file by a slow writer: byte by byte, and by other small sizes.
pub fn slowly(program: &Program, sizes: &[usize]) -> Result<Seen, String> {
    let name = format!("chunks of {sizes:?}, slowly");
    compare(&name, &hand_made::small().records, |input| fed(program, input, sizes, PAUSE))
}

/// Sizes for the small file.
pub fn small_sizes() -> Vec<Vec<usize>> {
    let random = &mut Random::new(1);
    let mixed = (0..40).map(|_| random.between(1, 40) as usize).collect();
    vec![
        vec![1],
        vec![2],
        vec![3],
        vec![5],
        vec![6],
        vec![7],
        vec![6, 1],
        vec![13],
        vec![31],
        vec![97],
        mixed,
    ]
}

/// Long records by chunks of large sizes, the first of another size, so that chunks end anywhere;
/// some byte by byte without a pause.
pub fn long_records(program: &Program) -> Result<Seen, String> {
    let mut seen = Seen::default();
    let files =
        hand_made::all().into_iter().filter(|file| (100_000..2_000_000).contains(&file.records.len()));
    for (number, file) in files.enumerate() {
        for &size in &LARGE_CHUNKS {
            let name = format!("{}, chunks of {size}", file.name);
            let sizes = [size, size, size - number];
            seen.add(compare(&name, &file.records, |input| fed(program, input, &sizes, PAUSE))?);
        }
    }
    let bytewise = hand_made::all().into_iter().find(|file| file.name == "torn behind too long");
    let file = bytewise.ok_or("no such file")?;
    seen.add(compare("bytes one by one, quickly", &file.records, |input| {
        fed(program, input, &[1], Duration::ZERO)
    })?);
    Ok(seen)
}

/// From a file and not through a pipe.
pub fn from_file(program: &Program, path: &Path) -> Result<Seen, String> {
    let input = fs::read(path).map_err(|fault| fault.to_string())?;
    compare(&format!("{} as a file", path.display()), &input, |_| {
        let file = File::open(path).map_err(|fault| fault.to_string())?;
        program.run_between(file.into(), Stdio::piped())
    })
}
