//! Compares a run with the lines that are right, and where they differ makes the input as small
//! as it can.

use crate::program::Ended;
use second::lines::write_lines;
use std::collections::BTreeMap;
use std::fs;
use std::path::PathBuf;
use std::time::{Duration, Instant};

/// How long an input is made smaller.
const SHRINKING: Duration = Duration::from_secs(10);

/// Bytes of a record that are shown, and characters of standard error.
const SHOWN: usize = 200;
const SHOWN_ERRORS: usize = 1_000;

/// What was compared.
#[derive(Clone, Debug, Default)]
pub struct Seen {
    pub runs: u64,
    /// How often each line came, by what follows its number, without other numbers than a
    /// refusal's.
    pub lines: BTreeMap<String, u64>,
}

impl Seen {
    pub fn add(&mut self, other: Seen) {
        self.runs += other.runs;
        for (line, count) in other.lines {
            *self.lines.entry(line).or_default() += count;
        }
    }

    /// A run that was no comparison of lines.
    pub fn run() -> Seen {
        Seen { runs: 1, ..Seen::default() }
    }

    fn of(lines: &str) -> Seen {
        let mut seen = Seen::run();
        for line in lines.lines() {
            *seen.lines.entry(sort_of(line).into()).or_default() += 1;
        }
        seen
    }
}

fn sort_of(line: &str) -> &str {
    match line.split_once(' ') {
        Some(("end", _)) => "end",
        Some((_, rest)) if rest.starts_with("refused") => rest,
        Some((_, rest)) if rest.contains(|c: char| c.is_ascii_digit()) => {
            rest.split(' ').next().unwrap_or("")
        }
        Some((_, rest)) => rest,
        None => line,
    }
}

/// The second program's lines.
pub fn lines(input: &[u8]) -> String {
    let mut output = Vec::new();
    write_lines(&mut &input[..], &mut output).expect("memory");
    String::from_utf8(output).expect("text")
}

/// Compares the program with the second program on an input; `run` is how the program is run.
pub fn compare(
    name: &str,
    input: &[u8],
    run: impl Fn(&[u8]) -> Result<Ended, String>,
) -> Result<Seen, String> {
    compare_with(name, input, &lines(input), run)
}

/// Compares the program with lines that are right, the second program's or made by hand.
pub fn compare_with(
    name: &str,
    input: &[u8],
    right: &str,
    run: impl Fn(&[u8]) -> Result<Ended, String>,
) -> Result<Seen, String> {
    let Some(found) = difference(run(input)?, right) else {
        return Ok(Seen::of(right));
    };
    let again = |input: &[u8]| run(input).map_or_else(Some, |ended| difference(ended, &lines(input)));
    let smallest = smallest(input, |input| again(input).is_some());
    Err(format!("{found}\n{}", show(name, &smallest, again(&smallest))))
}

/// In what a run differs: how it ends, what it says besides, or its first wrong line.
pub fn difference(ended: Ended, right: &str) -> Option<String> {
    let errors: String = String::from_utf8_lossy(&ended.errors).chars().take(SHOWN_ERRORS).collect();
    let beside = format!("{}, standard error {errors:?}", ended.status);
    if ended.output != right.as_bytes() {
        return Some(format!(
            "{}; {beside}",
            first_wrong_line(&String::from_utf8_lossy(&ended.output), right)
        ));
    }
    let good = ended.status.code() == Some(0) && errors.is_empty();
    (!good).then(|| format!("the lines are right, but {beside}"))
}

fn first_wrong_line(given: &str, right: &str) -> String {
    let (mut given, mut right) = (given.split_inclusive('\n'), right.split_inclusive('\n'));
    for number in 1.. {
        let (given, right) = (given.next(), right.next());
        if given != right || given.is_none() {
            let [given, right] = [given, right].map(|line| line.unwrap_or(""));
            return format!("line {number}: the program gives {given:?}, right is {right:?}");
        }
    }
    unreachable!("lines that are more than can be counted")
}

/// The records of an input; the last may be torn.
fn split(input: &[u8]) -> Vec<&[u8]> {
    let mut records = Vec::new();
    let mut rest = input;
    while !rest.is_empty() {
        let length = rest.first_chunk().map_or(0, |&length| u32::from_le_bytes(length) as usize);
        let (record, behind) = rest.split_at((6 + length).min(rest.len()));
        records.push(record);
        rest = behind;
    }
    records
}

/// Leaves out records for as long as the two still differ.
fn smallest(input: &[u8], differs: impl Fn(&[u8]) -> bool) -> Vec<u8> {
    let start = Instant::now();
    let mut records = split(input);
    let mut width = records.len().div_ceil(2);
    while width > 0 {
        let mut place = 0;
        while place < records.len() {
            if start.elapsed() > SHRINKING {
                return records.concat();
            }
            let fewer = [&records[..place], &records[(place + width).min(records.len())..]].concat();
            if differs(&fewer.concat()) {
                records = fewer;
            } else {
                place += width;
            }
        }
        width /= 2;
    }
    records.concat()
}

/// The smallest case: its records and how its lines differ; it is kept beside the program.
fn show(name: &str, input: &[u8], difference: Option<String>) -> String {
    let file: String = name.chars().map(|c| if c.is_ascii_alphanumeric() { c } else { '-' }).collect();
    let path = PathBuf::from(concat!(env!("CARGO_MANIFEST_DIR"), "/target/tool"))
        .join(format!("{}.records", &file[file.len().saturating_sub(80)..]));
    let written = fs::create_dir_all(path.parent().expect("a folder")).and_then(|()| fs::write(&path, input));
    let records = split(input);
    let mut shown = format!("  smallest case, records {}, bytes {}", records.len(), input.len());
    match written {
        Ok(()) => shown += &format!(", in {}\n", path.display()),
        Err(fault) => shown += &format!(", not written: {fault}\n"),
    }
    for record in records.iter().take(12) {
        let hex: String = record.iter().take(SHOWN).map(|byte| format!("{byte:02x}")).collect();
        let more = if record.len() > SHOWN { ".." } else { "" };
        shown += &format!("    {} bytes: {hex}{more}\n", record.len());
    }
    shown + &format!("    there: {}", difference.unwrap_or("no difference when run again".into()))
}
