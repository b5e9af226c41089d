//! Input and output that fail. The exit status tells it: 0 where the input was read to its end,
//! 1 where standard output failed, 2 where standard input did, with a message on standard error.

use crate::compared::{lines, Seen};
use crate::program::{Ended, Program};
use second::check::hand_made;
use std::fs::{File, OpenOptions};
use std::io::Write;
use std::os::fd::OwnedFd;
use std::os::unix::net::UnixStream;
use std::os::unix::process::ExitStatusExt;
use std::process::Stdio;
use std::time::Duration;

/// A program that can write no more ends in this time.
const PROMPTLY: Duration = Duration::from_secs(10);

/// The signal that a writer gets when nobody reads.
const SIGPIPE: i32 = 13;

/// Standard output takes nothing: status 1, whether the input ends or not.
pub fn full_device(program: &Program) -> Result<Seen, String> {
    let full = || -> Result<Stdio, String> {
        Ok(OpenOptions::new().write(true).open("/dev/full").map_err(|fault| fault.to_string())?.into())
    };
    let records = hand_made::small().records;
    for block in [&records[..], &[0, 0, 0, 0, 9, 9]] {
        let ended = program.run_without_end(block, Some(full()?), PROMPTLY)?;
        status(&ended, 1, "into /dev/full, an input without end")?;
    }
    let (ours, theirs) = UnixStream::pair().map_err(|fault| fault.to_string())?;
    (&ours).write_all(&records).map_err(|fault| fault.to_string())?;
    drop(ours);
    let ended = program.run_between(OwnedFd::from(theirs).into(), full()?)?;
    status(&ended, 1, "into /dev/full, a short input")?;
    Ok(Seen { runs: 3, ..Seen::default() })
}

/// The reader goes away while the input goes on: status 1, or the signal of it.
pub fn broken_pipe(program: &Program) -> Result<Seen, String> {
    for block in [hand_made::small().records, [0, 0, 0, 0, 9, 9].repeat(1_000)] {
        let ended = program.run_without_end(&block, None, PROMPTLY)?;
        if ended.status.signal() != Some(SIGPIPE) {
            status(&ended, 1, "nobody reads")?;
        }
        let ignoring = program.in_shell("trap '' PIPE && exec \"$@\"");
        let ended = ignoring.run_without_end(&block, None, PROMPTLY)?;
        status(&ended, 1, "nobody reads, and the signal is ignored")?;
    }
    Ok(Seen { runs: 4, ..Seen::default() })
}

/// Standard input is closed.
pub fn closed_input(program: &Program) -> Result<Seen, String> {
    input_failed(&program.in_shell("exec \"$@\" <&-").run(|_| ())?, "", "a closed input")?;
    Ok(Seen::run())
}

/// Standard input is a directory.
pub fn directory(program: &Program) -> Result<Seen, String> {
    let root = File::open("/").map_err(|fault| fault.to_string())?;
    input_failed(&program.run_between(root.into(), Stdio::piped())?, "", "a directory as input")?;
    Ok(Seen::run())
}

/// Standard input fails behind some whole records, at one's end, in a header and in a body: a
/// socket whose other end is closed with a byte unread gives what was written, then an error.
pub fn failing_behind_records(program: &Program) -> Result<Seen, String> {
    let small = hand_made::small();
    let mut runs = 0;
    for length in [6, 42, 43, 45, 48, 49, 100, small.records.len()] {
        let (ours, theirs) = UnixStream::pair().map_err(|fault| fault.to_string())?;
        let written = (&theirs).write_all(&[0]).and_then(|()| (&ours).write_all(&small.records[..length]));
        written.map_err(|fault| fault.to_string())?;
        drop(ours);
        let ended = program.run_between(OwnedFd::from(theirs).into(), Stdio::piped())?;
        let right = lines(&small.records[..length]);
        input_failed(&ended, &right, &format!("an input that fails after {length} bytes"))?;
        runs += 1;
    }
    Ok(Seen { runs, ..Seen::default() })
}

/// Status 2, a message, and nothing but the lines of records that were read whole; no last line.
fn input_failed(ended: &Ended, right: &str, what: &str) -> Result<(), String> {
    status(ended, 2, what)?;
    let output = String::from_utf8_lossy(&ended.output);
    if ended.errors.is_empty() {
        return Err(format!("{what}: no message on standard error"));
    }
    let last = output.lines().last().unwrap_or("");
    let whole = output.is_empty() || output.ends_with('\n');
    if !right.starts_with(&*output) || !whole || last.starts_with("end") || last.ends_with("torn") {
        return Err(format!("{what}: it writes {output:?}"));
    }
    Ok(())
}

fn status(ended: &Ended, right: i32, what: &str) -> Result<(), String> {
    if ended.status.code() == Some(right) {
        return Ok(());
    }
    let errors = String::from_utf8_lossy(&ended.errors);
    Err(format!("{what}: it ends with {}, and not with status {right}; it says {errors:?}", ended.status))
}
