//! Stands in for the program: the second program's lines, as they are or with one fault. The
//! comparisons have to pass the first and to find each fault.

use second::audio::{audio, Tally};
use second::identification::{identification, Identity};
use second::limits::Limits;
use second::lines::{line, Accepted};
use second::refusal::Refusal;
use second::setup::{setup, Setup};
use std::hint::black_box;
use std::io::{self, Read, Write};
use std::process::ExitCode;

/// Every fault, by its name on the command line.
pub const FAULTS: [&str; 51] = [
    "too long has another line",
    "too long is no record",
    "too long is an unknown kind first",
    "too long is not skipped",
    "too long is skipped by a byte less",
    "too long begins at 49,152",
    "too long begins at 49,154",
    "too long clears the tables",
    "too long at the end is torn",
    "torn in too long is too long",
    "torn in an unknown kind is kind unknown",
    "torn in a header is the end",
    "torn counts as a record",
    "torn has no last line",
    "torn goes on",
    "a record at the end is torn",
    "kind of one byte",
    "kind in the other order",
    "kind 0 is the end",
    "kind unknown clears the tables",
    "kind unknown is no record",
    "length of two bytes",
    "length of three bytes",
    "refused setup keeps the tables",
    "refused setup clears the identity",
    "refused setup clears the tally alone",
    "setup keeps the tally",
    "setup without identification is read",
    "refused identification clears the identity",
    "refused identification clears the tables",
    "refused identification clears the tally",
    "identification keeps the tables",
    "equal identification keeps the tables",
    "refused audio clears the tally",
    "places of one word less",
    "places of one word more",
    "samples so far",
    "numbers from 0",
    "numbers of 16 bits",
    "the last line counts one more",
    "no newline behind the last line",
    "a short read is the end",
    "a full read loses a byte",
    "a read of one byte is passed over",
    "a record that goes on in another read is torn",
    "output over 65,536 bytes is lost",
    "failing output is not told",
    "failing input is the end",
    "failing input has no message",
    "stack of 256 KiB",
    "memory for every record",
];

/// Bytes of one read.
const FILL: usize = 1 << 16;

/// What a header says, or that the input ends.
enum Header {
    Record(u64, u16),
    Torn,
    End,
}

/// Why the run stops early.
enum Stop {
    Input(io::Error),
    Output,
}

struct StandIn<'a> {
    fault: &'a str,
    input: &'a mut dyn Read,
    output: Vec<u8>,
    written: usize,
    identity: Option<Identity>,
    setup: Option<Setup>,
    tally: Tally,
    kept: Vec<Vec<u8>>,
    /// What was read last, and how much of it is taken.
    buffer: Vec<u8>,
    at: usize,
    ended: bool,
}

pub fn run(fault: &str) -> ExitCode {
    if fault != "none" && !FAULTS.contains(&fault) {
        eprintln!("no such fault: {fault}");
        return ExitCode::from(9);
    }
    let input = &mut io::stdin().lock();
    // Rust opens /dev/null in the place of a closed input.
    let closed = std::fs::read_link("/proc/self/fd/0").is_ok_and(|path| path.ends_with("null"));
    let mut stand_in = StandIn {
        fault,
        input,
        output: Vec::new(),
        written: 0,
        identity: None,
        setup: None,
        tally: Tally::default(),
        kept: Vec::new(),
        buffer: Vec::new(),
        at: 0,
        ended: false,
    };
    let outcome = match closed {
        true => Err(Stop::Input(io::ErrorKind::NotFound.into())),
        false => stand_in.records(),
    };
    let told = |status| if fault == "failing output is not told" { ExitCode::SUCCESS } else { status };
    match outcome.and_then(|()| stand_in.flush()) {
        Ok(()) => ExitCode::SUCCESS,
        Err(Stop::Output) => told(ExitCode::from(1)),
        Err(Stop::Input(reason)) => {
            if fault != "failing input has no message" {
                eprintln!("standard input: {reason}");
            }
            ExitCode::from(2)
        }
    }
}

/// Takes so much stack.
#[inline(never)]
fn on_stack<const N: usize>(number: u8) -> u8 {
    let bytes = black_box([number; N]);
    bytes.iter().fold(0, |sum, byte| sum ^ byte)
}

impl StandIn<'_> {
    fn has(&self, fault: &str) -> bool {
        self.fault == fault
    }

    fn records(&mut self) -> Result<(), Stop> {
        if self.has("stack of 256 KiB") {
            black_box(on_stack::<{ 256 << 10 }>(1));
        }
        let mut whole = 0u64;
        loop {
            let number = if self.has("numbers from 0") { whole } else { whole + 1 };
            let number = if self.has("numbers of 16 bits") { number & 0xFFFF } else { number };
            let rest = match self.header()? {
                Header::End => break,
                Header::Torn if self.has("torn in a header is the end") => break,
                Header::Torn => "torn".into(),
                Header::Record(length, kind) => self.record(length, kind)?,
            };
            match &rest[..] {
                "" => continue,
                "torn" => {
                    self.write(&format!("{number} torn\n"))?;
                    whole += u64::from(self.has("torn counts as a record"));
                    if self.has("torn has no last line") {
                        return Ok(());
                    }
                    if !self.has("torn goes on") {
                        break;
                    }
                }
                _ => self.write(&format!("{number} {rest}\n"))?,
            }
            whole += 1;
        }
        let whole = whole + u64::from(self.has("the last line counts one more"));
        let newline = if self.has("no newline behind the last line") { "" } else { "\n" };
        self.write(&format!("end {whole}{newline}"))
    }

    /// Up to so many bytes, fewer at the input's end.
    fn read(&mut self, length: u64) -> Result<Vec<u8>, Stop> {
        let mut bytes = Vec::new();
        while (bytes.len() as u64) < length {
            if self.at == self.buffer.len() {
                let begun = !bytes.is_empty() && self.has("a record that goes on in another read is torn");
                if begun || self.ended || self.fill()? == 0 {
                    break;
                }
            }
            let count = (self.buffer.len() - self.at).min((length - bytes.len() as u64) as usize);
            bytes.extend(&self.buffer[self.at..self.at + count]);
            self.at += count;
        }
        Ok(bytes)
    }

    /// One read of up to 65,536 bytes.
    fn fill(&mut self) -> Result<usize, Stop> {
        self.buffer.resize(FILL, 0);
        let count = loop {
            match self.input.read(&mut self.buffer) {
                Err(reason) if reason.kind() == io::ErrorKind::Interrupted => {}
                Err(_) if self.has("failing input is the end") => break 0,
                read => break read.map_err(Stop::Input)?,
            }
        };
        self.ended = count < FILL && self.has("a short read is the end");
        let lost = usize::from(count == FILL && self.has("a full read loses a byte"));
        self.buffer.truncate(count - lost);
        self.at = usize::from(count == 1 && self.has("a read of one byte is passed over"));
        Ok(count)
    }

    /// Whether the input ends here.
    fn at_end(&mut self) -> Result<bool, Stop> {
        Ok(self.at == self.buffer.len() && self.fill()? == 0)
    }

    fn header(&mut self) -> Result<Header, Stop> {
        let bytes = self.read(6)?;
        let &[l0, l1, l2, l3, k0, k1] = &bytes[..] else {
            return Ok(if bytes.is_empty() { Header::End } else { Header::Torn });
        };
        let length = match self.fault {
            "length of two bytes" => [l0, l1, 0, 0],
            "length of three bytes" => [l0, l1, l2, 0],
            _ => [l0, l1, l2, l3],
        };
        let kind = match self.fault {
            "kind of one byte" => [k0, 0],
            "kind in the other order" => [k1, k0],
            _ => [k0, k1],
        };
        let kind = u16::from_le_bytes(kind);
        if self.has("kind 0 is the end") && kind == 0 {
            return Ok(Header::End);
        }
        Ok(Header::Record(u64::from(u32::from_le_bytes(length)), kind))
    }

    /// The record's line without its number; none where the fault says so.
    fn record(&mut self, length: u64, kind: u16) -> Result<String, Stop> {
        let greatest = match self.fault {
            "too long begins at 49,152" => 49_151,
            "too long begins at 49,154" => 49_153,
            _ => 49_152,
        };
        let known = (1..=3).contains(&kind);
        if length > greatest && (known || !self.has("too long is an unknown kind first")) {
            return self.too_long(length);
        }
        let body = self.read(length)?;
        if (body.len() as u64) < length {
            let taken = self.has("torn in an unknown kind is kind unknown") && !known;
            return Ok(if taken { "kind unknown" } else { "torn" }.into());
        }
        if self.has("a record at the end is torn") && self.at_end()? {
            return Ok("torn".into());
        }
        if self.has("memory for every record") {
            self.kept.push(body.clone());
        }
        Ok(match kind {
            1 => line(&self.identification(&body)),
            2 => line(&self.setup(&body)),
            3 => line(&self.audio(&body)),
            _ if self.has("kind unknown is no record") => String::new(),
            _ => {
                if self.has("kind unknown clears the tables") {
                    self.setup = None;
                }
                "kind unknown".into()
            }
        })
    }

    fn too_long(&mut self, length: u64) -> Result<String, Stop> {
        let mut left = match self.fault {
            "too long is not skipped" => 0,
            "too long is skipped by a byte less" => length - 1,
            _ => length,
        };
        while left > 0 {
            let count = self.read(left.min(1 << 15))?.len() as u64;
            if count == 0 && !self.has("torn in too long is too long") {
                return Ok("torn".into());
            }
            left = if count == 0 { 0 } else { left - count };
        }
        if self.has("too long at the end is torn") && self.at_end()? {
            return Ok("torn".into());
        }
        if self.has("too long clears the tables") {
            self.setup = None;
        }
        Ok(match self.fault {
            "too long has another line" => "too-long",
            "too long is no record" => "",
            _ => "too long",
        }
        .into())
    }

    fn identification(&mut self, body: &[u8]) -> Result<Accepted, Refusal> {
        let identity = match identification(body) {
            Ok(identity) => identity,
            Err(refusal) => {
                match self.fault {
                    "refused identification clears the identity" => self.identity = None,
                    "refused identification clears the tables" => self.setup = None,
                    "refused identification clears the tally" => self.tally = Tally::default(),
                    _ => {}
                }
                return Err(refusal);
            }
        };
        let keeps = match self.fault {
            "identification keeps the tables" => true,
            "equal identification keeps the tables" => self.identity == Some(identity),
            _ => false,
        };
        if !keeps {
            self.setup = None;
            self.tally = Tally::default();
        }
        self.identity = Some(identity);
        Ok(Accepted::Identity(identity))
    }

    fn setup(&mut self, body: &[u8]) -> Result<Accepted, Refusal> {
        let unsound = Refusal::without_place(18);
        let sound = second::generate::fields::IDENTITY;
        let assumed = self.has("setup without identification is read").then_some(sound);
        let identity = self.identity.or(assumed).ok_or(unsound)?;
        match setup(&identity, body, &Limits::BASE) {
            Ok(setup) => {
                let (books, modes) = (setup.books.len(), setup.modes.len());
                self.setup = Some(setup);
                if !self.has("setup keeps the tally") {
                    self.tally = Tally::default();
                }
                Ok(Accepted::Setup { books, modes })
            }
            Err(refusal) => {
                match self.fault {
                    "refused setup keeps the tables" => {}
                    "refused setup clears the tally alone" => self.tally = Tally::default(),
                    "refused setup clears the identity" => (self.identity, self.setup) = (None, None),
                    _ => self.setup = None,
                }
                Err(refusal)
            }
        }
    }

    fn audio(&mut self, body: &[u8]) -> Result<Accepted, Refusal> {
        let unsound = Refusal::without_place(18);
        let identity = self.identity.as_ref().ok_or(unsound)?;
        let setup = self.setup.as_ref().ok_or(unsound)?;
        let places = match self.fault {
            "places of one word less" => 16_383,
            "places of one word more" => 16_385,
            _ => 16_384,
        };
        let (curves, words) = (&mut vec![0; 32_768], &mut vec![0; places]);
        let mut answer = audio(identity, setup, &mut self.tally, body, curves, words);
        match &mut answer {
            Ok(answer) if self.fault == "samples so far" => answer.samples = self.tally.samples,
            Err(_) if self.fault == "refused audio clears the tally" => self.tally = Tally::default(),
            _ => {}
        }
        answer.map(Accepted::Audio)
    }

    fn write(&mut self, line: &str) -> Result<(), Stop> {
        self.output.extend(line.as_bytes());
        if self.output.len() < 1 << 13 {
            return Ok(());
        }
        self.flush()
    }

    fn flush(&mut self) -> Result<(), Stop> {
        let lost = self.has("output over 65,536 bytes is lost") && self.written > 1 << 16;
        self.written += self.output.len();
        let written = if lost { Ok(()) } else { io::stdout().write_all(&self.output) };
        self.output.clear();
        let written = written.and_then(|()| io::stdout().flush());
        if self.has("failing output is not told") {
            return Ok(());
        }
        written.map_err(|_| Stop::Output)
    }
}
