//! The tool's lines for a record file (01, "The tool reads standard input").

use crate::audio::{audio, Answer, Tally};
use crate::identification::{identification, Identity};
use crate::limits::Limits;
use crate::records::{read_record, Kind, Record};
use crate::refusal::Refusal;
use crate::setup::{setup, Setup};
use std::io::{self, Read, Write};

/// Bytes of the tool's curve buffer.
pub const CURVE_BYTES: usize = 32_768;

/// Places of the tool's codeword buffer.
pub const WORD_PLACES: usize = 16_384;

/// What the tool holds between records.
#[derive(Debug)]
pub struct Tool {
    identity: Option<Identity>,
    setup: Option<Setup>,
    tally: Tally,
    curves: Vec<u8>,
    words: Vec<u32>,
}

/// A packet's content as the tool speaks of it.
#[derive(Clone, Debug, PartialEq, Eq)]
pub enum Accepted {
    Identity(Identity),
    Setup { books: usize, modes: usize },
    Audio(Answer),
}

impl Default for Tool {
    fn default() -> Self {
        Tool {
            identity: None,
            setup: None,
            tally: Tally::default(),
            curves: vec![0; CURVE_BYTES],
            words: vec![0; WORD_PLACES],
        }
    }
}

impl Tool {
    /// Hands one packet to the reader.
    pub fn packet(&mut self, kind: Kind, body: &[u8]) -> Result<Accepted, Refusal> {
        match kind {
            Kind::Identification => self.identification(body),
            Kind::Setup => self.setup(body),
            Kind::Audio => self.audio(body),
        }
    }

    /// The samples finished since the last setup.
    pub fn samples(&self) -> u64 {
        self.tally.samples
    }

    /// A good identification clears tables and tally, a refused one nothing.
    fn identification(&mut self, body: &[u8]) -> Result<Accepted, Refusal> {
        let identity = identification(body)?;
        self.identity = Some(identity);
        self.setup = None;
        self.tally = Tally::default();
        Ok(Accepted::Identity(identity))
    }

    /// A good setup clears the tally, a refused one leaves no tables.
    fn setup(&mut self, body: &[u8]) -> Result<Accepted, Refusal> {
        self.setup = None;
        let identity = self.identity.as_ref().ok_or(Refusal::without_place(18))?;
        let setup = self.setup.insert(setup(identity, body, &Limits::BASE)?);
        self.tally = Tally::default();
        Ok(Accepted::Setup { books: setup.books.len(), modes: setup.modes.len() })
    }

    fn audio(&mut self, body: &[u8]) -> Result<Accepted, Refusal> {
        let unsound = Refusal::without_place(18);
        let identity = self.identity.as_ref().ok_or(unsound)?;
        let setup = self.setup.as_ref().ok_or(unsound)?;
        audio(identity, setup, &mut self.tally, body, &mut self.curves, &mut self.words).map(Accepted::Audio)
    }
}

/// The line for one packet's answer, without its record's number.
pub fn line(answer: &Result<Accepted, Refusal>) -> String {
    match answer {
        Ok(Accepted::Identity(identity)) => {
            let [short, long] = identity.block_sizes;
            format!("identity channels {} rate {} blocks {short} {long}", identity.channels, identity.rate)
        }
        Ok(Accepted::Setup { books, modes }) => format!("setup books {books} modes {modes}"),
        Ok(Accepted::Audio(answer)) => {
            format!("audio block {} samples {} words {}", answer.block_size, answer.samples, answer.words)
        }
        Err(refusal) => format!("refused {}", refusal.number),
    }
}

/// Writes the tool's output for a whole record file.
pub fn write_lines(input: &mut impl Read, output: &mut impl Write) -> io::Result<()> {
    let mut tool = Tool::default();
    let mut whole = 0u64;
    while let Some(record) = read_record(input)? {
        let number = whole + 1;
        match record {
            Record::Packet(kind, body) => {
                writeln!(output, "{number} {}", line(&tool.packet(kind, &body)))?;
            }
            Record::KindUnknown => writeln!(output, "{number} kind unknown")?,
            Record::TooLong => writeln!(output, "{number} too long")?,
            Record::Torn => {
                writeln!(output, "{number} torn")?;
                break;
            }
        }
        whole = number;
    }
    writeln!(output, "end {whole}")
}
