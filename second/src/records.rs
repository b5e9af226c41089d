//! Record files (01, "The tool reads standard input as records"): u32 length, u16
//! kind, little-endian, then the body.

use std::io::{self, Read, Write};

/// The greatest body that is read; a longer one is skipped.
pub const GREATEST_BODY: u64 = 49_152;

/// Bytes of a record before its body.
const HEADER: usize = 6;

/// What a record's body is.
#[derive(Clone, Copy, Debug, PartialEq, Eq)]
pub enum Kind {
    Identification,
    Setup,
    Audio,
}

impl Kind {
    /// The kind's number in the record.
    pub fn number(self) -> u16 {
        match self {
            Kind::Identification => 1,
            Kind::Setup => 2,
            Kind::Audio => 3,
        }
    }

    fn from_number(number: u16) -> Option<Kind> {
        match number {
            1 => Some(Kind::Identification),
            2 => Some(Kind::Setup),
            3 => Some(Kind::Audio),
            _ => None,
        }
    }
}

/// The next thing in a record file.
#[derive(Clone, Debug, PartialEq, Eq)]
pub enum Record {
    Packet(Kind, Vec<u8>),
    KindUnknown,
    TooLong,
    /// The input ends inside a record.
    Torn,
}

/// Reads the next record, `None` at the end of the input. Torn goes before too
/// long, and that before an unknown kind.
pub fn read_record(input: &mut impl Read) -> io::Result<Option<Record>> {
    let mut header = Vec::with_capacity(HEADER);
    input.take(HEADER as u64).read_to_end(&mut header)?;
    let &[l0, l1, l2, l3, k0, k1] = &header[..] else {
        return Ok((!header.is_empty()).then_some(Record::Torn));
    };
    let length = u64::from(u32::from_le_bytes([l0, l1, l2, l3]));
    if length > GREATEST_BODY {
        let skipped = io::copy(&mut input.take(length), &mut io::sink())?;
        return Ok(Some(if skipped == length { Record::TooLong } else { Record::Torn }));
    }
    let mut body = Vec::new();
    input.take(length).read_to_end(&mut body)?;
    if (body.len() as u64) < length {
        return Ok(Some(Record::Torn));
    }
    let kind = Kind::from_number(u16::from_le_bytes([k0, k1]));
    Ok(Some(kind.map_or(Record::KindUnknown, |kind| Record::Packet(kind, body))))
}

/// Writes one packet as a record.
pub fn write_record(output: &mut impl Write, kind: Kind, body: &[u8]) -> io::Result<()> {
    write_record_of(output, kind.number(), body)
}

/// Writes a record of any kind's number.
pub fn write_record_of(output: &mut impl Write, kind: u16, body: &[u8]) -> io::Result<()> {
    let length = u32::try_from(body.len()).map_err(|_| io::ErrorKind::InvalidInput)?;
    output.write_all(&length.to_le_bytes())?;
    output.write_all(&kind.to_le_bytes())?;
    output.write_all(body)
}
