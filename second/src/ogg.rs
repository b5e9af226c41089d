//! Ogg pages to packets (000, appendix A; RFC 3533), for turning published files
//! into records. The first logical stream that carries Vorbis is followed.

use crate::identification;
use crate::records::Kind;

/// Bytes of a page header before its lacing values.
const HEADER: usize = 27;

/// A packet with what its page says.
#[derive(Clone, Debug, Default, PartialEq, Eq)]
pub struct Packet {
    pub body: Vec<u8>,
    /// The granule position of the page on which the packet ends, where it is the
    /// last to end there.
    pub granule: Option<i64>,
    /// Whether that page is the stream's last.
    pub on_last_page: bool,
}

/// A page as it lies in the file.
#[derive(Clone, Copy, Debug)]
struct Page<'a> {
    flags: u8,
    granule: i64,
    serial: u32,
    sequence: u32,
    lacing: &'a [u8],
    body: &'a [u8],
}

impl Page<'_> {
    const CONTINUED: u8 = 1;
    const FIRST: u8 = 2;
    const LAST: u8 = 4;

    fn has(&self, flag: u8) -> bool {
        self.flags & flag != 0
    }
}

/// The checksum of RFC 3533: polynomial 0x04C11DB7, no reflection, start 0.
pub fn checksum(bytes: impl Iterator<Item = u8>) -> u32 {
    bytes.fold(0, |mut sum: u32, byte| {
        sum ^= u32::from(byte) << 24;
        for _ in 0..8 {
            let carry = sum >> 31;
            sum = (sum << 1) ^ (carry * 0x04C1_1DB7);
        }
        sum
    })
}

fn le<const N: usize>(bytes: &[u8], at: usize) -> [u8; N] {
    std::array::from_fn(|i| bytes[at + i])
}

/// The page at the beginning of `bytes` and its length.
fn read_page(bytes: &[u8]) -> Result<(Page<'_>, usize), &'static str> {
    let header = bytes.get(..HEADER).ok_or("a page header is cut short")?;
    if &header[..4] != b"OggS" {
        return Err("no capture pattern");
    }
    if header[4] != 0 {
        return Err("page version not 0");
    }
    let body_at = HEADER + usize::from(header[26]);
    let lacing = bytes.get(HEADER..body_at).ok_or("a page is cut short")?;
    let length = body_at + lacing.iter().map(|&value| usize::from(value)).sum::<usize>();
    let page = bytes.get(..length).ok_or("a page is cut short")?;
    let unsigned = page.iter().enumerate().map(|(i, &byte)| if (22..26).contains(&i) { 0 } else { byte });
    if checksum(unsigned) != u32::from_le_bytes(le(page, 22)) {
        return Err("page checksum wrong");
    }
    let page = Page {
        flags: header[5],
        granule: i64::from_le_bytes(le(header, 6)),
        serial: u32::from_le_bytes(le(header, 14)),
        sequence: u32::from_le_bytes(le(header, 18)),
        lacing,
        body: &page[body_at..],
    };
    Ok((page, length))
}

/// The packets of the file's first Vorbis stream, or what is wrong with the file.
pub fn packets(file: &[u8]) -> Result<Vec<Packet>, String> {
    let mut stream: Option<Stream> = None;
    let mut at = 0;
    while at < file.len() {
        let (page, length) = read_page(&file[at..]).map_err(|fault| format!("byte {at}: {fault}"))?;
        if stream.is_none() && page.has(Page::FIRST) && page.body.starts_with(b"\x01vorbis") {
            stream = Some(Stream { serial: page.serial, next: page.sequence, ..Stream::default() });
        }
        if let Some(stream) = stream.as_mut().filter(|stream| stream.serial == page.serial) {
            stream.add(&page).map_err(|fault| format!("byte {at}: {fault}"))?;
        }
        at += length;
    }
    stream.map(|stream| stream.packets).ok_or("no Vorbis stream".into())
}

/// A logical stream as far as it has been followed.
#[derive(Debug, Default)]
struct Stream {
    serial: u32,
    next: u32,
    packets: Vec<Packet>,
    begun: Option<Vec<u8>>,
}

impl Stream {
    /// Takes a page's segments; one below 255 ends a packet.
    fn add(&mut self, page: &Page) -> Result<(), &'static str> {
        if page.sequence != self.next {
            return Err("a page is missing");
        }
        if page.has(Page::CONTINUED) != self.begun.is_some() {
            return Err("continued flag contradicts the page before");
        }
        self.next = self.next.wrapping_add(1);
        let already = self.packets.len();
        let mut body = page.body;
        for &value in page.lacing {
            let (segment, rest) = body.split_at(usize::from(value));
            body = rest;
            let mut packet = self.begun.take().unwrap_or_default();
            packet.extend_from_slice(segment);
            match value {
                255 => self.begun = Some(packet),
                _ => self.packets.push(Packet { body: packet, ..Packet::default() }),
            }
        }
        if let Some(last) = self.packets[already..].last_mut() {
            last.granule = Some(page.granule);
            last.on_last_page = page.has(Page::LAST);
        }
        Ok(())
    }
}

/// Each packet's kind, the comment packet left out: identification, comment and
/// setup come in this order, and all after them is audio (003).
pub fn kinds(packets: &[Packet]) -> Result<Vec<(Kind, &Packet)>, String> {
    const COMMENT_TYPE: u8 = 3;
    let comment = packets.get(1).ok_or("no comment packet")?;
    if comment.body.first() != Some(&COMMENT_TYPE) || comment.body.get(1..7) != Some(&identification::NAME) {
        return Err("the second packet is no comment packet".into());
    }
    let kind = |place| match place {
        0 => Kind::Identification,
        2 => Kind::Setup,
        _ => Kind::Audio,
    };
    let taken = packets.iter().enumerate().filter(|&(place, _)| place != 1);
    Ok(taken.map(|(place, packet)| (kind(place), packet)).collect())
}
