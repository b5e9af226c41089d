//! Published streams: all packets are accepted but for refusals that the list
//! names, each is read to its last byte, and samples agree with the granule
//! positions (000, appendix A).
//!
//! Any bits are codewords of some book, so that a reader out of step is accepted
//! too. It shows itself by a cut, or by whole bytes left over.

use super::{claim, Counts};
use crate::lines::{line, Accepted, Tool};
use crate::ogg;
use crate::records::Kind;
use std::fs;
use std::path::Path;

/// What was seen in all streams of a list.
#[derive(Clone, Copy, Debug, Default)]
pub struct Seen {
    pub streams: u64,
    /// Streams whose setup is refused as the list says.
    pub refused_streams: u64,
    pub absent: u64,
    pub packets: Counts,
    pub words: u64,
    pub samples: u64,
}

/// Checks the streams of a list: a line has a checksum, the number with which the
/// setup is refused or "-", and the path under `folder`.
pub fn check_list(list: &str, folder: &Path, seen: &mut Seen) -> Result<(), String> {
    for line in list.lines().filter(|line| !line.is_empty() && !line.starts_with('#')) {
        let (_, rest) = line.split_once(' ').ok_or(format!("no columns: {line}"))?;
        let (refusal, path) = rest.trim_start().split_once(' ').ok_or(format!("no path: {line}"))?;
        let path = path.trim_start();
        let refusal = match refusal {
            "-" => None,
            number => Some(number.parse().map_err(|_| format!("no refusal number: {line}"))?),
        };
        let Ok(file) = fs::read(folder.join(path)) else {
            seen.absent += 1;
            continue;
        };
        check_stream(&file, refusal, seen).map_err(|fault| format!("{path}: {fault}"))?;
    }
    Ok(())
}

/// Checks one file; `refusal` is the number its setup is refused with.
pub fn check_stream(file: &[u8], refusal: Option<u8>, seen: &mut Seen) -> Result<(), String> {
    let packets = ogg::packets(file)?;
    let mut tool = Tool::default();
    let mut granules = Granules::default();
    seen.streams += 1;
    for (number, (kind, packet)) in ogg::kinds(&packets)?.into_iter().enumerate() {
        let answer = tool.packet(kind, &packet.body);
        seen.packets.add(&answer);
        if let (Kind::Setup, Some(expected), Err(given)) = (kind, refusal, &answer) {
            seen.refused_streams += 1;
            return claim(given.number == expected, || format!("setup refused {}", given.number));
        }
        claim(answer.is_ok(), || format!("packet {number}: {}", line(&answer)))?;
        if let Ok(Accepted::Audio(answer)) = &answer {
            seen.words += answer.words;
            seen.samples += answer.samples;
            let in_step = answer.bits_left.is_some_and(|bits| bits < 8);
            claim(in_step, || format!("packet {number}: bits left {:?}", answer.bits_left))?;
            granules.check(packet, tool.samples()).map_err(|fault| format!("packet {number}: {fault}"))?;
        }
    }
    claim(refusal.is_none(), || "the setup was not refused".into())
}

/// Compares samples with the granule positions of pages. The first page may start
/// the count elsewhere than at 0, the last may cut off what it finishes.
#[derive(Debug, Default)]
struct Granules {
    offset: Option<i64>,
    /// The granule position of the page before.
    before: i64,
}

impl Granules {
    fn check(&mut self, packet: &ogg::Packet, samples: u64) -> Result<(), String> {
        let Some(granule) = packet.granule.filter(|&granule| granule != -1) else {
            return Ok(());
        };
        let samples = samples as i64;
        let fault = || format!("granule position {granule}, samples {samples}");
        if packet.on_last_page {
            let finished = self.before..=samples + self.offset.unwrap_or(0);
            return claim(finished.contains(&granule), fault);
        }
        let offset = *self.offset.get_or_insert(granule - samples);
        self.before = granule;
        claim(granule == samples + offset, fault)
    }
}
