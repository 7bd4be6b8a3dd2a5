//! The payloads of a capture by the words of 01-scope.md, and by those of 02-change-requests.md their times,
//! and their ends and the fragments in the savefile reading; written apart from the original and from ours.
//! It stands in for an oracle where the original has none: the savefile reading, a walk that starts at any
//! place, and every time.

use crate::ours::OusterSettings;
use std::ops::Range;

#[derive(Clone, Copy, PartialEq, Eq)]
pub enum Reading {
    Rust,
    Savefile,
}

/// Refusal 1, 3 or 4, else 0.
pub fn number(data: &[u8]) -> u8 {
    match data {
        _ if data.len() > 2_147_483_647 => 1,
        _ if data.len() < 24 => 3,
        [0xd4, 0xc3, 0xb2, 0xa1, ..] | [0x4d, 0x3c, 0xb2, 0xa1, ..] => 0,
        [0xa1, 0xb2, 0xc3, 0xd4, ..] | [0xa1, 0xb2, 0x3c, 0x4d, ..] => 0,
        _ => 4,
    }
}

/// A payload, where its record ends, and the time that its record states.
pub struct Payload {
    pub place: Range<usize>,
    /// The walk goes on here. In the savefile reading padding may stand before it.
    pub record_end: usize,
    pub seconds: u32,
    /// As stored, so it may be a second or more.
    pub fraction: u32,
    pub nanoseconds: bool,
}

/// The payloads from a place on. A place in the file header means the first record.
pub fn payloads(data: &[u8], reading: Reading, port: u16, from: usize) -> Vec<Payload> {
    let mut found = Vec::new();
    if number(data) != 0 {
        return found;
    }
    let least_first = matches!(data[0], 0xd4 | 0x4d);
    let u32_of = match (reading, least_first) {
        (Reading::Rust, true) | (Reading::Savefile, false) => u32::from_be_bytes,
        (Reading::Rust, false) | (Reading::Savefile, true) => u32::from_le_bytes,
    };
    // The magic says it, whatever the reading.
    let nanoseconds = matches!(data[..4], [0x4d, 0x3c, ..] | [.., 0x3c, 0x4d]);
    let mut rest = from.max(24)..data.len();
    while rest.len() >= 16 {
        let (header, start) = (rest.start, rest.start + 16);
        let field = |at: usize| u32_of(data[header + at..][..4].try_into().unwrap());
        let end = start + field(8) as usize;
        let Some(record) = data.get(start..end) else {
            break;
        };
        if let Some(place) = payload_in(record, reading, port) {
            found.push(Payload {
                place: start + place.start..start + place.end,
                record_end: end,
                seconds: field(0),
                fraction: field(4),
                nanoseconds,
            });
        }
        rest.start = end;
    }
    found
}

/// Where the payload of a record stands in it, if it has one.
fn payload_in(record: &[u8], reading: Reading, port: u16) -> Option<Range<usize>> {
    let u16_at = |at: usize| u16::from_be_bytes([record[at], record[at + 1]]);
    if record.len() < 42 {
        return None;
    }
    let ip = match (u16_at(12), u16_at(16)) {
        (0x0800, _) => 14,
        (0x8100, 0x0800) => 18,
        _ => return None,
    };
    let (version, ihl) = (record[ip] >> 4, usize::from(record[ip] & 0x0f));
    let protocol = record[ip + 9];
    if version != 4 || protocol != 17 {
        return None;
    }
    if reading == Reading::Savefile && (ihl < 5 || is_fragment(u16_at(ip + 6))) {
        return None;
    }
    let udp = ip + 4 * ihl;
    let payload = udp + 8;
    if payload > record.len() || port != 0 && u16_at(udp + 2) != port {
        return None;
    }
    let end = match (reading, usize::from(u16_at(udp + 4))) {
        (Reading::Rust, _) => record.len(),
        (Reading::Savefile, 0..=8) => return None,
        (Reading::Savefile, length) => udp + length,
    };
    (payload < end && end <= record.len()).then_some(payload..end)
}

/// By the three flags of an IPv4 header and its fragment offset, of 13 bits. The last flag says that more
/// fragments follow; the reserved one and don't-fragment make no fragment.
fn is_fragment(flags_and_offset: u16) -> bool {
    let (flags, offset) = (flags_and_offset >> 13, flags_and_offset & 0x1fff);
    flags & 0b001 != 0 || offset != 0
}

/// A copy of each payload.
pub fn copies(data: &[u8], reading: Reading, port: u16) -> Vec<Vec<u8>> {
    let payloads = payloads(data, reading, port, 0);
    payloads
        .into_iter()
        .map(|payload| data[payload.place].to_vec())
        .collect()
}

/// Refusal 2.
pub fn bad_settings(settings: &OusterSettings) -> bool {
    let beams = settings.pixels_per_column;
    ![16, 32, 64, 128].contains(&beams)
        || !(1..=64).contains(&settings.columns_per_packet)
        || settings.beam_altitudes.len() < beams
}
