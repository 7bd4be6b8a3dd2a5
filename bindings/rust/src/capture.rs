//! The UDP payloads of libpcap captures.

use crate::ffi::{self, Place};
use crate::{Refusal, TimeUnit, Timestamp};
use std::iter::FusedIterator;

/// How a capture's bytes are read.
#[derive(Clone, Copy, Debug, PartialEq, Eq, Hash)]
#[non_exhaustive]
pub enum Reading {
    /// As threecrate's lidar.rs: first bytes `d4 c3 b2 a1` mean big-endian lengths and times, the other way
    /// round from what capture tools write. A payload runs to its record's end, so that padding is a part of
    /// it, and fragments are read like whole datagrams.
    Rust,
    /// As the libpcap savefile format says. It takes what capture tools write. A payload has as many
    /// bytes as its UDP length says, less the header's 8, so that padding is no part of it. A record has no
    /// payload if that length is below 9 or is more than the record holds from the UDP header on, as where the
    /// capture cut the datagram, if it holds a fragment, or if its IPv4 header is below 20 bytes.
    Savefile,
}

impl Reading {
    pub(crate) fn is_savefile(self) -> bool {
        self == Reading::Savefile
    }
}

/// A payload, and when its record was captured.
#[derive(Clone, Copy, Debug, PartialEq, Eq, Hash)]
pub struct Payload<'a> {
    /// That part of the capture, at least a byte. The [`Reading`] says where it ends.
    pub bytes: &'a [u8],
    /// As its record states it.
    pub time: Timestamp,
}

impl<'a> Payload<'a> {
    fn at(place: Place, data: &'a [u8]) -> Payload<'a> {
        Payload {
            bytes: &data[place.start..place.start + place.len],
            time: Timestamp {
                seconds: place.seconds,
                fraction: place.fraction,
                unit: TimeUnit::told(place.unit),
            },
        }
    }
}

/// The payload of a rank, counted from 0 among the payloads on a port. Port 0 asks for every port. `None`
/// where there is no payload of that rank.
///
/// It walks to that payload from the start; [`payloads`] goes through all of them once.
pub fn payload(data: &[u8], port: u16, rank: usize) -> Result<Option<Payload<'_>>, Refusal> {
    of_rank(data, None, port, rank)
}

/// [`payload`] in a reading that is named.
///
/// ```
/// use lidar::Reading;
/// use std::time::Duration;
///
/// let capture = std::fs::read("../../samples/hall_ouster.pcap")?;
/// let packet = lidar::payload_as(&capture, Reading::Savefile, 7502, 1)?.unwrap();
/// assert_eq!(packet.bytes.len(), 12608);
/// assert_eq!(packet.time.since_epoch()?, Duration::from_millis(1_700_000_000_001));
/// assert_eq!(lidar::payload_as(&capture, Reading::Savefile, 7502, 2)?, None);
/// # Ok::<(), Box<dyn std::error::Error>>(())
/// ```
pub fn payload_as(
    data: &[u8],
    reading: Reading,
    port: u16,
    rank: usize,
) -> Result<Option<Payload<'_>>, Refusal> {
    of_rank(data, Some(reading.is_savefile()), port, rank)
}

fn of_rank(
    data: &[u8],
    savefile: Option<bool>,
    port: u16,
    rank: usize,
) -> Result<Option<Payload<'_>>, Refusal> {
    let mut place = Place::default();
    let number = ffi::payload_place(data, savefile, port, rank, &mut place);
    Refusal::told(number, 0)?;
    Ok((place.len > 0).then(|| Payload::at(place, data)))
}

/// Goes through the payloads on a port, each with its time, in the usual reading. Port 0 asks for every
/// port.
pub fn payloads(data: &[u8], port: u16) -> Result<Payloads<'_>, Refusal> {
    payload(data, port, 0)?;
    Ok(Payloads {
        data,
        reading: None,
        port,
        at: 0,
    })
}

/// [`payloads`] in a reading that is named.
///
/// ```
/// use lidar::{Payload, Reading, TimeUnit};
///
/// let capture = std::fs::read("../../samples/hall_ouster.pcap")?;
/// let mut milliseconds = 0;
/// for Payload { bytes, time } in lidar::payloads_as(&capture, Reading::Savefile, 7502)? {
///     assert_eq!(bytes.len(), 12608);
///     assert_eq!((time.seconds, time.fraction), (1_700_000_000, 1000 * milliseconds));
///     assert_eq!(time.unit, TimeUnit::Microseconds);
///     milliseconds += 1;
/// }
/// assert_eq!(milliseconds, 2);
/// # Ok::<(), Box<dyn std::error::Error>>(())
/// ```
pub fn payloads_as(data: &[u8], reading: Reading, port: u16) -> Result<Payloads<'_>, Refusal> {
    payload_as(data, reading, port, 0)?;
    Ok(Payloads {
        data,
        reading: Some(reading),
        port,
        at: 0,
    })
}

/// The payloads of a capture, one after another. After a payload it goes on at the end of its record.
#[derive(Clone, Debug)]
pub struct Payloads<'a> {
    data: &'a [u8],
    /// The usual reading, if none was named.
    reading: Option<Reading>,
    port: u16,
    at: usize,
}

impl<'a> Iterator for Payloads<'a> {
    type Item = Payload<'a>;

    fn next(&mut self) -> Option<Payload<'a>> {
        let savefile = self.reading.map(Reading::is_savefile);
        let mut place = Place::default();
        ffi::next_payload(self.data, savefile, self.port, &mut self.at, &mut place)
            .then(|| Payload::at(place, self.data))
    }
}

/// After the last payload the walk stays where it is.
impl FusedIterator for Payloads<'_> {}
