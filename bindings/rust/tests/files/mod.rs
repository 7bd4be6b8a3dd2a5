//! Files for the tests, made here byte by byte.

use lidar::Reading;

/// The opening of a capture whose little-endian lengths a reading takes.
pub fn opening(reading: Reading) -> Vec<u8> {
    let magic: [u8; 4] = match reading {
        Reading::Rust => [0xA1, 0xB2, 0xC3, 0xD4],
        _ => [0xD4, 0xC3, 0xB2, 0xA1],
    };
    [&magic[..], &[2, 0, 4, 0], &[0; 16]].concat()
}

/// The seconds and microseconds of a capture of one record: apart from each other, also with the bytes of
/// either turned round.
pub const TIME: [u32; 2] = [1_700_000_123, 456_789];

/// A capture of one record, with the payload in a datagram to a port.
pub fn capture(reading: Reading, port: u16, payload: &[u8]) -> Vec<u8> {
    capture_of(reading, &[Datagram::new(port, payload)])
}

/// A capture of a record for each datagram.
pub fn capture_of(reading: Reading, datagrams: &[Datagram]) -> Vec<u8> {
    let records = datagrams
        .iter()
        .flat_map(|datagram| record(u32::to_le_bytes, TIME, *datagram));
    opening(reading).into_iter().chain(records).collect()
}

/// A datagram, and what stands around it in its record.
#[derive(Clone, Copy)]
pub struct Datagram<'a> {
    pub port: u16,
    pub payload: &'a [u8],
    /// What follows the datagram, to the record's end.
    pub padding: &'a [u8],
    /// The true one, if none is given.
    pub udp_length: Option<u16>,
    /// The flags and the fragment offset of the IPv4 header.
    pub fragment: u16,
}

impl<'a> Datagram<'a> {
    /// A whole one, without padding.
    pub fn new(port: u16, payload: &'a [u8]) -> Datagram<'a> {
        Datagram {
            port,
            payload,
            padding: &[],
            udp_length: None,
            fragment: 0,
        }
    }
}

/// A record whose header states a time, each number laid by `bytes`.
pub fn record(bytes: fn(u32) -> [u8; 4], time: [u32; 2], datagram: Datagram) -> Vec<u8> {
    let Datagram {
        port,
        payload,
        padding,
        udp_length,
        fragment,
    } = datagram;
    let whole = 8 + payload.len() as u16;
    let len = (42 + payload.len() + padding.len()) as u32;
    let mut record = [time[0], time[1], len, len].map(bytes).concat();
    record.extend([0; 12]);
    record.extend([0x08, 0x00, 0x45, 0]);
    record.extend(whole.saturating_add(20).to_be_bytes());
    record.extend([0, 0]);
    record.extend(fragment.to_be_bytes());
    record.extend([64, 17, 0, 0, 10, 0, 0, 1, 10, 0, 0, 2, 0, 9]);
    record.extend(port.to_be_bytes());
    record.extend(udp_length.unwrap_or(whole).to_be_bytes());
    record.extend([0, 0]);
    record.extend(payload);
    record.extend(padding);
    record
}

/// The opening of an LVX file, without a frame.
pub fn lvx(len: usize, devices: u8) -> Vec<u8> {
    let mut file = vec![0; len.max(29)];
    file[..10].copy_from_slice(b"livox_tech");
    file[20..24].copy_from_slice(&0xAC0E_A767u32.to_le_bytes());
    file[28] = devices;
    file.truncate(len);
    file
}

/// The opening of an LVX2 file, without a device or a frame.
pub fn lvx2(len: usize) -> Vec<u8> {
    let mut file = vec![0; len.max(28)];
    file[..4].copy_from_slice(&0x2020_0903u32.to_le_bytes());
    file[8] = 28;
    file.truncate(len);
    file
}
