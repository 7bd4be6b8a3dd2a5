//! Captures made from a seed: well-formed, damaged and random ones.

use crate::random::Random;
use crate::words::Reading;

/// Least significant byte first, for microseconds and nanoseconds, then their reverses.
const MAGICS: [[u8; 4]; 4] = [
    [0xd4, 0xc3, 0xb2, 0xa1],
    [0x4d, 0x3c, 0xb2, 0xa1],
    [0xa1, 0xb2, 0xc3, 0xd4],
    [0xa1, 0xb2, 0x3c, 0x4d],
];

/// Close to a magic, and that of another format.
const WRONG_MAGICS: [[u8; 4]; 6] = [
    [0xd4, 0xc3, 0xb2, 0xa0],
    [0xc3, 0xd4, 0xa1, 0xb2],
    [0xa1, 0xb2, 0xc3, 0x4d],
    [0xa1, 0xb2, 0xcd, 0x34],
    [0x4d, 0x3c, 0xa1, 0xb2],
    [0x0a, 0x0d, 0x0d, 0x0a],
];

/// Those of the two sensors, the first with its bytes swapped, and the ends of the range.
const PORTS: [u16; 7] = [2368, 7502, 0x4009, 0, 1, 256, 65535];

/// No time, the last fraction below a second and the first of a second, in either unit, and all bits.
const TIMES: [u32; 6] = [0, 999_999, 1_000_000, 999_999_999, 1_000_000_000, u32::MAX];

/// Flags and fragment offsets of an IP header. Fragments by one byte of the offset or by the other, by all of
/// it, by more-fragments, and by both; then don't-fragment, the reserved flag and both, which make none.
const FRAGMENTS: [u16; 9] = [
    0x0001, 0x00ff, 0x0100, 0x1fff, 0x2000, 0x3fff, 0x4000, 0x8000, 0xc000,
];

const FILE_HEADER: usize = 24;

/// The first files are the same capture, cut at every length up to this.
const CUTS: u64 = 130;
/// The next have a record of every length up to this, with each IHL and number of tags.
const RECORD_LENGTHS: usize = 100;
/// The next have every UDP length up to the record's and beyond, in records that hold so many bytes from the
/// UDP header on; the last of these files have every bit of the fragment field instead. Each with these IHLs,
/// and with and without a tag.
const HELD: [usize; 4] = [8, 9, 10, 26];
const IHLS: [u8; 3] = [5, 6, 15];

pub struct Capture {
    pub data: Vec<u8>,
    /// The ports to ask for. 0 is always one of them.
    pub ports: Vec<u16>,
    big_endian: bool,
    /// Where the records' headers stand, or stood before the file was cut.
    headers: Vec<usize>,
}

impl Capture {
    /// Has each record state its time anew, often in numbers that are easy to get wrong. It is no part of
    /// making the file, so that a seed still makes the same lines for `crates/cases`.
    pub fn state_times(&mut self, random: &mut Random) {
        for header in &self.headers {
            for field in [*header, header + 4] {
                let any = random.next() as u32;
                let edge = random.pick(&TIMES);
                let number = random.pick(&[any, edge]);
                if let Some(bytes) = self.data.get_mut(field..field + 4) {
                    bytes.copy_from_slice(&in_order(number, self.big_endian));
                }
            }
        }
    }
}

fn in_order(number: u32, big_endian: bool) -> [u8; 4] {
    if big_endian {
        number.to_be_bytes()
    } else {
        number.to_le_bytes()
    }
}

/// The file of a case. Most are well-formed in the reading.
pub fn file(random: &mut Random, case: u64, reading: Reading) -> Capture {
    let magics = MAGICS.len() as u64;
    let of_cuts = CUTS * (magics + 1);
    let of_lengths = of_cuts + 16 * 3 * magics;
    let of_datagrams = of_lengths + (HELD.len() + 1) as u64 * IHLS.len() as u64 * 2 * magics;
    if case < of_cuts {
        cut(random, case, reading)
    } else if case < of_lengths {
        every_length(random, case - of_cuts, reading)
    } else if case < of_datagrams {
        every_datagram(random, case - of_lengths, reading)
    } else {
        any(random, reading)
    }
}

fn cut(random: &mut Random, case: u64, reading: Reading) -> Capture {
    let magic = match (case / CUTS) as usize {
        good if good < MAGICS.len() => MAGICS[good],
        _ => WRONG_MAGICS[0],
    };
    let mut maker = Maker::new(random, magic, reading);
    for length in [43, 44] {
        let bytes = Frame::usual(length, 2368).bytes(random);
        maker.record(random, length as u32, &bytes);
    }
    maker.data.truncate((case % CUTS) as usize);
    maker.capture(vec![0, 2368, 7502])
}

fn every_length(random: &mut Random, case: u64, reading: Reading) -> Capture {
    let (magic, tags, ihl) = (case % 4, case / 4 % 3, case / 12);
    let mut maker = Maker::new(random, MAGICS[magic as usize], reading);
    for length in 0..=RECORD_LENGTHS {
        let mut frame = Frame::usual(length, [2368, 7502][length % 2]);
        frame.types = tagged(tags);
        frame.ihl = ihl as u8;
        let bytes = frame.bytes(random);
        maker.record(random, length as u32, &bytes);
    }
    maker.capture(vec![0, 2368, 7502])
}

/// The EtherTypes of IPv4 behind so many tags.
fn tagged(tags: u64) -> Vec<u16> {
    [&vec![0x8100; tags as usize][..], &[0x0800]].concat()
}

/// A record for each UDP length, or for each bit of the fragment field.
fn every_datagram(random: &mut Random, case: u64, reading: Reading) -> Capture {
    let (magic, tags, ihl, held) = (case % 4, case / 4 % 2, case / 8 % 3, case / 24);
    let mut maker = Maker::new(random, MAGICS[magic as usize], reading);
    let mut record = |held: usize, fragment: u16, udp_length: usize| {
        let mut frame = Frame::usual(0, 2368);
        frame.types = tagged(tags);
        frame.ihl = IHLS[ihl as usize];
        frame.fragment = fragment;
        frame.length = frame.udp() + held;
        frame.udp_length = Some(udp_length);
        let bytes = frame.bytes(random);
        maker.record(random, frame.length as u32, &bytes);
    };
    if let Some(&held) = HELD.get(held as usize) {
        // Up to those that are counted from the record's start. Then lengths that are good by one byte alone
        // or with their bytes turned, and the most.
        let others = [256, 256 + held, 256 * 9, 256 * held, 65_535];
        for udp_length in (0..=held + 80).chain(others) {
            record(held, 0, udp_length);
        }
    } else {
        for fragment in (0..16).map(|bit| 1 << bit).chain(FRAGMENTS) {
            record(26, fragment, 11);
        }
    }
    maker.capture(vec![0, 2368, 7502])
}

fn any(random: &mut Random, reading: Reading) -> Capture {
    let magic = match random.below(20) {
        0 => random.pick(&WRONG_MAGICS),
        1 => (random.next() as u32).to_le_bytes(),
        _ => random.pick(&MAGICS),
    };
    // Now and then lengths in the other byte order.
    let reading = match (random.below(20), reading) {
        (0, Reading::Rust) => Reading::Savefile,
        (0, Reading::Savefile) => Reading::Rust,
        _ => reading,
    };
    let ports = [
        random.pick(&PORTS),
        random.pick(&PORTS),
        random.next() as u16,
    ];
    let mut maker = Maker::new(random, magic, reading);
    let records = match random.below(100) {
        0 => random.below(300),
        1..=40 => random.below(4),
        _ => random.below(16),
    };
    // A file is well-formed, or some of its records have a wrong length.
    let wrong_lengths = random.pick(&[0, 0, 4]);
    // A generator apart, so that a seed still makes the same lines of other files for `crates/cases`.
    let mut apart = random.apart();
    let other_datagrams = apart.pick(&[0, 0, 4]);
    for _ in 0..records {
        let port = random.pick(&ports);
        let mut frame = Frame::any(random, port);
        // At least a byte of the payload stays.
        let padding = match apart.below(4) {
            0 => apart.below(frame.held().max(9) - 8),
            _ => 0,
        };
        frame.state_datagram(&mut apart, padding, other_datagrams);
        let bytes = frame.bytes(random);
        let stated = if random.below(16) < wrong_lengths {
            maker.wrong_length(random, bytes.len())
        } else {
            bytes.len() as u32
        };
        maker.record(random, stated, &bytes);
    }
    let data = &mut maker.data;
    match random.below(20) {
        0 | 1 => data.truncate(random.below(data.len() + 1)),
        2 => data.extend((0..random.below(60)).map(|i| i as u8)),
        3 => damage(random, data, FILE_HEADER),
        // Noise after a good header.
        4 => data[FILE_HEADER..].fill_with(|| random.next() as u8),
        5 => data[FILE_HEADER..].fill_with(|| random.below(3) as u8),
        _ => {}
    }
    maker.capture(vec![0, random.pick(&ports), random.pick(&PORTS)])
}

/// A capture of packets, of which most are sent to the port. It is well-formed in the reading, or has
/// the faults that `any` has too, but for fewer of them, so that most packets are found.
pub fn of_packets(
    random: &mut Random,
    reading: Reading,
    port: u16,
    mut packet: impl FnMut(&mut Random) -> Vec<u8>,
) -> Vec<u8> {
    let magic = match random.below(50) {
        0 => random.pick(&WRONG_MAGICS),
        _ => random.pick(&MAGICS),
    };
    let mut maker = Maker::new(random, magic, reading);
    let records = random.pick(&[0, 1, 1, 1, 1, 2, 2, 3]);
    let wrong_lengths = random.pick(&[0, 0, 0, 2]);
    let mut apart = random.apart();
    let other_datagrams = apart.pick(&[0, 0, 4]);
    for _ in 0..records {
        let to = match random.below(10) {
            0 => random.pick(&PORTS),
            _ => port,
        };
        let mut frame = match random.below(4) {
            0 => Frame::any(random, to),
            _ => Frame::usual(0, to),
        };
        let mut payload = packet(random);
        let padding = apart.pick(&[0, 0, 0, 1, 4, 46]);
        payload.resize(payload.len() + padding, 0);
        frame.length = frame.payload() + payload.len();
        frame.state_datagram(&mut apart, padding, other_datagrams);
        let bytes = frame.bytes_around(random, &payload);
        let stated = if random.below(16) < wrong_lengths {
            maker.wrong_length(random, bytes.len())
        } else {
            bytes.len() as u32
        };
        maker.record(random, stated, &bytes);
    }
    let mut data = maker.data;
    match random.below(24) {
        0 => data.truncate(random.below(data.len() + 1)),
        1 => data.extend((0..random.below(60)).map(|i| i as u8)),
        2 => damage(random, &mut data, FILE_HEADER),
        _ => {}
    }
    data
}

/// Flips bits after the first bytes.
fn damage(random: &mut Random, data: &mut [u8], kept: usize) {
    let rest = &mut data[kept..];
    if !rest.is_empty() {
        for _ in 0..random.within(1, 8) {
            rest[random.below(rest.len())] ^= 1 << random.below(8);
        }
    }
}

/// Writes a file in the byte order that a reading takes its magic for.
struct Maker {
    data: Vec<u8>,
    big_endian: bool,
    /// Where the records' headers stand.
    headers: Vec<usize>,
}

impl Maker {
    fn new(random: &mut Random, magic: [u8; 4], reading: Reading) -> Self {
        let least_first = magic[0] == 0xd4 || magic[0] == 0x4d;
        let mut data = magic.to_vec();
        data.resize_with(FILE_HEADER, || random.next() as u8);
        Maker {
            data,
            big_endian: least_first == (reading == Reading::Rust),
            headers: Vec::new(),
        }
    }

    fn record(&mut self, random: &mut Random, stated: u32, bytes: &[u8]) {
        self.headers.push(self.data.len());
        // Any time. The original length is never looked at.
        self.data.extend(random.next().to_le_bytes());
        self.data.extend(in_order(stated, self.big_endian));
        self.data.extend((random.next() as u32).to_le_bytes());
        self.data.extend(bytes);
    }

    fn capture(self, ports: Vec<u16>) -> Capture {
        Capture {
            data: self.data,
            ports,
            big_endian: self.big_endian,
            headers: self.headers,
        }
    }

    /// Near the true length, past every file's end, and so large that a sum of 32 bits wraps.
    fn wrong_length(&self, random: &mut Random, length: usize) -> u32 {
        let near = random.below(64) as u32;
        match random.below(7) {
            0 => (length as u32).saturating_sub(1 + near % 20),
            1 => length as u32 + 1 + near % 20,
            2 => length as u32 + 16,
            3 => u32::MAX - near,
            4 => 0x8000_0000 - 32 + near,
            // Back to a record before, for a sum that wraps.
            5 if !self.headers.is_empty() => {
                let back = self.data.len() + 16 - random.pick(&self.headers);
                (back as u32).wrapping_neg()
            }
            _ => random.next() as u32,
        }
    }
}

/// An Ethernet frame, before it is cut or filled up to its length.
struct Frame {
    types: Vec<u16>,
    version: u8,
    ihl: u8,
    /// The flags and the fragment offset.
    fragment: u16,
    protocol: u8,
    port: u16,
    /// Without one, the true length of a datagram that runs to the record's end.
    udp_length: Option<usize>,
    length: usize,
    damaged: bool,
}

impl Frame {
    fn usual(length: usize, port: u16) -> Self {
        Frame {
            types: vec![0x0800],
            version: 4,
            ihl: 5,
            fragment: 0,
            protocol: 17,
            port,
            udp_length: None,
            length,
            damaged: false,
        }
    }

    fn any(random: &mut Random, port: u16) -> Self {
        let mut frame = Frame::usual(0, port);
        frame.types = match random.below(20) {
            0..=9 => vec![0x0800],
            10..=15 => vec![0x8100, 0x0800],
            16 => vec![0x8100, 0x8100, 0x0800],
            17 => vec![random.pick(&[0x86dd, 0x0806, 0x0801, 0x0008])],
            18 => vec![0x8100, random.pick(&[0x86dd, 0x0806, 0x0801, 0x0008])],
            // Other tags, which are none here.
            _ => vec![random.pick(&[0x88a8, 0x9100, 0x8101, 0x0081]), 0x0800],
        };
        if random.below(8) == 0 {
            frame.version = random.below(16) as u8;
        }
        if random.below(2) == 0 {
            frame.ihl = random.below(16) as u8;
        }
        if random.below(8) == 0 {
            frame.protocol = random.pick(&[0, 1, 6, 16, 18, 17 + 128]);
        }
        let payload = frame.payload();
        frame.length = match random.below(100) {
            0..=19 => random.below(61),
            20..=39 => random.pick(&[41, 42, 43, 45, 46, 47]),
            40..=69 => payload + random.below(6) - 3,
            70..=98 => payload + random.below(200),
            _ => payload + random.below(3000),
        };
        frame.damaged = random.below(10) == 0;
        frame
    }

    /// States that it is no fragment, and the true length of a datagram that padding follows; of sixteen
    /// frames, so many have another fragment field or another length.
    fn state_datagram(&mut self, random: &mut Random, padding: usize, others: usize) {
        let (held, record) = (self.held(), self.length);
        self.udp_length = Some(held - padding);
        if random.below(16) < others {
            let any = random.next() as u16;
            if random.below(2) == 0 {
                let some = random.pick(&FRAGMENTS);
                self.fragment = random.pick(&[some, some, some, any]);
            } else {
                let edges = [0, 8, 9, held.max(1) - 1, held, held + 1, record, 65_535];
                let some = random.pick(&edges);
                self.udp_length = Some(random.pick(&[some, some, some, any.into()]));
            }
        }
    }

    /// Where the IP header starts.
    fn ip(&self) -> usize {
        12 + 4 * self.types.len() - 2
    }

    /// Where the UDP header starts.
    fn udp(&self) -> usize {
        self.ip() + 4 * usize::from(self.ihl)
    }

    /// Where the payload starts.
    fn payload(&self) -> usize {
        self.udp() + 8
    }

    /// How much the frame holds from the UDP header on.
    fn held(&self) -> usize {
        self.length.saturating_sub(self.udp())
    }

    fn bytes(&self, random: &mut Random) -> Vec<u8> {
        self.bytes_around(random, &[])
    }

    /// With a short IHL the headers lie over the payload.
    fn bytes_around(&self, random: &mut Random, payload: &[u8]) -> Vec<u8> {
        let mut bytes = Vec::new();
        let filled = self.length.max(self.payload()) - payload.len();
        bytes.resize_with(filled, || random.next() as u8);
        bytes.splice(self.payload()..self.payload(), payload.iter().copied());
        for (i, ether_type) in self.types.iter().enumerate() {
            bytes[12 + 4 * i..][..2].copy_from_slice(&ether_type.to_be_bytes());
        }
        let (ip, udp) = (self.ip(), self.udp());
        bytes[ip + 6..ip + 8].copy_from_slice(&self.fragment.to_be_bytes());
        // The longest, where the record holds more.
        let length = self.udp_length.unwrap_or(self.held()).min(65_535) as u16;
        bytes[udp + 4..udp + 6].copy_from_slice(&length.to_be_bytes());
        // With a short IHL the UDP header lies in the IP header, and what follows is written over these: with
        // an IHL of 1 the port is the fragment field, and the protocol stands in the length.
        if ip + 10 <= bytes.len() {
            bytes[ip + 9] = self.protocol;
        }
        bytes[ip] = self.version << 4 | self.ihl;
        bytes[udp + 2..udp + 4].copy_from_slice(&self.port.to_be_bytes());
        if self.ihl >= 5 {
            // A true or a short total length, which nobody looks at.
            let total = random.below(bytes.len() - ip + 1) as u16;
            bytes[ip + 2..ip + 4].copy_from_slice(&total.to_be_bytes());
        }
        bytes.truncate(self.length);
        if self.damaged {
            damage(random, &mut bytes, 0);
        }
        bytes
    }
}
