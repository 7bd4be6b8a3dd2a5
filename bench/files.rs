//! The inputs, each of the size that is asked or a little less, made on the spot.

/// The magic by which the Rust takes little-endian lengths for what they are.
pub const FOR_RUST: [u8; 4] = [0xa1, 0xb2, 0xc3, 0xd4];

/// The magic by which a savefile has little-endian lengths.
pub const SAVEFILE: [u8; 4] = [0xd4, 0xc3, 0xb2, 0xa1];

/// A capture of datagrams to a port, with little-endian lengths and times in microseconds. Each payload is
/// made from its number, and is one in both readings.
pub fn capture(size: usize, port: u16, mut payload: impl FnMut(u32) -> Vec<u8>) -> Vec<u8> {
    let mut data = Vec::with_capacity(size);
    // Version 2.4, no zone, the longest record, Ethernet.
    data.extend(FOR_RUST);
    data.extend([
        2, 0, 4, 0, 0, 0, 0, 0, 0, 0, 0, 0, 0xff, 0xff, 0, 0, 1, 0, 0, 0,
    ]);
    for number in 1.. {
        let payload = payload(number);
        let length = 42 + payload.len();
        if data.len() + 16 + length > size {
            break;
        }
        data.extend(number.to_le_bytes());
        data.extend((999_999 - number % 1_000_000).to_le_bytes());
        data.extend((length as u32).to_le_bytes());
        data.extend((length as u32).to_le_bytes());
        let record = data.len();
        data.resize(record + 42, number as u8);
        let record = &mut data[record..];
        record[12..14].copy_from_slice(&[0x08, 0x00]);
        record[14] = 0x45;
        // No fragment.
        record[20..22].fill(0);
        record[23] = 17;
        record[36..38].copy_from_slice(&port.to_be_bytes());
        record[38..40].copy_from_slice(&(payload.len() as u16 + 8).to_be_bytes());
        data.extend(payload);
    }
    data
}

/// The same capture for the savefile reading.
pub fn as_savefile(capture: &[u8]) -> Vec<u8> {
    let mut savefile = capture.to_vec();
    savefile[..4].copy_from_slice(&SAVEFILE);
    savefile
}

/// splitmix64
pub struct Random(pub u64);

impl Random {
    pub fn next(&mut self) -> u64 {
        self.0 = self.0.wrapping_add(0x9E37_79B9_7F4A_7C15);
        let mut z = self.0;
        z = (z ^ (z >> 30)).wrapping_mul(0xBF58_476D_1CE4_E5B9);
        z = (z ^ (z >> 27)).wrapping_mul(0x94D0_49BB_1331_11EB);
        z ^ (z >> 31)
    }

    pub fn bytes(&mut self, length: usize) -> Vec<u8> {
        let mut bytes = Vec::with_capacity(length + 7);
        while bytes.len() < length {
            bytes.extend(self.next().to_le_bytes());
        }
        bytes.truncate(length);
        bytes
    }
}

/// A packet as it is read, and not as sensors send it: every block is flagged. One distance in sixteen
/// is 0, as where nothing sends light back.
pub fn velodyne_packet(random: &mut Random, number: u32, model: u8) -> Vec<u8> {
    let mut packet = random.bytes(1206);
    for (i, block) in packet[..1200].chunks_mut(100).enumerate() {
        block[..2].copy_from_slice(&[0xEE, 0xFF]);
        let azimuth = (number as usize * 12 + i) * 40 % 36_000;
        block[2..4].copy_from_slice(&(azimuth as u16).to_le_bytes());
        for channel in block[4..].chunks_mut(3) {
            if random.next() % 16 == 0 {
                channel[..2].fill(0);
            }
        }
    }
    packet[1205] = model;
    packet
}

/// A packet of 16 columns. One range in sixteen is 0.
pub fn ouster_packet(random: &mut Random, number: u32, beams: usize) -> Vec<u8> {
    let column = 16 + 12 * beams + 4;
    let mut packet = random.bytes(16 * column);
    for (i, column) in packet.chunks_mut(column).enumerate() {
        let ticks = (number * 16 + i as u32) * 88 % 90_112;
        column[12..16].copy_from_slice(&ticks.to_le_bytes());
        for channel in column[16..16 + 12 * beams].chunks_mut(12) {
            if random.next() % 16 == 0 {
                channel[..4].fill(0);
            }
        }
    }
    packet
}

/// KITTI: four floats a point, none of them a NaN.
pub fn kitti(random: &mut Random, size: usize) -> Vec<u8> {
    let coordinate = |bits: u64| (bits % 200_000) as f32 / 1000.0 - 100.0;
    let floats = (0..size / 16 * 4).map(|_| coordinate(random.next()));
    floats.flat_map(f32::to_le_bytes).collect()
}

/// LVX: frames of 100 packages, each with 96 points of one type.
pub fn lvx(random: &mut Random, size: usize, data_type: u8, point: usize) -> Vec<u8> {
    let mut data = b"livox_tech".to_vec();
    data.resize(20, 0);
    data.extend(0xAC0E_A767u32.to_le_bytes());
    data.extend([50, 0, 0, 0, 1]);
    data.resize(29 + 59, 0);
    frames(random, size, data, 27, 96 * point, |header| {
        header[10] = data_type;
        header[21..23].copy_from_slice(&(96 * point as u16).to_le_bytes());
    })
}

/// LVX2, in the same way.
pub fn lvx2(random: &mut Random, size: usize, data_type: u8, point: usize) -> Vec<u8> {
    let mut data = 0x2020_0903u32.to_le_bytes().to_vec();
    data.extend([2, 0, 0, 0]);
    data.extend(28u32.to_le_bytes());
    data.extend([0; 8]);
    data.extend([50, 0, 0, 0, 1, 0, 0, 0]);
    data.resize(28 + 41, 0);
    frames(random, size, data, 11, 96 * point, |header| {
        header[6] = data_type;
        header[7..11].copy_from_slice(&(96 * point as u32).to_le_bytes());
    })
}

fn frames(
    random: &mut Random,
    size: usize,
    mut data: Vec<u8>,
    header: usize,
    body: usize,
    fill: impl Fn(&mut [u8]),
) -> Vec<u8> {
    let base = data.len();
    let frame = 24 + 100 * (header + body);
    while data.len() + frame <= size {
        let place = data.len() - base;
        data.extend((place as u64).to_le_bytes());
        data.extend(((place + frame) as u64).to_le_bytes());
        data.extend([0; 8]);
        for _ in 0..100 {
            let at = data.len();
            data.resize(at + header, 0);
            fill(&mut data[at..]);
            data.extend(random.bytes(body));
        }
    }
    data
}
