//! Livox files made from a seed: well-formed, damaged and random ones, of both forms.

use crate::random::Random;

#[derive(Clone, Copy, PartialEq, Eq)]
pub enum Form {
    Lvx,
    Lvx2,
}

pub const FRAME_HEADER: usize = 24;

/// Where a form keeps the fields of a package, and the size of a point of each type.
pub struct Layout {
    pub package_header: usize,
    type_at: usize,
    length_at: usize,
    pub types: [(u8, usize); 3],
}

impl Form {
    pub fn layout(self) -> Layout {
        match self {
            Form::Lvx => Layout {
                package_header: 27,
                type_at: 10,
                length_at: 21,
                types: [(1, 14), (2, 10), (3, 14)],
            },
            Form::Lvx2 => Layout {
                package_header: 11,
                type_at: 6,
                length_at: 7,
                types: [(0, 8), (1, 14), (2, 10)],
            },
        }
    }

    fn device(self) -> usize {
        match self {
            Form::Lvx => 59,
            Form::Lvx2 => 41,
        }
    }
}

/// The first files have one device, and are cut at every length.
const CUTS: u64 = 300;
/// The next have every count of devices, each with data that ends before, at and after the section.
const DEVICES: u64 = 3 * 256;
/// From this case on a file is any.
pub const ANY: u64 = CUTS + DEVICES;

/// The file of a case.
pub fn file(random: &mut Random, case: u64, form: Form) -> Vec<u8> {
    if case < CUTS {
        let start = header(random, form, 28, 1);
        let mut data = any_frames(random, start, form, true);
        data.truncate(case as usize);
        data
    } else if case < ANY {
        let (devices, end) = ((case - CUTS) / 3, (case - CUTS) % 3);
        let mut data = header(random, form, 28, devices as u8);
        match end {
            0 => data.truncate(data.len() - 1),
            1 => {}
            _ => data = any_frames(random, data, form, true),
        }
        data
    } else {
        any(random, form)
    }
}

fn any(random: &mut Random, form: Form) -> Vec<u8> {
    let devices = match random.below(20) {
        0 => random.next() as u8,
        1..=3 => random.below(4) as u8,
        _ => random.below(2) as u8,
    };
    // Only LVX2 says where its devices start: at 28, or elsewhere, in the header too.
    let header_size = match random.below(10) {
        0 => random.below(28),
        1 => random.within(28, 80),
        _ => 28,
    };
    let sound = random.below(2) == 0;
    let start = header(random, form, header_size, devices);
    let mut data = any_frames(random, start, form, sound);
    match random.below(30) {
        0 | 1 => data.truncate(random.below(data.len() + 1)),
        2 | 3 => damage(random, &mut data, 29),
        4 => damage(random, &mut data, 0),
        // Noise after a good header: any bytes, and small ones.
        5 if data.len() > 29 => data[29..].fill_with(|| random.next() as u8),
        6 if data.len() > 29 => data[29..].fill_with(|| random.below(3) as u8),
        7 if form == Form::Lvx2 && data.len() >= 12 => {
            let far = match random.below(4) {
                0 => random.next() as u32,
                1 => u32::MAX - random.below(64) as u32,
                _ => (data.len() + random.below(60)).saturating_sub(30) as u32,
            };
            data[8..12].copy_from_slice(&far.to_le_bytes());
        }
        _ => {}
    }
    data
}

/// Everything before the frames.
pub fn header(random: &mut Random, form: Form, header_size: usize, devices: u8) -> Vec<u8> {
    let mut data = Vec::new();
    let start = match form {
        Form::Lvx => {
            data.extend(b"livox_tech");
            data.resize_with(20, || random.next() as u8);
            data.extend(0xAC0E_A767u32.to_le_bytes());
            data.extend((random.next() as u32).to_le_bytes());
            data.push(devices);
            29
        }
        Form::Lvx2 => {
            data.extend(0x2020_0903u32.to_le_bytes());
            data.extend((random.next() as u32).to_le_bytes());
            data.extend((header_size as u32).to_le_bytes());
            data.extend([0; 12]);
            data.push(devices);
            data.resize_with(28, || random.next() as u8);
            header_size
        }
    };
    let base = start + form.device() * usize::from(devices);
    if base > data.len() {
        data.resize_with(base, || random.next() as u8);
    }
    data
}

/// Appends frames. If the file is not sound, some next offsets and lengths are wrong.
fn any_frames(random: &mut Random, mut data: Vec<u8>, form: Form, sound: bool) -> Vec<u8> {
    let base = match form {
        Form::Lvx => data.len(),
        Form::Lvx2 => {
            let start = u32::from_le_bytes(data[8..12].try_into().unwrap()) as usize;
            start + form.device() * usize::from(data[24])
        }
    };
    // The first frame's header lies over the file header where the base does.
    let mut places = vec![base];
    let mut lengths = Vec::new();
    data.resize(data.len().max(base + FRAME_HEADER), 0);
    for i in 0..random.pick(&[1, 1, 2, 2, 3, 4, 7]) {
        if i > 0 {
            places.push(data.len());
            data.resize_with(data.len() + FRAME_HEADER, || random.next() as u8);
        }
        for _ in 0..random.pick(&[0, 1, 1, 1, 2, 3, 5]) {
            lengths.push(package(random, &mut data, form));
        }
    }
    for (i, &place) in places.iter().enumerate() {
        let next = if !sound && random.below(3) == 0 {
            wrong_next(random, place, base, &data, &places)
        } else {
            match places.get(i + 1) {
                Some(next) => (next - base) as u64,
                None => random.pick(&[0, (data.len() - base) as u64]),
            }
        };
        // What the file header has to say stays.
        let at = place + 8;
        if at >= 25 || form == Form::Lvx2 && (12..=16).contains(&at) {
            data[at..at + 8].copy_from_slice(&next.to_le_bytes());
        }
    }
    if !sound {
        for at in lengths {
            if random.below(6) == 0 {
                wrong_length(random, &mut data, at, form);
            }
        }
    }
    data
}

/// Appends a package, and tells where its header stands.
fn package(random: &mut Random, data: &mut Vec<u8>, form: Form) -> usize {
    let (data_type, size) = match random.below(10) {
        0 => (random.next() as u8, random.within(1, 20)),
        1 => (random.pick(&[0, 3, 4, 255]), 14),
        _ => random.pick(&form.layout().types),
    };
    let points = random.pick(&[0, 1, 1, 2, 3, 8, 20]);
    let length = points * size + random.pick(&[0, 0, 0, 1, size - 1]);
    package_of(random, data, form, data_type, length)
}

/// The same, of a type and a length.
pub fn package_of(
    random: &mut Random,
    data: &mut Vec<u8>,
    form: Form,
    data_type: u8,
    length: usize,
) -> usize {
    let at = data.len();
    package_header(random, data, form, data_type, length);
    let end = data.len() + length;
    // Floats as they are easy to get wrong, numbers at the ends of their ranges, and any bytes.
    let chosen = random.below(3);
    while data.len() < end {
        let word = match chosen {
            0 => random.f32_bits(),
            1 => random.pick(&[0, 1, 0x7FFF_FFFF, 0x8000_0000, u32::MAX, 0x0100_0001]),
            _ => random.next() as u32,
        };
        data.extend(word.to_le_bytes());
    }
    data.truncate(end);
    at
}

/// Appends the header of a package.
pub fn package_header(
    random: &mut Random,
    data: &mut Vec<u8>,
    form: Form,
    data_type: u8,
    length: usize,
) {
    let layout = form.layout();
    let at = data.len();
    data.resize_with(at + layout.package_header, || random.next() as u8);
    data[at + layout.type_at] = data_type;
    set_length(data, at, length, form);
}

/// Writes the length into the header of a package. LVX has no room for more than 65,535.
fn set_length(data: &mut [u8], at: usize, length: usize, form: Form) {
    let field = &mut data[at + form.layout().length_at..];
    match form {
        Form::Lvx => field[..2].copy_from_slice(&(length.min(65_535) as u16).to_le_bytes()),
        Form::Lvx2 => field[..4].copy_from_slice(&(length as u32).to_le_bytes()),
    }
}

/// A next offset that leads back, stays, falls into this frame, after the data or around 2^64.
fn wrong_next(
    random: &mut Random,
    place: usize,
    base: usize,
    data: &[u8],
    places: &[usize],
) -> u64 {
    let small = random.below(40) as u64;
    let target = match random.below(10) {
        0 => return 0,
        1 => return random.next(),
        2 => place as u64,
        3 => place as u64 + small,
        4 => random.pick(places) as u64,
        5 => random.below(data.len() + 1) as u64,
        6 => (data.len() as u64 + small).wrapping_sub(20),
        // The places near 2^64, and those where it wraps.
        7 | 8 => small.wrapping_sub(36),
        _ => (1 << random.within(31, 63)) + small,
    };
    target.wrapping_sub(base as u64)
}

/// A length that is a little off, that reaches the data's end or goes just past it, or that is far off.
fn wrong_length(random: &mut Random, data: &mut [u8], at: usize, form: Form) {
    let rest = data.len() - at - form.layout().package_header;
    let length = match random.below(6) {
        0 => random.below(40),
        1 => rest,
        2 => rest + 1,
        3 => rest.saturating_sub(random.below(30)),
        4 => random.next() as u32 as usize,
        _ => random.below(rest + 10),
    };
    set_length(data, at, length, form);
}

/// Flips bits after the first bytes.
fn damage(random: &mut Random, data: &mut [u8], kept: usize) {
    if data.len() > kept {
        let rest = &mut data[kept..];
        for _ in 0..random.within(1, 8) {
            rest[random.below(rest.len())] ^= 1 << random.below(8);
        }
    }
}
