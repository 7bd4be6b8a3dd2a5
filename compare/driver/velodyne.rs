//! Velodyne: captures in both readings, single packets, and the models.

use crate::capture_files;
use crate::lent::Canaries;
use crate::long::{untouched, TOO_LONG};
use crate::original::{self, Original};
use crate::ours;
use crate::random::Random;
use crate::reading::{hold_all, refusal, Call, Expected, Room};
use crate::tally::Tally;
use crate::words::{self, Reading};

const PORT: u16 = 2368;
const PACKET: usize = 1206;
const BLOCK: usize = 100;

const RUST: [Call; 2] = [
    Call::Floats("lidar_read_velodyne", &ours::read_velodyne),
    Call::Floats("lidar_read_velodyne_as, false", &|data, numbers, kinds| {
        ours::read_velodyne_as(false, data, numbers, kinds)
    }),
];

const SAVEFILE: [Call; 1] = [Call::Floats(
    "lidar_read_velodyne_as, true",
    &|data, numbers, kinds| ours::read_velodyne_as(true, data, numbers, kinds),
)];

const DECODE: [Call; 1] = [Call::Floats(
    "lidar_decode_velodyne_packet",
    &ours::decode_velodyne_packet,
)];

/// The Rust's reading, named and as the usual one, against the original.
pub fn compare(original: &Original, seed: u64, files: u64) -> Tally {
    let mut tally = captures("velodyne", seed, files, Reading::Rust, &RUST, |data| {
        original.read_velodyne(data)
    });
    tally.beside("the models", models());
    tally
}

/// The savefile reading: the payloads by the paper's words, and their points by the original.
pub fn compare_savefile(seed: u64, files: u64) -> Tally {
    let of_words = |data: &[u8]| match words::number(data) {
        0 => original::read_velodyne_payloads(&words::copies(data, Reading::Savefile, PORT)),
        number => Err(number),
    };
    captures(
        "velodyne as savefiles",
        seed,
        files,
        Reading::Savefile,
        &SAVEFILE,
        of_words,
    )
}

fn captures(
    reader: &'static str,
    seed: u64,
    files: u64,
    reading: Reading,
    calls: &[Call],
    read: impl Fn(&[u8]) -> original::Patterns,
) -> Tally {
    let mut canaries = Canaries::new();
    let mut tally = Tally::new(reader, seed);
    for case in 0..files {
        let mut random = Random::of_case(seed, case);
        let data = capture_files::of_packets(&mut random, reading, PORT, packet);
        tally.file(case, &data, |data| {
            // A generator of its own, so that a shorter file is tried in the same way.
            let mut random = Random::of_case(!seed, case);
            let expected = Expected::polar(read(data));
            hold_all(calls, &mut canaries, data, &expected, &mut random)
        });
    }
    tally.beside("the lengths around refusal 1", long_data(reading, calls));
    tally
}

/// Single packets against the original's own function.
pub fn compare_packets(seed: u64, files: u64) -> Tally {
    let mut canaries = Canaries::new();
    let mut tally = Tally::new("velodyne packets", seed);
    for case in 0..files {
        let data = packet(&mut Random::of_case(seed, case));
        tally.file(case, &data, |data| {
            let mut random = Random::of_case(!seed, case);
            let expected = Expected::polar(Ok(original::decode_velodyne_packet(data)));
            hold_all(&DECODE, &mut canaries, data, &expected, &mut random)
        });
    }
    tally.beside("the lengths around refusal 1", long_packet());
    tally
}

/// A packet of zeros has no point, whatever its length. The original has no such limit.
fn long_packet() -> Result<(), String> {
    let data = untouched(TOO_LONG + 1)?;
    let room = Room {
        numbers: 5,
        kinds: 2,
    };
    for (length, number) in [(TOO_LONG - 1, 0), (TOO_LONG, 1), (TOO_LONG + 1, 1)] {
        let data = &data[..length];
        DECODE[0]
            .hold_to(&mut Canaries::new(), data, room, refusal(number), &[], &[])
            .map_err(|what| format!("{length} bytes: {what}"))?;
    }
    Ok(())
}

/// Most have the least length that is read, and one of the bytes that name a model.
pub fn packet(random: &mut Random) -> Vec<u8> {
    let length = match random.below(20) {
        0 => PACKET - 1,
        1 => PACKET + 1,
        2 => random.below(PACKET + 100),
        _ => PACKET,
    };
    let mut bytes = Vec::with_capacity(length.max(PACKET) + 7);
    while bytes.len() < length.max(PACKET) {
        bytes.extend(random.next().to_le_bytes());
    }
    bytes.truncate(length.max(PACKET));
    // Of a hundred: the blocks that are flagged, and the distances that are 0.
    let flagged = random.pick(&[0, 50, 90, 100, 100, 100]);
    let zeros = random.pick(&[0, 1, 10, 50, 95, 100]);
    let mut azimuth = random.next() as u16;
    for block in bytes[..12 * BLOCK].chunks_mut(BLOCK) {
        let flag = if random.below(100) < flagged {
            0xFFEE
        } else {
            // As sensors send it, and others that are close.
            let any = random.next() as u16;
            random.pick(&[0xEEFF, 0xFFEF, 0xFEEE, 0xFFFF, any])
        };
        block[..2].copy_from_slice(&u16::to_le_bytes(flag));
        azimuth = next_azimuth(random, azimuth);
        block[2..4].copy_from_slice(&azimuth.to_le_bytes());
        for channel in block[4..].chunks_mut(3) {
            if random.below(100) < zeros {
                channel[..2].fill(0);
            } else if random.below(32) == 0 {
                let distance: u16 = random.pick(&[1, 2, 255, 256, 32_768, 65_535]);
                channel[..2].copy_from_slice(&distance.to_le_bytes());
            }
        }
    }
    bytes[PACKET - 1] = match random.below(8) {
        0..=3 => 0x22,
        4 => 0x28,
        5 => random.pick(&[0x21, 0x35]),
        _ => random.next() as u8,
    };
    // What lies before it is no model byte, nor is what lies after.
    bytes[PACKET - 2] = random.pick(&[0x22, 0x28, 0x37, 0x38]);
    bytes.truncate(length);
    bytes
}

/// A step as a sensor makes it, and azimuths around the turn: half-steps that lead to exactly 360.0,
/// with and without 360.0 gained, and azimuths that no sensor sends.
fn next_azimuth(random: &mut Random, before: u16) -> u16 {
    let before = i32::from(before);
    let next = match random.below(12) {
        0..=4 => (before + random.within(1, 60) as i32) % 36_000,
        5 => 36_000 - before + random.below(5) as i32 - 2,
        6 => 72_000 - before + random.below(5) as i32 - 2,
        7 => before,
        8 => return random.pick(&[0, 100, 35_900, 35_999, 36_000, 36_001, 65_535]),
        _ => return random.next() as u16,
    };
    u16::try_from(next).unwrap_or(random.next() as u16)
}

fn models() -> Result<(), String> {
    for byte in 0..=255 {
        let got = ours::detect_velodyne_model(byte);
        let want = original::detect_velodyne_model(byte);
        if got != want {
            return Err(format!("{byte:#04x} names model {got} and not {want}"));
        }
    }
    Ok(())
}

/// One record as long as the data allows, which is no datagram. The original has no such limit.
fn long_data(reading: Reading, calls: &[Call]) -> Result<(), String> {
    let data = untouched(TOO_LONG + 1)?;
    let length = (TOO_LONG - 1 - 40) as u32;
    data[..4].copy_from_slice(&[0xa1, 0xb2, 0xc3, 0xd4]);
    data[32..36].copy_from_slice(&match reading {
        Reading::Rust => length.to_le_bytes(),
        Reading::Savefile => length.to_be_bytes(),
    });
    let room = Room {
        numbers: 5,
        kinds: 2,
    };
    for (length, number) in [(TOO_LONG - 1, 9), (TOO_LONG, 1), (TOO_LONG + 1, 1)] {
        for call in calls {
            call.hold_to(
                &mut Canaries::new(),
                &data[..length],
                room,
                refusal(number),
                &[],
                &[],
            )
            .map_err(|what| format!("{length} bytes: {what}"))?;
        }
    }
    Ok(())
}
