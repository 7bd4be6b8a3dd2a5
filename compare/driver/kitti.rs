//! KITTI: four f32 a point, the fourth dropped.

use crate::lent::Canaries;
use crate::long::{untouched, TOO_LONG};
use crate::original::Original;
use crate::ours;
use crate::random::Random;
use crate::reading::{refusal, rooms, too_little_room, Call, Expected, Room, CARTESIAN};
use crate::tally::Tally;

const RECORD: usize = 16;

const CALLS: [Call; 2] = [
    Call::Bits("lidar_read_kitti_bits", &ours::read_kitti_bits),
    Call::Floats("lidar_read_kitti", &ours::read_kitti),
];

pub fn compare(original: &Original, seed: u64, files: u64) -> Tally {
    let mut canaries = Canaries::new();
    let mut tally = Tally::new("kitti", seed);
    for case in 0..files {
        let mut random = Random::of_case(seed, case);
        let data = file(&mut random, case);
        tally.file(case, &data, |data| {
            // A generator of its own, so that a shorter file is tried in the same way.
            let mut random = Random::of_case(!seed, case);
            let rooms = rooms(&mut random, data.len() / RECORD);
            // A file's bytes may start at any address.
            let start = random.below(RECORD);
            let placed = [&vec![0xEE; start], data].concat();
            compare_file(original, &mut canaries, &placed[start..], &rooms)
        });
    }
    tally.beside("the lengths around refusal 1", long_data(&mut canaries));
    tally
}

/// Both calls, in every room. The error says what differs.
fn compare_file(
    original: &Original,
    canaries: &mut Canaries,
    data: &[u8],
    rooms: &[Room],
) -> Result<(), String> {
    let expected = match original.read_kitti(data) {
        Err(number) => Expected::Refused(number),
        Ok(bits) => Expected::Read {
            kinds: vec![CARTESIAN; bits.len() / 3],
            bits,
            frames: 0,
        },
    };
    for call in &CALLS {
        for &room in rooms {
            call.hold(canaries, data, room, &expected)?;
        }
    }
    Ok(())
}

/// The first files have the lengths 0, 1, 2, .. in order. Later ones lie at or near a multiple of 16.
pub fn file(random: &mut Random, case: u64) -> Vec<u8> {
    let length = if case <= 6 * RECORD as u64 {
        case as usize
    } else {
        let points = match random.below(1000) {
            0 => random.below(20_000),
            1..=100 => random.below(512),
            101..=500 => random.below(64),
            _ => random.below(5),
        };
        let tail = match random.below(8) {
            0 => 1,
            1 => RECORD - 1,
            2 => random.below(RECORD),
            _ => 0,
        };
        points * RECORD + tail
    };
    // How often a number is one of the chosen patterns and not four random bytes.
    let chosen = random.pick(&[0, 50, 100]);
    let mut data = Vec::with_capacity(length + 3);
    while data.len() < length {
        let bits = if random.below(100) < chosen {
            random.f32_bits()
        } else {
            random.next() as u32
        };
        data.extend(bits.to_le_bytes());
    }
    data.truncate(length);
    data
}

/// The refusals that a length around 2^31 gives. The original has no such limit, and is not asked.
/// No answer depends on the bytes, so the memory is never touched and takes no room.
fn long_data(canaries: &mut Canaries) -> Result<(), String> {
    let data = untouched(TOO_LONG + RECORD)?;
    let room = Room {
        numbers: 5,
        kinds: 2,
    };
    for (length, answer) in [
        (TOO_LONG - RECORD, too_little_room(TOO_LONG / RECORD - 1)),
        (TOO_LONG - 1, refusal(8)),
        (TOO_LONG, refusal(1)),
        (TOO_LONG + 1, refusal(1)),
        (TOO_LONG + RECORD, refusal(1)),
    ] {
        for call in &CALLS {
            call.hold_to(canaries, &data[..length], room, answer, &[], &[])
                .map_err(|what| format!("{length} bytes: {what}"))?;
        }
    }
    Ok(())
}
