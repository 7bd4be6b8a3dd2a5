//! Livox: both forms, by value and by pattern.

use crate::lent::Canaries;
use crate::livox_files::{self, Form};
use crate::long::{untouched, TOO_LONG};
use crate::original::Original;
use crate::ours::{self, Answer};
use crate::placing;
use crate::random::Random;
use crate::reading::{hold_all, refusal, Call, Expected, Room};
use crate::stored::StoredReading;
use crate::tally::Tally;

const LVX: [Call; 2] = [
    Call::Bits("lidar_read_lvx_bits", &ours::read_lvx_bits),
    Call::Floats("lidar_read_lvx", &ours::read_lvx),
];

const LVX2: [Call; 2] = [
    Call::Bits("lidar_read_lvx2_bits", &ours::read_lvx2_bits),
    Call::Floats("lidar_read_lvx2", &ours::read_lvx2),
];

pub fn compare(original: &Original, form: Form, seed: u64, files: u64) -> Tally {
    let (reader, calls) = match form {
        Form::Lvx => ("lvx", &LVX),
        Form::Lvx2 => ("lvx2", &LVX2),
    };
    let mut canaries = Canaries::new();
    let mut tally = Tally::new(reader, seed);
    for case in 0..files {
        let data = livox_files::file(&mut Random::of_case(seed, case), case, form);
        tally.file(case, &data, |data| {
            // A generator of its own, so that a shorter file is tried in the same way.
            let mut random = Random::of_case(!seed, case);
            let expected = Expected::livox(original.read_livox(form, data));
            // A file's bytes may start at any address. A walk whose place wraps around would read what
            // lies before them.
            let start = 32 + random.below(16);
            let placed = [&vec![0; start], data].concat();
            hold_all(
                calls,
                &mut canaries,
                &placed[start..],
                &expected,
                &mut random,
            )
        });
    }
    tally.beside("the lengths around refusal 1", long_data(form, calls));
    tally
}

/// The stored readings of some ranks, and their placings.
pub fn compare_stored(original: &Original, form: Form, seed: u64, files: u64) -> Tally {
    let reader = match form {
        Form::Lvx => "lvx ranks",
        Form::Lvx2 => "lvx2 ranks",
    };
    let mut tally = Tally::new(reader, seed);
    for case in 0..files {
        let data = livox_files::file(&mut Random::of_case(seed, case), case, form);
        tally.file(case, &data, |data| {
            let mut random = Random::of_case(!seed, case);
            let read = original.read_livox(form, data);
            let points = read.as_ref().map_or(0, |file| file.bits.len() / 3);
            let any = random.below(points.max(1));
            for rank in [
                0,
                any,
                points.saturating_sub(1),
                points,
                points + 1,
                // 0, if it is cut to 32 bits.
                1 << 32,
                usize::MAX,
            ] {
                let expected = match &read {
                    Err(number) => Err(*number),
                    Ok(file) => file.stored_reading(rank),
                };
                hold_rank(form == Form::Lvx2, data, rank, expected, &mut random)
                    .map_err(|what| format!("rank {rank} of {points}: {what}"))?;
            }
            Ok(())
        });
    }
    tally
}

fn hold_rank(
    lvx2: bool,
    data: &[u8],
    rank: usize,
    expected: Result<StoredReading, u8>,
    random: &mut Random,
) -> Result<(), String> {
    let told = ours::stored_reading(data, lvx2, rank);
    let want = match expected {
        Err(number) => (number, 0, [0; 3]),
        Ok(reading) => {
            let (form, numbers) = reading.numbers();
            (0, form, numbers)
        }
    };
    if told != want {
        return Err(format!("{told:?} instead of {want:?}"));
    }
    let belt = placing::belt(random);
    placing::hold_reading(ours::place_in_file(data, lvx2, rank, belt), expected, belt)
}

/// One frame, which ends the walk. The original has no such limit.
fn long_data(form: Form, calls: &[Call]) -> Result<(), String> {
    let data = untouched(TOO_LONG + 1)?;
    let base = match form {
        Form::Lvx => {
            data[..10].copy_from_slice(b"livox_tech");
            data[20..24].copy_from_slice(&0xAC0E_A767u32.to_le_bytes());
            29
        }
        Form::Lvx2 => {
            data[..4].copy_from_slice(&0x2020_0903u32.to_le_bytes());
            data[8..12].copy_from_slice(&28u32.to_le_bytes());
            28
        }
    };
    data[base + 8..base + 16].fill(0xFF);
    let one_frame = Answer {
        number: 0,
        points: 0,
        frames: 1,
    };
    let room = Room {
        numbers: 5,
        kinds: 2,
    };
    for (length, answer) in [
        (TOO_LONG - 1, one_frame),
        (TOO_LONG, refusal(1)),
        (TOO_LONG + 1, refusal(1)),
    ] {
        for call in calls {
            call.hold_to(
                &mut Canaries::new(),
                &data[..length],
                room,
                answer,
                &[],
                &[],
            )
            .map_err(|what| format!("{length} bytes: {what}"))?;
        }
        // The calls by rank: there is no point, and then no file.
        let number = if answer == one_frame { 11 } else { 1 };
        let lvx2 = form == Form::Lvx2;
        let belt = placing::belt(&mut Random::of_case(0, 0));
        let stored = ours::stored_reading(&data[..length], lvx2, 0);
        if stored != (number, 0, [0; 3]) {
            return Err(format!("{length} bytes: {stored:?} and not {number}"));
        }
        placing::hold_refused(ours::place_in_file(&data[..length], lvx2, 0, belt), number)
            .map_err(|what| format!("{length} bytes: {what}"))?;
    }
    Ok(())
}
