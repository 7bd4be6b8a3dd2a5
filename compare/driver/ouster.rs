//! Ouster: captures in both readings with settings of every kind, and the made-ready settings.

use crate::capture_files;
use crate::lent::Canaries;
use crate::long::{untouched, TOO_LONG};
use crate::original::{self, Original};
use crate::ours::{self, OusterSettings};
use crate::random::Random;
use crate::reading::{hold_all, refusal, Call, Expected, Room};
use crate::tally::Tally;
use crate::words::{self, Reading};

const BEAMS: [usize; 4] = [16, 32, 64, 128];

/// The Rust's reading, named and as the usual one, against the original.
pub fn compare(original: &Original, seed: u64, files: u64) -> Tally {
    let readings = [None, Some(false)];
    let mut tally = captures(
        "ouster",
        seed,
        files,
        Reading::Rust,
        &readings,
        |settings, data| original.read_ouster(settings, data),
    );
    tally.beside("os1_64", made_ready(ours::os1_64(), original::os1_64()));
    tally.beside("os_128", made_ready(ours::os_128(), original::os_128()));
    tally
}

/// The savefile reading: the payloads by the paper's words, and their points by the original.
pub fn compare_savefile(seed: u64, files: u64) -> Tally {
    let of_words = |settings: &OusterSettings, data: &[u8]| match words::number(data) {
        0 => {
            let payloads = words::copies(data, Reading::Savefile, settings.lidar_port);
            original::read_ouster_payloads(settings, &payloads)
        }
        number => Err(number),
    };
    captures(
        "ouster as savefiles",
        seed,
        files,
        Reading::Savefile,
        &[Some(true)],
        of_words,
    )
}

fn captures(
    reader: &'static str,
    seed: u64,
    files: u64,
    reading: Reading,
    savefiles: &[Option<bool>],
    read: impl Fn(&OusterSettings, &[u8]) -> original::Patterns,
) -> Tally {
    let mut canaries = Canaries::new();
    let mut tally = Tally::new(reader, seed);
    for case in 0..files {
        let mut random = Random::of_case(seed, case);
        let settings = settings(&mut random);
        let sent = match settings.lidar_port {
            0 => random.next() as u16,
            port => port,
        };
        let data = capture_files::of_packets(&mut random, reading, sent, |random| {
            packet(random, &settings)
        });
        tally.file(case, &data, |data| {
            // A generator of its own, so that a shorter file is tried in the same way.
            let mut random = Random::of_case(!seed, case);
            let expected = if words::bad_settings(&settings) {
                Expected::Refused(2)
            } else {
                Expected::polar(read(&settings, data))
            };
            for &savefile in savefiles {
                let call = |data: &[u8], numbers: &mut [f32], kinds: &mut [u8]| {
                    ours::read_ouster(&settings, savefile, data, numbers, kinds)
                };
                let call = [Call::Floats(name_of(savefile), &call)];
                hold_all(&call, &mut canaries, data, &expected, &mut random)?;
            }
            Ok(())
        });
    }
    tally.beside("the lengths around refusal 1", long_data(savefiles));
    tally
}

fn name_of(savefile: Option<bool>) -> &'static str {
    match savefile {
        None => "lidar_read_ouster",
        Some(false) => "lidar_read_ouster_as, false",
        Some(true) => "lidar_read_ouster_as, true",
    }
}

/// Most are good, with few columns, so that packets are short. Those that are refused lie close to
/// good ones or far out.
fn settings(random: &mut Random) -> OusterSettings {
    let mut beams = random.pick(&[16, 16, 16, 32, 32, 64, 128]);
    let mut columns = match random.below(20) {
        0 => 16,
        1 => random.within(1, 64),
        2 => random.pick(&[63, 64]),
        _ => random.within(1, 3),
    };
    let mut elevations = beams;
    match random.below(40) {
        0 => beams = random.pick(&[0, 1, 15, 17, 31, 33, 48, 63, 65, 127, 129, 256, usize::MAX]),
        1 => columns = random.pick(&[0, 65, 66, 1 << 32, usize::MAX]),
        2 => elevations -= random.within(1, elevations),
        3 => elevations += random.within(1, 70),
        // Lent for one setting and used with another.
        4 => beams = random.pick(&BEAMS),
        _ => {}
    }
    let beam_altitudes = (0..elevations).map(|_| match random.below(20) {
        0 => f32::from_bits(random.f32_bits()),
        _ => random.below(90_000) as f32 / 1000.0 - 45.0,
    });
    OusterSettings {
        columns_per_packet: columns,
        pixels_per_column: beams,
        beam_altitudes: beam_altitudes.collect(),
        lidar_port: match random.below(20) {
            0 => 0,
            1 => random.next() as u16,
            _ => 7502,
        },
    }
}

pub fn packet(random: &mut Random, settings: &OusterSettings) -> Vec<u8> {
    // The settings that are refused are met with packets of one column.
    let columns = match settings.columns_per_packet {
        columns @ 1..=64 => columns,
        _ => 1,
    };
    let beams = settings.pixels_per_column.min(256);
    let column = 16 + 12 * beams + 4;
    let whole = columns * column;
    let length = match random.below(20) {
        0 => whole - 1,
        1 => whole + 1,
        2 => random.below(whole + 100),
        _ => whole,
    };
    let mut bytes = Vec::with_capacity(length.max(whole) + 7);
    while bytes.len() < length.max(whole) {
        bytes.extend(random.next().to_le_bytes());
    }
    let zeros = random.pick(&[0, 1, 10, 50, 95, 100]);
    for column in bytes[..whole].chunks_mut(column) {
        let ticks = match random.below(10) {
            0 => random.pick(&[
                0,
                1,
                90_111,
                90_112,
                90_113,
                1 << 24,
                (1 << 24) + 1,
                u32::MAX,
            ]),
            1..=3 => random.next() as u32,
            _ => random.below(90_112) as u32,
        };
        column[12..16].copy_from_slice(&ticks.to_le_bytes());
        for channel in column[16..16 + 12 * beams].chunks_mut(12) {
            // The twelve bits above the range are free.
            let range = if random.below(100) < zeros {
                Some(0)
            } else if random.below(32) == 0 {
                Some(random.pick(&[1, 2, 1 << 19, 0xF_FFFF]))
            } else {
                None
            };
            if let Some(range) = range {
                let word = (random.next() as u32) << 20 | range;
                channel[..4].copy_from_slice(&word.to_le_bytes());
            }
        }
    }
    bytes.truncate(length);
    bytes
}

/// The call has written the settings, and nothing after the elevations.
fn made_ready(mut got: OusterSettings, want: OusterSettings) -> Result<(), String> {
    if got.beam_altitudes.pop() != Some(1111.0) {
        return Err("what lies after the elevations changed".to_string());
    }
    let bits = |settings: &OusterSettings| -> Vec<u32> {
        settings
            .beam_altitudes
            .iter()
            .map(|x| x.to_bits())
            .collect()
    };
    if got != want || bits(&got) != bits(&want) {
        return Err(format!("{got:?} and not {want:?}"));
    }
    Ok(())
}

/// Refusal 1 comes before refusal 2. The original has no such limit.
fn long_data(savefiles: &[Option<bool>]) -> Result<(), String> {
    let data = untouched(TOO_LONG + 1)?;
    let good = ours::os1_64();
    let bad = OusterSettings {
        pixels_per_column: 48,
        ..good.clone()
    };
    let room = Room {
        numbers: 5,
        kinds: 2,
    };
    for (length, settings, number) in [
        (TOO_LONG - 1, &good, 4),
        (TOO_LONG - 1, &bad, 2),
        (TOO_LONG, &good, 1),
        (TOO_LONG, &bad, 1),
        (TOO_LONG + 1, &good, 1),
    ] {
        for &savefile in savefiles {
            let call = |data: &[u8], numbers: &mut [f32], kinds: &mut [u8]| {
                ours::read_ouster(settings, savefile, data, numbers, kinds)
            };
            Call::Floats(name_of(savefile), &call)
                .hold_to(
                    &mut Canaries::new(),
                    &data[..length],
                    room,
                    refusal(number),
                    &[],
                    &[],
                )
                .map_err(|what| format!("{length} bytes: {what}"))?;
        }
    }
    Ok(())
}
