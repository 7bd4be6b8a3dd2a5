//! The calls on one point: its stored reading by rank, and its placing.

use crate::files::{self, Random};
use crate::timing::{medians, Way};
use std::hint::black_box;

extern "C" {
    fn lidar_stored_reading(
        data: *const u8,
        data_len: usize,
        lvx2: bool,
        rank: usize,
        stored: *mut u8,
        first: *mut i64,
        second: *mut i64,
        third: *mut i64,
    ) -> u8;

    fn lidar_place_in_file(
        data: *const u8,
        data_len: usize,
        lvx2: bool,
        rank: usize,
        count: u32,
        datum: u32,
        pulse_length: u32,
        metres: *mut f32,
    ) -> u8;

    fn lidar_place_millimetres(
        x: i32,
        count: u32,
        datum: u32,
        pulse_length: u32,
        metres: *mut f32,
    ) -> u8;

    fn lidar_place_ten_millimetres(
        x: i16,
        count: u32,
        datum: u32,
        pulse_length: u32,
        metres: *mut f32,
    ) -> u8;
}

const DATUM: u32 = 4_294_967_000;

pub fn bench(rounds: usize) {
    println!("| a call on one point | file | calls/s |");
    println!("|---|---|---:|");
    let ways: [Way<()>; 2] = [
        (
            "place, by millimetres",
            Box::new(|| place(|x, count, metres| unsafe {
                lidar_place_millimetres(x.into(), count, DATUM, 250, metres)
            })),
        ),
        (
            "place, by ten-millimetre counts",
            Box::new(|| place(|x, count, metres| unsafe {
                lidar_place_ten_millimetres(x % 1000, count, DATUM, 250, metres)
            })),
        ),
    ];
    let times = medians(rounds, &(), &ways);
    for ((name, _), time) in ways.iter().zip(&times) {
        println!("| {name} | none | {} |", calls(PLACINGS, *time));
    }
    // A rank is found from the start of the file, package by package.
    for size in [1_000_000, 64_000_000] {
        by_rank(rounds, size);
    }
}

const PLACINGS: usize = 1_000_000;

fn place(call: impl Fn(i16, u32, &mut f32) -> u8) {
    let mut metres = 0.0;
    for i in 0..PLACINGS as u32 {
        let number = call(black_box(i as i16 % 10_000), DATUM.wrapping_add(i % 5000), &mut metres);
        assert_eq!(number, 0);
        black_box(metres);
    }
}

fn by_rank(rounds: usize, size: usize) {
    // Type 1 has 14 bytes a point. x is 0, so that every point can be placed.
    let mut data = files::lvx2(&mut Random(3), size, 1, 14);
    let base = 28 + 41;
    let frame = 24 + 100 * (11 + 96 * 14);
    for start in (base..data.len()).step_by(frame) {
        for package in 0..100 {
            let body = start + 24 + package * (11 + 96 * 14) + 11;
            for point in data[body..body + 96 * 14].chunks_mut(14) {
                point[..4].fill(0);
            }
        }
    }
    let points = (data.len() - base) / frame * 9600;
    for (which, rank, times) in [("first", 0, 100_000), ("last", points - 1, 10)] {
        let ways: [Way<()>; 2] = [
            ("stored reading", Box::new(|| stored(&data, rank, times))),
            ("place in file", Box::new(|| place_in(&data, rank, times))),
        ];
        let medians = medians(rounds, &(), &ways);
        for ((name, _), time) in ways.iter().zip(&medians) {
            println!(
                "| {name}, the {which} point | LVX2, {} MB | {} |",
                size / 1_000_000,
                calls(times, *time)
            );
        }
    }
}

fn stored(data: &[u8], rank: usize, times: usize) {
    let (mut stored, mut x, mut y, mut z) = (0, 0, 0, 0);
    for _ in 0..times {
        // SAFETY: pointer and length come from one slice, the others from locals.
        let number = unsafe {
            lidar_stored_reading(
                data.as_ptr(),
                data.len(),
                true,
                black_box(rank),
                &mut stored,
                &mut x,
                &mut y,
                &mut z,
            )
        };
        assert_eq!((number, stored), (0, 1));
        black_box((x, y, z));
    }
}

fn place_in(data: &[u8], rank: usize, times: usize) {
    let mut metres = 0.0;
    for _ in 0..times {
        // SAFETY: pointer and length come from one slice, the other from a local.
        let number = unsafe {
            lidar_place_in_file(
                data.as_ptr(),
                data.len(),
                true,
                black_box(rank),
                704,
                DATUM,
                250,
                &mut metres,
            )
        };
        assert_eq!((number, metres), (0, 0.25));
    }
}

/// With three digits.
fn calls(times: usize, seconds: f64) -> String {
    let rate = times as f64 / seconds;
    match rate {
        r if r >= 1e6 => format!("{:.3} million", r / 1e6),
        r => format!("{:.0}", r),
    }
}
