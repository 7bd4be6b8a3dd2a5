//! Placing, which the original does not have: held to 01's words, in whole numbers of 128 bits.

use crate::ours::{self, Belt, Placed, NO_DISTANCE};
use crate::random::Random;
use crate::stored::StoredReading;
use crate::tally::Tally;

/// Beyond this many micrometres either way a placing is refused.
const WINDOW: i128 = 16_000_000;

/// Whole counts are less than this apart.
const APART: i128 = 1 << 31;

pub fn compare(seed: u64, placings: u64) -> Tally {
    let mut tally = Tally::new("placing", seed).of("placings");
    // The belt's whole count, which walks on from case to case, forwards and back over many wraps.
    let mut whole_count: i128 = Random::of_case(seed, 0).next() as i64 as i128;
    for case in 0..placings {
        let mut random = Random::of_case(seed, case);
        let x = x(&mut random);
        let pulse_length = pulse_length(&mut random);
        let moved = moved(&mut random, x.micrometres(), pulse_length);
        let whole_datum = whole_count;
        whole_count += moved;
        let belt = Belt {
            count: low_32(whole_count),
            datum: low_32(whole_datum),
            pulse_length,
        };
        tally.file(case, &[], |_| {
            if ours::pulses(belt.count, belt.datum) as i128 != moved {
                return Err(format!("pulses of {belt:?} are not {moved}"));
            }
            let exact = x.micrometres() + moved * pulse_length as i128;
            hold(x.place(belt), pulse_length, exact)
                .map_err(|what| format!("{x:?}, {belt:?}: {what}"))?;
            // The belt's count itself does not matter.
            let by = random.next() as u32;
            let alike = Belt {
                count: belt.count.wrapping_add(by),
                datum: belt.datum.wrapping_add(by),
                pulse_length,
            };
            if x.place(alike) != x.place(belt) {
                return Err(format!("{x:?}, {belt:?} and {alike:?} are placed apart"));
            }
            Ok(())
        });
    }
    tally
}

/// Holds a placing to the exact micrometres.
pub fn hold((number, bits): Placed, pulse_length: u32, exact: i128) -> Result<(), String> {
    let expected = if !(1..=1000).contains(&pulse_length) {
        12
    } else if exact.abs() > WINDOW {
        13
    } else {
        0
    };
    if number != expected {
        return Err(format!(
            "{number} instead of {expected}, {exact} micrometres"
        ));
    }
    if number != 0 {
        return hold_refused((number, bits), expected);
    }
    // 01's own words for the number; the demand, which bounds it, is held beside it.
    let by_words = (exact as f32 / 1_000_000.0).to_bits();
    if within_half(bits, exact) && bits == by_words {
        Ok(())
    } else {
        Err(format!(
            "{} m for {exact} micrometres",
            f32::from_bits(bits)
        ))
    }
}

/// Holds a placing to the point's own micrometres and the belt's pulses, as 01 reads them from the counts.
pub fn hold_moved(placed: Placed, micrometres: i128, belt: Belt) -> Result<(), String> {
    let pulses = belt.count.wrapping_sub(belt.datum) as i32 as i128;
    hold(
        placed,
        belt.pulse_length,
        micrometres + pulses * belt.pulse_length as i128,
    )
}

/// Holds a placing by file and rank to the point's stored reading.
pub fn hold_reading(
    placed: Placed,
    reading: Result<StoredReading, u8>,
    belt: Belt,
) -> Result<(), String> {
    match reading.map(StoredReading::micrometres) {
        Ok(Some(micrometres)) => hold_moved(placed, micrometres, belt),
        Ok(None) => hold_refused(placed, 11),
        Err(number) => hold_refused(placed, number),
    }
}

pub fn hold_refused((number, bits): Placed, expected: u8) -> Result<(), String> {
    if number != expected {
        return Err(format!("placed with {number} instead of {expected}"));
    }
    match bits {
        NO_DISTANCE => Ok(()),
        _ => Err("a refusal wrote the distance".to_string()),
    }
}

/// Any belt, often one that has hardly moved.
pub fn belt(random: &mut Random) -> Belt {
    let datum = random.next() as u32;
    let moved = match random.below(3) {
        0 => random.next() as u32,
        _ => (random.below(40_001) as i32 - 20_000) as u32,
    };
    Belt {
        count: datum.wrapping_add(moved),
        datum,
        pulse_length: pulse_length(random),
    }
}

/// Whether the f32 is finite and at most half a micrometre away, in whole numbers.
fn within_half(bits: u32, exact: i128) -> bool {
    let exponent = bits >> 23 & 0xFF;
    let fraction = (bits & 0x7F_FFFF) as i128;
    // The value is significand * 2^-down.
    let (significand, down) = match exponent {
        0xFF => return false,
        0 => (fraction, 149),
        _ => (fraction + 0x80_0000, 150 - exponent as i32),
    };
    if significand == 0 {
        return exact == 0;
    }
    // From 2^-59 m down, a distance is nearer to 0 than to a micrometre, and none is exact.
    if down > 82 {
        return false;
    }
    let significand = if bits >> 31 == 1 {
        -significand
    } else {
        significand
    };
    let (steps, scale) = match down {
        ..=0 => (significand << -down, 1),
        _ => (significand, 1i128 << down),
    };
    (2_000_000 * steps - 2 * scale * exact).abs() <= scale
}

/// A stored x.
#[derive(Clone, Copy, Debug)]
enum X {
    Millimetres(i32),
    TenMillimetres(i16),
}

impl X {
    fn micrometres(self) -> i128 {
        match self {
            X::Millimetres(x) => x as i128 * 1_000,
            X::TenMillimetres(x) => x as i128 * 10_000,
        }
    }

    fn place(self, belt: Belt) -> Placed {
        match self {
            X::Millimetres(x) => ours::place_millimetres(x, belt),
            X::TenMillimetres(x) => ours::place_ten_millimetres(x, belt),
        }
    }
}

fn x(random: &mut Random) -> X {
    let any = random.next();
    match random.below(8) {
        0 => X::Millimetres(any as i32),
        1 => X::TenMillimetres(any as i16),
        2 => X::Millimetres(random.pick(&[
            i32::MIN,
            i32::MAX,
            -16_001,
            -16_000,
            -15_999,
            0,
            15_999,
            16_000,
            16_001,
        ])),
        3 => X::TenMillimetres(random.pick(&[
            i16::MIN,
            i16::MAX,
            -1601,
            -1600,
            -1599,
            0,
            1599,
            1600,
            1601,
        ])),
        4 => X::TenMillimetres((any % 3_201) as i16 - 1_600),
        _ => X::Millimetres((any % 32_001) as i32 - 16_000),
    }
}

fn pulse_length(random: &mut Random) -> u32 {
    match random.below(12) {
        0 => random.pick(&[0, 1, 1000, 1001]),
        1 => random.next() as u32,
        _ => random.within(1, 1000) as u32,
    }
}

/// How far the belt moved: often to where the point stands near an edge of the window.
fn moved(random: &mut Random, from: i128, pulse_length: u32) -> i128 {
    let any = random.next();
    let pulses = match random.below(6) {
        0 => any as i32 as i128,
        1 => random.pick(&[0, 1, -1, APART - 1, 1 - APART, APART - 2]),
        2 | 3 => {
            let edge = random.pick(&[-WINDOW, WINDOW]);
            (edge - from) / pulse_length.max(1) as i128 + random.below(3) as i128 - 1
        }
        _ => {
            let to = any as i128 % (2 * WINDOW + 1) - WINDOW;
            (to - from) / pulse_length.max(1) as i128
        }
    };
    pulses.clamp(1 - APART, APART - 1)
}

/// The remainder by 2^32, below 0 too.
fn low_32(whole: i128) -> u32 {
    whole.rem_euclid(1 << 32) as u32
}
