//! Where a Livox point stands on the belt now.

use crate::ffi::{self, Belt};
use crate::{Form, Refusal, StoredReading};

/// The belt encoder's count now. It wraps at 2^32.
#[derive(Clone, Copy, Debug, PartialEq, Eq, Hash)]
pub struct BeltCount(pub u32);

/// The belt encoder's count when a point was seen. It wraps at 2^32.
#[derive(Clone, Copy, Debug, PartialEq, Eq, Hash)]
pub struct BeltDatum(pub u32);

/// How far the belt moves in a pulse: 1 to 1,000 micrometres.
#[derive(Clone, Copy, Debug, PartialEq, Eq, Hash)]
pub struct PulseLength(pub u32);

/// Pulses of the belt's encoder, below 0 where the belt ran back.
#[derive(Clone, Copy, Debug, PartialEq, Eq, PartialOrd, Ord, Hash)]
pub struct BeltPulses(pub i32);

/// Where a point stands along the belt, in metres, from what its file stores of it.
///
/// The exact distance is the point's x plus (count − datum) × pulse length. What is told is within half
/// a micrometre of it, however often the count has wrapped, as long as the belt moved by less than 2^31
/// pulses either way. Beyond 16 m either way it is [`Refusal::OutsideWindow`]. A spherical or float
/// reading is [`Refusal::NotPlaceable`].
///
/// ```
/// use lidar::{BeltCount, BeltDatum, PulseLength, StoredReading};
///
/// // The count has wrapped since the point was seen: 1,000 pulses of 250 micrometres.
/// let seen = StoredReading::Millimetres { x: 1500, y: 0, z: 0 };
/// let now = lidar::place(seen, BeltCount(704), BeltDatum(4_294_967_000), PulseLength(250))?;
/// assert_eq!(now, 1.75);
/// # Ok::<(), lidar::Refusal>(())
/// ```
pub fn place(
    reading: StoredReading,
    count: BeltCount,
    datum: BeltDatum,
    pulse_length: PulseLength,
) -> Result<f32, Refusal> {
    let belt = belt(count, datum, pulse_length);
    let (number, metres) = match reading {
        StoredReading::Millimetres { x, .. } => ffi::place_millimetres(x, belt),
        StoredReading::TenMillimetres { x, .. } => ffi::place_ten_millimetres(x, belt),
        StoredReading::Spherical { .. } | StoredReading::Float { .. } => {
            return Err(Refusal::NotPlaceable);
        }
    };
    Refusal::told(number, 0)?;
    Ok(metres)
}

/// [`place`] of the point of a rank, counted from 0 among all points of a Livox file. The file's own
/// refusals come first; a rank that it does not have, or a point that is spherical or of floats, is
/// [`Refusal::NotPlaceable`].
///
/// ```
/// use lidar::{BeltCount, BeltDatum, Form, PulseLength};
///
/// let file = std::fs::read("../../samples/one_point.lvx2")?;
/// let belt = (BeltCount(1000), BeltDatum(0), PulseLength(250));
/// assert_eq!(lidar::place_in_file(Form::Lvx2, &file, 0, belt.0, belt.1, belt.2)?, 2.0);
/// # Ok::<(), Box<dyn std::error::Error>>(())
/// ```
pub fn place_in_file(
    form: Form,
    data: &[u8],
    rank: usize,
    count: BeltCount,
    datum: BeltDatum,
    pulse_length: PulseLength,
) -> Result<f32, Refusal> {
    let belt = belt(count, datum, pulse_length);
    let (number, metres) = ffi::place_in_file(data, form.is_lvx2(), rank, belt);
    Refusal::told(number, 0)?;
    Ok(metres)
}

fn belt(count: BeltCount, datum: BeltDatum, pulse_length: PulseLength) -> Belt {
    Belt {
        count: count.0,
        datum: datum.0,
        pulse_length: pulse_length.0,
    }
}

/// The pulses since the datum: count − datum, wrapping at 2^32, read as −2^31 to 2^31 − 1.
pub fn pulses(count: BeltCount, datum: BeltDatum) -> BeltPulses {
    BeltPulses(ffi::pulses(count.0, datum.0))
}
