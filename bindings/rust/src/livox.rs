//! Livox files of both forms.

use crate::point::{collect, told};
use crate::{ffi, Error, Point, Refusal};

/// The two forms of a Livox file.
#[derive(Clone, Copy, Debug, PartialEq, Eq, Hash)]
pub enum Form {
    /// `.lvx`, which opens with `livox_tech`.
    Lvx,
    /// `.lvx2`, which opens with the number 0x20200903.
    Lvx2,
}

impl Form {
    pub(crate) fn is_lvx2(self) -> bool {
        self == Form::Lvx2
    }
}

/// What a Livox file tells.
#[derive(Clone, Debug, PartialEq)]
pub struct LivoxPoints {
    /// Integer and float points are Cartesian. Spherical ones are polar, with the angle from the zenith
    /// in the place of the elevation.
    pub points: Vec<Point>,
    /// The frames entered.
    pub frames: usize,
}

/// What was laid into lent slices.
#[derive(Clone, Copy, Debug, PartialEq, Eq)]
pub struct LivoxCounts {
    /// The points, of three numbers and one kind each.
    pub points: usize,
    /// The frames entered.
    pub frames: usize,
}

/// Reads an LVX file. Float records, NaN too, are those of the file bit for bit.
pub fn read_lvx(data: &[u8]) -> Result<LivoxPoints, Error> {
    let (points, frames) = collect(|numbers, kinds| ffi::read_lvx(data, numbers, kinds))?;
    Ok(LivoxPoints { points, frames })
}

/// Reads an LVX2 file.
///
/// ```
/// use lidar::Point;
///
/// let file = std::fs::read("../../samples/one_point.lvx2")?;
/// let read = lidar::read_lvx2(&file)?;
/// assert_eq!(read.frames, 1);
/// assert_eq!(read.points, [Point::Cartesian { x: 1.75, y: -1.0, z: 0.0 }]);
/// # Ok::<(), Box<dyn std::error::Error>>(())
/// ```
pub fn read_lvx2(data: &[u8]) -> Result<LivoxPoints, Error> {
    let (points, frames) = collect(|numbers, kinds| ffi::read_lvx2(data, numbers, kinds))?;
    Ok(LivoxPoints { points, frames })
}

/// [`read_lvx`] into lent slices, three numbers and one kind a point. What lies beyond the points stays.
pub fn read_lvx_into(
    data: &[u8],
    numbers: &mut [f32],
    kinds: &mut [u8],
) -> Result<LivoxCounts, Refusal> {
    counts(ffi::read_lvx(data, numbers, kinds))
}

/// [`read_lvx2`] into lent slices, three numbers and one kind a point. What lies beyond the points stays.
///
/// Frames may overlap, so that a small file can tell very many points. Without room the number is told,
/// and nothing is written:
///
/// ```
/// let file = std::fs::read("../../samples/no_room.lvx2")?;
/// let needed = match lidar::read_lvx2_into(&file, &mut [], &mut []) {
///     Err(lidar::Refusal::NoRoom(needed)) => needed,
///     other => panic!("{other:?}"),
/// };
/// assert_eq!(needed, 4097);
/// # Ok::<(), std::io::Error>(())
/// ```
pub fn read_lvx2_into(
    data: &[u8],
    numbers: &mut [f32],
    kinds: &mut [u8],
) -> Result<LivoxCounts, Refusal> {
    counts(ffi::read_lvx2(data, numbers, kinds))
}

fn counts(answer: ffi::Answer) -> Result<LivoxCounts, Refusal> {
    let answer = told(answer)?;
    Ok(LivoxCounts {
        points: answer.points,
        frames: answer.frames,
    })
}

/// A point as a Livox file stores it, in the file's own unit.
#[derive(Clone, Copy, Debug, PartialEq)]
pub enum StoredReading {
    /// In millimetres: LVX and LVX2 type 1.
    #[allow(missing_docs)]
    Millimetres { x: i32, y: i32, z: i32 },
    /// In counts of ten millimetres: LVX2 type 0.
    #[allow(missing_docs)]
    TenMillimetres { x: i16, y: i16, z: i16 },
    /// Depth in millimetres, both angles in hundredths of a degree: type 2.
    #[allow(missing_docs)]
    Spherical {
        depth: u32,
        zenith: u16,
        azimuth: u16,
    },
    /// In metres, each with the file's own bits: LVX type 3.
    #[allow(missing_docs)]
    Float { x: f32, y: f32, z: f32 },
}

/// What a Livox file stores of the point of a rank, counted from 0 among all its points.
///
/// ```
/// use lidar::{Form, StoredReading};
///
/// let file = std::fs::read("../../samples/one_point.lvx2")?;
/// assert_eq!(
///     lidar::stored_reading(Form::Lvx2, &file, 0)?,
///     StoredReading::Millimetres { x: 1750, y: -1000, z: 0 }
/// );
/// assert_eq!(lidar::stored_reading(Form::Lvx2, &file, 1), Err(lidar::Refusal::NotPlaceable));
/// # Ok::<(), Box<dyn std::error::Error>>(())
/// ```
pub fn stored_reading(form: Form, data: &[u8], rank: usize) -> Result<StoredReading, Refusal> {
    let (number, stored, [first, second, third]) = ffi::stored_reading(data, form.is_lvx2(), rank);
    Refusal::told(number, 0)?;
    // Each number fits the type that its file has it in, so that no cast loses anything.
    Ok(match stored {
        1 => StoredReading::Millimetres {
            x: first as i32,
            y: second as i32,
            z: third as i32,
        },
        2 => StoredReading::TenMillimetres {
            x: first as i16,
            y: second as i16,
            z: third as i16,
        },
        3 => StoredReading::Spherical {
            depth: first as u32,
            zenith: second as u16,
            azimuth: third as u16,
        },
        4 => StoredReading::Float {
            x: f32::from_bits(first as u32),
            y: f32::from_bits(second as u32),
            z: f32::from_bits(third as u32),
        },
        _ => panic!("liblidar.a told the stored form {stored}, which this crate does not know"),
    })
}
