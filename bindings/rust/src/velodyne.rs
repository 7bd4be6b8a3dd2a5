//! Velodyne captures and packets.

use crate::capture::Reading;
use crate::point::{collect, told};
use crate::{ffi, Error, Point, Refusal};

/// Reads a capture of Velodyne packets, which are the payloads on port 2368, in the usual reading. Every
/// point is polar: range in metres, elevation and azimuth in degrees.
///
/// A capture of ordinary tools wants [`Reading::Savefile`]: see [`read_velodyne_as`].
pub fn read_velodyne(data: &[u8]) -> Result<Vec<Point>, Error> {
    Ok(collect(|numbers, kinds| ffi::read_velodyne(data, None, numbers, kinds))?.0)
}

/// [`read_velodyne`] in a reading that is named.
///
/// ```
/// use lidar::{Point, Reading};
///
/// let file = std::fs::read("../../samples/hall_velodyne.pcap")?;
/// let points = lidar::read_velodyne_as(&file, Reading::Rust)?;
/// assert_eq!(points.len(), 8 * 384);
/// assert_eq!(points[0], Point::Polar { range: 4.142, elevation: -15.0, azimuth: 0.0 });
/// # Ok::<(), Box<dyn std::error::Error>>(())
/// ```
pub fn read_velodyne_as(data: &[u8], reading: Reading) -> Result<Vec<Point>, Error> {
    let savefile = Some(reading.is_savefile());
    Ok(collect(|numbers, kinds| ffi::read_velodyne(data, savefile, numbers, kinds))?.0)
}

/// [`read_velodyne`] into lent slices, three numbers and one kind a point. Tells how many points there
/// are; what lies beyond them stays.
pub fn read_velodyne_into(
    data: &[u8],
    numbers: &mut [f32],
    kinds: &mut [u8],
) -> Result<usize, Refusal> {
    Ok(told(ffi::read_velodyne(data, None, numbers, kinds))?.points)
}

/// [`read_velodyne_into`] in a reading that is named.
pub fn read_velodyne_into_as(
    data: &[u8],
    reading: Reading,
    numbers: &mut [f32],
    kinds: &mut [u8],
) -> Result<usize, Refusal> {
    let savefile = Some(reading.is_savefile());
    Ok(told(ffi::read_velodyne(data, savefile, numbers, kinds))?.points)
}

/// Reads one Velodyne packet. Below 1,206 bytes it has no point, and it has at most 384.
pub fn decode_velodyne_packet(payload: &[u8]) -> Result<Vec<Point>, Error> {
    Ok(collect(|numbers, kinds| ffi::decode_velodyne_packet(payload, numbers, kinds))?.0)
}

/// [`decode_velodyne_packet`] into lent slices.
///
/// ```
/// let capture = std::fs::read("../../samples/hall_velodyne.pcap")?;
/// let (mut numbers, mut kinds) = ([0.0; 3 * 384], [0; 384]);
/// let mut all = 0;
/// for packet in lidar::payloads_as(&capture, lidar::Reading::Rust, 2368)? {
///     all += lidar::decode_velodyne_packet_into(packet.bytes, &mut numbers, &mut kinds)?;
/// }
/// assert_eq!(all, 8 * 384);
/// # Ok::<(), Box<dyn std::error::Error>>(())
/// ```
pub fn decode_velodyne_packet_into(
    payload: &[u8],
    numbers: &mut [f32],
    kinds: &mut [u8],
) -> Result<usize, Refusal> {
    Ok(told(ffi::decode_velodyne_packet(payload, numbers, kinds))?.points)
}

/// The model that a packet's byte at 1,205 names.
#[derive(Clone, Copy, Debug, PartialEq, Eq, Hash)]
pub enum VelodyneModel {
    /// 0x22.
    VLP16,
    /// 0x28.
    HDL32E,
    /// 0x21 and 0x35.
    VLP32C,
    /// Any other. Its elevations are those of the VLP-32C.
    Unknown,
}

/// The model of a packet, from its byte at 1,205.
///
/// ```
/// assert_eq!(lidar::detect_velodyne_model(0x22), lidar::VelodyneModel::VLP16);
/// ```
pub fn detect_velodyne_model(factory_byte: u8) -> VelodyneModel {
    match ffi::detect_velodyne_model(factory_byte) {
        0 => VelodyneModel::VLP16,
        1 => VelodyneModel::HDL32E,
        2 => VelodyneModel::VLP32C,
        _ => VelodyneModel::Unknown,
    }
}
