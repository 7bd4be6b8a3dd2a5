//! Ouster captures.

use crate::capture::Reading;
use crate::ffi::{self, Answer, Sensor};
use crate::point::{collect, told};
use crate::{Error, Point, Refusal};

/// The settings of an Ouster sensor, with the names of lidar.rs's `OusterPcapReader`.
#[derive(Clone, Debug, PartialEq)]
pub struct OusterSettings {
    /// 1 to 64.
    pub columns_per_packet: usize,
    /// The beams: 16, 32, 64 or 128.
    pub pixels_per_column: usize,
    /// The elevation of each beam in degrees, at least one for each.
    pub beam_altitudes: Vec<f32>,
    /// The packets' destination port; 0 asks for every one.
    pub lidar_port: u16,
}

impl OusterSettings {
    /// An OS1-64: 16 columns, port 7502.
    pub fn os1_64() -> OusterSettings {
        let (sensor, beam_altitudes) = ffi::os1_64();
        OusterSettings::of(sensor, &beam_altitudes)
    }

    /// A sensor of 128 beams, evenly spaced from 22.5 to −22.5 degrees: 16 columns, port 7502.
    pub fn os_128() -> OusterSettings {
        let (sensor, beam_altitudes) = ffi::os_128();
        OusterSettings::of(sensor, &beam_altitudes)
    }

    fn of(sensor: Sensor, beam_altitudes: &[f32]) -> OusterSettings {
        OusterSettings {
            columns_per_packet: sensor.columns_per_packet,
            pixels_per_column: sensor.pixels_per_column,
            beam_altitudes: beam_altitudes.to_vec(),
            lidar_port: sensor.lidar_port,
        }
    }

    fn read(
        &self,
        data: &[u8],
        reading: Option<Reading>,
        numbers: &mut [f32],
        kinds: &mut [u8],
    ) -> Answer {
        let sensor = Sensor {
            columns_per_packet: self.columns_per_packet,
            pixels_per_column: self.pixels_per_column,
            lidar_port: self.lidar_port,
        };
        let savefile = reading.map(Reading::is_savefile);
        ffi::read_ouster(data, savefile, sensor, &self.beam_altitudes, numbers, kinds)
    }
}

/// An OS1-64, as in lidar.rs.
impl Default for OusterSettings {
    fn default() -> OusterSettings {
        OusterSettings::os1_64()
    }
}

/// Reads a capture of Ouster packets of the legacy profile, in the usual reading. Every point is polar:
/// range in metres, elevation in degrees, and azimuth in **radians**.
///
/// A capture of ordinary tools wants [`Reading::Savefile`]: see [`read_ouster_as`].
pub fn read_ouster(data: &[u8], settings: &OusterSettings) -> Result<Vec<Point>, Error> {
    Ok(collect(|numbers, kinds| settings.read(data, None, numbers, kinds))?.0)
}

/// [`read_ouster`] in a reading that is named.
///
/// ```
/// use lidar::{OusterSettings, Reading};
///
/// let file = std::fs::read("../../samples/hall_ouster.pcap")?;
/// let points = lidar::read_ouster_as(&file, Reading::Savefile, &OusterSettings::os1_64())?;
/// assert_eq!(points.len(), 2 * 16 * 64);
/// # Ok::<(), Box<dyn std::error::Error>>(())
/// ```
pub fn read_ouster_as(
    data: &[u8],
    reading: Reading,
    settings: &OusterSettings,
) -> Result<Vec<Point>, Error> {
    Ok(collect(|numbers, kinds| settings.read(data, Some(reading), numbers, kinds))?.0)
}

/// [`read_ouster`] into lent slices, three numbers and one kind a point. Tells how many points there are;
/// what lies beyond them stays.
pub fn read_ouster_into(
    data: &[u8],
    settings: &OusterSettings,
    numbers: &mut [f32],
    kinds: &mut [u8],
) -> Result<usize, Refusal> {
    Ok(told(settings.read(data, None, numbers, kinds))?.points)
}

/// [`read_ouster_into`] in a reading that is named.
pub fn read_ouster_into_as(
    data: &[u8],
    reading: Reading,
    settings: &OusterSettings,
    numbers: &mut [f32],
    kinds: &mut [u8],
) -> Result<usize, Refusal> {
    Ok(told(settings.read(data, Some(reading), numbers, kinds))?.points)
}
