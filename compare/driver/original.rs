//! The original's readers. They take a path, so the data goes through a file.

use crate::livox_files::Form;
use crate::ours::OusterSettings;
use crate::stored::StoredReading;
use std::fs;
use std::path::{Path, PathBuf};
use threecrate_core::{Error, Point3f, PointCloud, Result};
use threecrate_io::lidar::{
    pcap_extract_udp_payloads, LivoxLvx2Reader, LivoxLvxReader, OusterPcapReader,
    VelodyneKittiBinReader, VelodynePcapReader,
};
use threecrate_io::stored::{self, StoredPoint};
use threecrate_io::{frames, places};

/// The original refuses with a text. A part of it tells which of our numbers it stands for.
const REFUSALS: [(&str, u8); 12] = [
    ("PCAP file is too small", 3),
    ("LVX file is too small", 3),
    ("LVX2 file is too small", 3),
    ("Not a valid PCAP file", 4),
    ("Not a valid LVX file", 4),
    ("Not a valid LVX2 file", 4),
    ("Unexpected LVX magic code", 5),
    ("LVX private header truncated", 6),
    ("device info section", 7),
    ("is not a multiple of 16 bytes", 8),
    ("No Velodyne data packets found", 9),
    ("No Ouster lidar packets found", 9),
];

/// Three patterns a point, or the number of the refusal.
pub type Patterns = std::result::Result<Vec<u32>, u8>;

/// A Livox file as the original reads it.
pub struct LivoxFile {
    /// Three patterns a point.
    pub bits: Vec<u32>,
    /// Each point, as the file stores it.
    points: Vec<StoredPoint>,
    pub frames: usize,
}

impl LivoxFile {
    pub fn kinds(&self) -> Vec<u8> {
        let kind = |point| StoredReading::of(point).point().1;
        self.points.iter().map(kind).collect()
    }

    /// The stored reading of a rank, or refusal 11.
    pub fn stored_reading(&self, rank: usize) -> std::result::Result<StoredReading, u8> {
        let reading = StoredReading::of(self.points.get(rank).ok_or(11)?);
        // It is the reading of this point.
        assert_eq!(reading.point().0, self.bits[3 * rank..3 * rank + 3]);
        Ok(reading)
    }
}

/// A payload, and where it starts in the data.
pub struct Payload {
    pub start: usize,
    pub bytes: Vec<u8>,
}

pub struct Original {
    file: PathBuf,
}

impl Original {
    /// `directory` is for this run alone. `compare/run` makes and removes it.
    pub fn new(directory: &Path) -> Self {
        Original {
            file: directory.join("data"),
        }
    }

    /// The patterns of the numbers that the original reads, or the number of its refusal.
    pub fn read_kitti(&self, data: &[u8]) -> Patterns {
        self.write(data);
        or_number(VelodyneKittiBinReader::read(&self.file)).map(patterns)
    }

    pub fn read_velodyne(&self, data: &[u8]) -> Patterns {
        self.write(data);
        let read = VelodynePcapReader::read(&self.file);
        places::take();
        or_number(read).map(patterns)
    }

    pub fn read_ouster(&self, settings: &OusterSettings, data: &[u8]) -> Patterns {
        self.write(data);
        let read = ouster_reader(settings).read(&self.file);
        places::take();
        or_number(read).map(patterns)
    }

    /// The file, or the number of the refusal.
    pub fn read_livox(&self, form: Form, data: &[u8]) -> std::result::Result<LivoxFile, u8> {
        self.write(data);
        let read = match form {
            Form::Lvx => LivoxLvxReader::new().read(&self.file),
            Form::Lvx2 => LivoxLvx2Reader::new().read(&self.file),
        };
        let (points, frames) = (stored::take(), frames::take());
        let bits = or_number(read).map(patterns)?;
        assert_eq!(bits.len(), 3 * points.len());
        Ok(LivoxFile {
            bits,
            points,
            frames,
        })
    }

    /// The payloads on each port, each with its place, or the number of the refusal.
    pub fn payloads(
        &self,
        data: &[u8],
        ports: &[u16],
    ) -> Vec<std::result::Result<Vec<Payload>, u8>> {
        self.write(data);
        let of_port = |&port| {
            let copies = or_number(pcap_extract_udp_payloads(&self.file, port))?;
            let starts = places::take();
            assert_eq!(starts.len(), copies.len());
            Ok(std::iter::zip(starts, copies)
                .map(|(start, bytes)| Payload { start, bytes })
                .collect())
        };
        ports.iter().map(of_port).collect()
    }

    fn write(&self, data: &[u8]) {
        fs::write(&self.file, data).expect("the file for the original could not be written");
    }
}

/// The points of payloads that were found without the original.
pub fn read_velodyne_payloads(payloads: &[Vec<u8>]) -> Patterns {
    or_number(VelodynePcapReader::read_payloads(payloads)).map(patterns)
}

pub fn read_ouster_payloads(settings: &OusterSettings, payloads: &[Vec<u8>]) -> Patterns {
    or_number(ouster_reader(settings).read_payloads(payloads)).map(patterns)
}

/// The points of one packet.
pub fn decode_velodyne_packet(payload: &[u8]) -> Vec<u32> {
    let mut points = Vec::new();
    threecrate_io::lidar::decode_velodyne_packet(payload, &mut points);
    patterns(PointCloud::from_points(points))
}

/// The model's place among those of the original.
pub fn detect_velodyne_model(factory_byte: u8) -> u8 {
    threecrate_io::lidar::detect_velodyne_model(factory_byte) as u8
}

pub fn os1_64() -> OusterSettings {
    settings_of(OusterPcapReader::os1_64())
}

pub fn os_128() -> OusterSettings {
    settings_of(OusterPcapReader::os_128())
}

fn ouster_reader(settings: &OusterSettings) -> OusterPcapReader {
    OusterPcapReader {
        columns_per_packet: settings.columns_per_packet,
        pixels_per_column: settings.pixels_per_column,
        beam_altitudes: settings.beam_altitudes.clone(),
        lidar_port: settings.lidar_port,
    }
}

fn settings_of(reader: OusterPcapReader) -> OusterSettings {
    OusterSettings {
        columns_per_packet: reader.columns_per_packet,
        pixels_per_column: reader.pixels_per_column,
        lidar_port: reader.lidar_port,
        beam_altitudes: reader.beam_altitudes,
    }
}

fn patterns(cloud: PointCloud<Point3f>) -> Vec<u32> {
    let numbers = cloud.points.iter().flat_map(|p| [p.x, p.y, p.z]);
    numbers.map(f32::to_bits).collect()
}

fn or_number<T>(read: Result<T>) -> std::result::Result<T, u8> {
    match read {
        Ok(value) => Ok(value),
        Err(Error::InvalidData(text)) => {
            let refusal = REFUSALS.iter().find(|(part, _)| text.contains(part));
            let (_, number) = refusal.unwrap_or_else(|| panic!("no number stands for: {text}"));
            Err(*number)
        }
        // No verdict on the data, so nothing can be compared.
        Err(Error::Io(error)) => panic!("the original could not read its file: {error}"),
    }
}
