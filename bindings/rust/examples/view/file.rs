//! What kind of file it is, and what it tells.

use crate::scene::Angles;
use crate::time::utc;
use lidar::{OusterSettings, Payloads, Point, Reading, Timestamp};
use std::path::Path;

/// The kinds that a user can name.
#[derive(Clone, Copy, Debug, PartialEq, Eq)]
pub enum Name {
    Kitti,
    Lvx,
    Lvx2,
    Velodyne,
    Ouster,
}

impl Name {
    pub fn of(text: &str) -> Option<Name> {
        Some(match text {
            "kitti" => Name::Kitti,
            "lvx" => Name::Lvx,
            "lvx2" => Name::Lvx2,
            "velodyne" => Name::Velodyne,
            "ouster" => Name::Ouster,
            _ => return None,
        })
    }
}

pub struct Told {
    pub points: Vec<Point>,
    pub angles: Angles,
    /// The kind of file, and how it was read.
    pub what: String,
    /// Of a capture, the first and the last time.
    pub captured: Option<String>,
}

/// Reads a file as the kind that is named, or else as the one that it seems to be.
pub fn read(data: &[u8], path: &Path, name: Option<Name>) -> Result<Told, String> {
    let captures = [Name::Velodyne, Name::Ouster];
    match name.or_else(|| opening(data)) {
        Some(Name::Velodyne) if name.is_none() => capture(data, &captures),
        Some(Name::Kitti) => kitti(data),
        Some(Name::Lvx) => livox("LVX", lidar::read_lvx(data)),
        Some(Name::Lvx2) => livox("LVX2", lidar::read_lvx2(data)),
        Some(name) => capture(data, &[name]),
        None if path
            .extension()
            .is_some_and(|end| end.eq_ignore_ascii_case("bin")) =>
        {
            kitti(data)
        }
        None => Err(
            "the opening bytes are of no format that is known. A KITTI file is named \
                     something.bin, or drawn with --as kitti"
                .into(),
        ),
    }
}

/// What the opening bytes say. For a capture that is Velodyne; its ports say more.
fn opening(data: &[u8]) -> Option<Name> {
    if data.starts_with(b"livox_tech") {
        return Some(Name::Lvx);
    }
    match data.get(..4)? {
        [0x03, 0x09, 0x20, 0x20] => Some(Name::Lvx2),
        [0xD4, 0xC3, 0xB2, 0xA1]
        | [0x4D, 0x3C, 0xB2, 0xA1]
        | [0xA1, 0xB2, 0xC3, 0xD4]
        | [0xA1, 0xB2, 0x3C, 0x4D] => Some(Name::Velodyne),
        _ => None,
    }
}

fn kitti(data: &[u8]) -> Result<Told, String> {
    let points = lidar::read_kitti(data).map_err(|error| error.to_string())?;
    Ok(Told {
        what: format!("KITTI, {}", counted(points.len(), "point")),
        points,
        angles: Angles::Livox,
        captured: None,
    })
}

fn livox(form: &str, read: Result<lidar::LivoxPoints, lidar::Error>) -> Result<Told, String> {
    let lidar::LivoxPoints { points, frames } = read.map_err(|error| error.to_string())?;
    let points_told = counted(points.len(), "point");
    Ok(Told {
        what: format!(
            "Livox {form}, {points_told} in {}",
            counted(frames, "frame")
        ),
        points,
        angles: Angles::Livox,
        captured: None,
    })
}

/// The packets of a capture: how many, and the times of the first and the last one.
struct Packets {
    count: usize,
    first: Timestamp,
    last: Timestamp,
}

impl Packets {
    /// `None` where there is no packet.
    fn of(mut payloads: Payloads<'_>) -> Option<Packets> {
        let first = payloads.next()?.time;
        let mut packets = Packets {
            count: 1,
            first,
            last: first,
        };
        for payload in payloads {
            packets.count += 1;
            packets.last = payload.time;
        }
        Some(packets)
    }
}

/// Reads a capture as that one of the kinds, and in that reading, which has most packets on its port.
fn capture(data: &[u8], kinds: &[Name]) -> Result<Told, String> {
    let mut most: Option<(Packets, Name, Reading)> = None;
    for kind in kinds {
        for reading in [Reading::Rust, Reading::Savefile] {
            let payloads = lidar::payloads_as(data, reading, port(*kind));
            let packets = Packets::of(payloads.map_err(|refusal| refusal.to_string())?);
            let fewer = most.as_ref().map_or(0, |(packets, ..)| packets.count);
            if let Some(packets) = packets.filter(|packets| packets.count > fewer) {
                most = Some((packets, *kind, reading));
            }
        }
    }
    let Some((packets, kind, reading)) = most else {
        let ports: Vec<_> = kinds.iter().map(|kind| port(*kind).to_string()).collect();
        return Err(format!(
            "the capture has no packet on port {}",
            ports.join(" or ")
        ));
    };
    let (sensor, angles, points) = match kind {
        Name::Ouster => {
            let settings = ouster_settings(data, reading);
            let beams = settings.pixels_per_column;
            let points = lidar::read_ouster_as(data, reading, &settings);
            (format!("Ouster of {beams} beams"), Angles::Ouster, points)
        }
        _ => {
            let points = lidar::read_velodyne_as(data, reading);
            ("Velodyne".to_string(), Angles::Velodyne, points)
        }
    };
    let points = points.map_err(|error| error.to_string())?;
    let by = match reading {
        Reading::Savefile => "savefile reading",
        _ => "reading of lidar.rs",
    };
    let points_told = counted(points.len(), "point");
    let packets_told = counted(packets.count, "packet");
    let mut what = format!("{sensor}, {points_told} in {packets_told}, {by}");
    if kind == Name::Velodyne && points.is_empty() && sent_by_a_sensor(data, reading) {
        what += "; its blocks start FF EE, which lidar.rs passes over";
    }
    let (first, last) = (utc(packets.first), utc(packets.last));
    Ok(Told {
        what,
        points,
        angles,
        captured: Some(format!("captured {first} to {last}")),
    })
}

/// lidar.rs takes the flag of a block the other way round from what sensors send.
fn sent_by_a_sensor(data: &[u8], reading: Reading) -> bool {
    let first = lidar::payload_as(data, reading, port(Name::Velodyne), 0);
    matches!(first, Ok(Some(packet)) if packet.bytes.starts_with(&[0xFF, 0xEE]))
}

fn port(kind: Name) -> u16 {
    match kind {
        Name::Ouster => 7502,
        _ => 2368,
    }
}

/// A packet that is long enough for 128 beams is taken for that.
fn ouster_settings(data: &[u8], reading: Reading) -> OusterSettings {
    let longer = OusterSettings::os_128();
    let needed = longer.columns_per_packet * (16 + 12 * longer.pixels_per_column + 4);
    match lidar::payload_as(data, reading, port(Name::Ouster), 0) {
        Ok(Some(packet)) if packet.bytes.len() >= needed => longer,
        _ => OusterSettings::os1_64(),
    }
}

/// `1 point`, `2 points`, with a comma at each thousand.
pub fn counted(count: usize, what: &str) -> String {
    let digits = count.to_string();
    let groups = digits.as_bytes().rchunks(3).rev();
    let text: Vec<_> = groups.map(String::from_utf8_lossy).collect();
    let text = text.join(",");
    format!("{text} {what}{}", if count == 1 { "" } else { "s" })
}

#[cfg(test)]
mod tests {
    use super::*;

    fn told(name: &str, kind: Option<Name>) -> Result<String, String> {
        let path = Path::new("../../samples").join(name);
        read(&std::fs::read(&path).unwrap(), &path, kind).map(|told| told.what)
    }

    #[test]
    fn each_sample_is_known_by_its_bytes_or_its_name() {
        for (name, what) in [
            ("case_on_belt.lvx2", "Livox LVX2, 900 points in 4 frames"),
            ("drum_beside.lvx", "Livox LVX, 369 points in 1 frame"),
            ("hall.bin", "KITTI, 551 points"),
            (
                "hall_velodyne.pcap",
                "Velodyne, 3,072 points in 8 packets, reading of lidar.rs",
            ),
            (
                "hall_ouster.pcap",
                "Ouster of 64 beams, 2,048 points in 2 packets, savefile reading",
            ),
        ] {
            assert_eq!(told(name, None).unwrap(), what);
        }
    }

    #[test]
    fn what_is_named_is_what_is_read() {
        let refused = |name, kind| told(name, Some(kind)).unwrap_err();
        assert_eq!(
            refused("hall_velodyne.pcap", Name::Ouster),
            "the capture has no packet on port 7502"
        );
        assert_eq!(
            refused("hall_ouster.pcap", Name::Velodyne),
            "the capture has no packet on port 2368"
        );
        assert!(refused("hall.bin", Name::Lvx).contains("opening bytes"));
        assert!(refused("one_point.lvx2", Name::Kitti).contains("16 bytes"));
        // A file without opening bytes of its own, and with another name.
        let unknown = read(&[0; 16], Path::new("a.dat"), None);
        assert!(unknown.err().unwrap().contains("--as kitti"));
        let named = read(&[0; 16], Path::new("a.dat"), Some(Name::Kitti));
        assert_eq!(named.ok().unwrap().what, "KITTI, 1 point");
        assert!(read(&[0; 16], Path::new("a.BIN"), None).is_ok());
        assert!(read(&[], Path::new("empty"), None).is_err());
    }

    #[test]
    fn captures_have_the_times_of_their_first_and_last_packet() {
        let captured = |file: &[u8]| read(file, Path::new("a"), None).ok().unwrap().captured;
        let mut file = std::fs::read("../../samples/hall_velodyne.pcap").unwrap();
        let day = "2023-11-14 22:13";
        assert_eq!(
            captured(&file),
            Some(format!(
                "captured {day}:20.000000 UTC to {day}:20.007000 UTC"
            ))
        );
        // Nanoseconds, of which the first packet states a second too many, and the last one's second
        // comes sooner.
        file[..4].copy_from_slice(&[0xA1, 0xB2, 0x3C, 0x4D]);
        file[28..32].copy_from_slice(&1_000_000_000u32.to_le_bytes());
        let last = 24 + 7 * 1264;
        file[last..last + 4].copy_from_slice(&1_699_999_999u32.to_le_bytes());
        assert_eq!(
            captured(&file),
            Some(format!(
                "captured {day}:20 UTC and 1000000000 nanoseconds to {day}:19.000007000 UTC"
            ))
        );
        // One packet is the first and the last.
        let one = captured(&file[..24 + 1264]).unwrap();
        assert_eq!(one.matches("1000000000 nanoseconds").count(), 2);
        // Other files have no times.
        let other = std::fs::read("../../samples/one_point.lvx2").unwrap();
        assert_eq!(captured(&other), None);
    }

    #[test]
    fn blocks_as_sensors_send_them_are_named() {
        let mut file = std::fs::read("../../samples/hall_velodyne.pcap").unwrap();
        for at in 0..file.len() - 1 {
            if file[at..at + 2] == [0xEE, 0xFF] {
                file[at..at + 2].reverse();
            }
        }
        let what = read(&file, Path::new("a"), None).ok().unwrap().what;
        assert!(
            what.starts_with("Velodyne, 0 points in 8 packets"),
            "{what}"
        );
        assert!(
            what.ends_with("FF EE, which lidar.rs passes over"),
            "{what}"
        );
    }

    #[test]
    fn beams_are_told_by_the_length_of_a_packet() {
        for (len, beams) in [(12608, 64), (24895, 64), (24896, 128), (24897, 128)] {
            let mut file = vec![0xD4, 0xC3, 0xB2, 0xA1];
            file.resize(24 + 8, 0);
            file.extend((42 + len as u32).to_le_bytes());
            file.extend([0; 4 + 12]);
            file.extend([0x08, 0x00, 0x45, 0, 0, 0, 0, 0, 0, 0, 64, 17]);
            file.resize(file.len() + 12, 0);
            file.extend(7502u16.to_be_bytes());
            file.extend((8 + len as u16).to_be_bytes());
            file.extend([0; 2]);
            file.resize(file.len() + len, 0);
            let settings = ouster_settings(&file, Reading::Savefile);
            assert_eq!(settings.pixels_per_column, beams, "{len} bytes");
        }
    }

    #[test]
    fn counts_have_a_comma_at_each_thousand() {
        for (count, text) in [
            (0, "0 points"),
            (1, "1 point"),
            (2, "2 points"),
            (999, "999 points"),
            (1000, "1,000 points"),
            (1234567, "1,234,567 points"),
        ] {
            assert_eq!(counted(count, "point"), text);
        }
    }
}
