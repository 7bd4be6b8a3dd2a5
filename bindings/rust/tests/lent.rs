//! A slice that is lent ends where its length says, whatever lies behind it.
//!
//! Each is a part of a longer buffer, so that a length that is passed on wrong stays in memory that the
//! test has: then the answer is another one, or a cell outside the part is.

mod files;

use files::{capture, lvx, lvx2, TIME};
use lidar::*;
use std::fmt::Debug;

/// The cells before and behind a lent part.
const AROUND: usize = 512;

/// Every file here tells so many points, if all of it is lent.
const POINTS: usize = 2;

type Told = Result<Vec<Point>, Refusal>;

/// Cells of one value, of which a part in the midst is lent.
struct Canaries<T> {
    canary: T,
    cells: Vec<T>,
    lent: usize,
}

impl<T: Copy + Debug + PartialEq> Canaries<T> {
    fn new(canary: T, lent: usize) -> Canaries<T> {
        let cells = vec![canary; AROUND + lent + AROUND];
        Canaries {
            canary,
            cells,
            lent,
        }
    }

    fn part(&mut self) -> &mut [T] {
        &mut self.cells[AROUND..][..self.lent]
    }

    /// What was laid at the start of the part. Every other cell has to be as it was.
    #[track_caller]
    fn laid(&self, laid: usize) -> &[T] {
        let (before, rest) = self.cells.split_at(AROUND);
        let (laid, behind) = rest.split_at(laid);
        for cell in [before, behind].concat() {
            assert_eq!(cell, self.canary, "{} cells are lent", self.lent);
        }
        laid
    }
}

/// Calls with the data, and without its last byte. More bytes lie behind both.
#[track_caller]
fn of_data<T: Debug + PartialEq>(data: &[u8], call: impl Fn(&[u8]) -> T, whole: T, cut: T) {
    let longer = [data, &[0; AROUND]].concat();
    assert_eq!(call(&longer[..data.len()]), whole, "all of the data");
    assert_eq!(call(&longer[..data.len() - 1]), cut, "a byte less");
}

/// Both forms of a reader, and what they tell of the data, and without its last byte.
struct Reader<'a> {
    data: &'a [u8],
    into: &'a dyn Fn(&[u8], &mut [f32], &mut [u8]) -> Result<usize, Refusal>,
    vector: &'a dyn Fn(&[u8]) -> Result<Vec<Point>, Error>,
    whole: Told,
    cut: Told,
}

impl Reader<'_> {
    /// Each slice one short, of the size and one more, with the others of every length.
    #[track_caller]
    fn check(&self) {
        for numbers in 3 * POINTS - 1..=3 * POINTS + 1 {
            for kinds in POINTS - 1..=POINTS + 1 {
                let short = numbers < 3 * POINTS || kinds < POINTS;
                let whole = match &self.whole {
                    Ok(_) if short => Err(Refusal::NoRoom(POINTS)),
                    told => told.clone(),
                };
                let into = |data: &[u8]| self.into(data, numbers, kinds);
                of_data(self.data, into, whole, self.cut.clone());
            }
        }
        let error = |told: &Told| told.clone().map_err(Error::Refused);
        of_data(self.data, self.vector, error(&self.whole), error(&self.cut));
    }

    /// The points that are laid into slices of these lengths, with nothing else changed.
    fn into(&self, data: &[u8], numbers: usize, kinds: usize) -> Told {
        let (mut numbers, mut kinds) = (Canaries::new(-7.0, numbers), Canaries::new(77, kinds));
        let told = (self.into)(data, numbers.part(), kinds.part());
        let points = told.unwrap_or(0);
        let numbers = numbers.laid(3 * points).chunks(3);
        let laid = kinds.laid(points).iter().zip(numbers);
        let point = |(kind, n): (&u8, &[f32])| Point::new(*kind, [n[0], n[1], n[2]]).unwrap();
        told.map(|_| laid.map(point).collect())
    }
}

fn cartesian(x: f32, y: f32, z: f32) -> Point {
    Point::Cartesian { x, y, z }
}

fn polar(range: f32, elevation: f32, azimuth: f32) -> Point {
    Point::Polar {
        range,
        elevation,
        azimuth,
    }
}

#[test]
fn kitti() {
    let records = [1.0f32, 2.0, 3.0, 9.0, 4.0, 5.0, 6.0, 9.0];
    Reader {
        data: &records.map(f32::to_le_bytes).concat(),
        into: &read_kitti_into,
        vector: &read_kitti,
        whole: Ok(vec![cartesian(1.0, 2.0, 3.0), cartesian(4.0, 5.0, 6.0)]),
        cut: Err(Refusal::NotWholeRecords),
    }
    .check();
}

/// A file of each form, whose one frame ends with a package of type 1 and two points.
fn livox() -> [(Form, Vec<u8>); 2] {
    let mut body = vec![];
    for xyz in [[1500, -250, 1000], [2000, 3000, -4000]] {
        body.extend(xyz.map(i32::to_le_bytes).concat());
        body.extend([9, 0]);
    }
    let mut lvx_header = [0; 27];
    (lvx_header[10], lvx_header[21]) = (1, body.len() as u8);
    let mut lvx2_header = [0; 11];
    (lvx2_header[6], lvx2_header[7]) = (1, body.len() as u8);
    [
        (
            Form::Lvx,
            [&lvx(29, 0)[..], &[0; 24], &lvx_header, &body].concat(),
        ),
        (
            Form::Lvx2,
            [&lvx2(28)[..], &[0; 24], &lvx2_header, &body].concat(),
        ),
    ]
}

#[test]
fn livox_files() {
    for (form, data) in livox() {
        Reader {
            data: &data,
            into: &|data, numbers, kinds| {
                let counts = match form {
                    Form::Lvx => read_lvx_into(data, numbers, kinds),
                    Form::Lvx2 => read_lvx2_into(data, numbers, kinds),
                };
                Ok(counts?.points)
            },
            vector: &|data| {
                let read = match form {
                    Form::Lvx => read_lvx(data),
                    Form::Lvx2 => read_lvx2(data),
                };
                Ok(read?.points)
            },
            whole: Ok(vec![cartesian(1.5, -0.25, 1.0), cartesian(2.0, 3.0, -4.0)]),
            cut: Ok(vec![]),
        }
        .check();
    }
}

#[test]
fn livox_points_by_rank() {
    let (count, datum, pulse) = (BeltCount(400), BeltDatum(0), PulseLength(250));
    for (form, data) in livox() {
        of_data(
            &data,
            |data| stored_reading(form, data, 1),
            Ok(StoredReading::Millimetres {
                x: 2000,
                y: 3000,
                z: -4000,
            }),
            Err(Refusal::NotPlaceable),
        );
        of_data(
            &data,
            |data| place_in_file(form, data, 1, count, datum, pulse),
            Ok(2.1),
            Err(Refusal::NotPlaceable),
        );
    }
}

/// The reading of a capture's bytes, and the one that a call names, if it names one.
const READ_AS: [(Reading, Option<Reading>); 3] = [
    (Reading::Rust, None),
    (Reading::Rust, Some(Reading::Rust)),
    (Reading::Savefile, Some(Reading::Savefile)),
];

#[test]
fn velodyne() {
    // Two channels of the first block. The last byte names a VLP-16.
    let mut packet = vec![0; 1206];
    packet[..2].copy_from_slice(&[0xEE, 0xFF]);
    packet[2..4].copy_from_slice(&9000u16.to_le_bytes());
    packet[4..6].copy_from_slice(&500u16.to_le_bytes());
    packet[7..9].copy_from_slice(&1000u16.to_le_bytes());
    packet[1205] = 0x22;
    let points = vec![polar(1.0, -15.0, 90.0), polar(2.0, 1.0, 90.0)];
    Reader {
        data: &packet,
        into: &decode_velodyne_packet_into,
        vector: &decode_velodyne_packet,
        whole: Ok(points.clone()),
        cut: Ok(vec![]),
    }
    .check();
    for (reading, named) in READ_AS {
        Reader {
            data: &capture(reading, 2368, &packet),
            into: &|data, numbers, kinds| match named {
                Some(reading) => read_velodyne_into_as(data, reading, numbers, kinds),
                None => read_velodyne_into(data, numbers, kinds),
            },
            vector: &|data| match named {
                Some(reading) => read_velodyne_as(data, reading),
                None => read_velodyne(data),
            },
            whole: Ok(points.clone()),
            cut: Err(Refusal::NoPayload),
        }
        .check();
    }
}

#[test]
fn ouster() {
    const BEAMS: usize = 16;
    // One column, half a turn on, with a range in its first beam and in its last.
    let mut packet = vec![0; 16 + 12 * BEAMS + 4];
    packet[12..16].copy_from_slice(&45056u32.to_le_bytes());
    packet[16..20].copy_from_slice(&1000u32.to_le_bytes());
    packet[16 + 12 * (BEAMS - 1)..][..4].copy_from_slice(&2000u32.to_le_bytes());
    let half = std::f32::consts::PI;
    let points = vec![polar(1.0, 0.5, half), polar(2.0, 15.5, half)];
    for elevations in BEAMS - 1..=BEAMS + 1 {
        // What is cut off stays behind the vector.
        let mut beam_altitudes: Vec<_> = (0..AROUND).map(|beam| beam as f32 + 0.5).collect();
        beam_altitudes.truncate(elevations);
        let settings = OusterSettings {
            columns_per_packet: 1,
            pixels_per_column: BEAMS,
            beam_altitudes,
            lidar_port: 7502,
        };
        let (whole, cut) = if elevations < BEAMS {
            (Err(Refusal::BadSettings), Err(Refusal::BadSettings))
        } else {
            (Ok(points.clone()), Err(Refusal::NoPayload))
        };
        for (reading, named) in READ_AS {
            // A packet to another port is none, whole or cut.
            for (port, whole) in [(7502, &whole), (7503, &cut)] {
                Reader {
                    data: &capture(reading, port, &packet),
                    into: &|data, numbers, kinds| match named {
                        Some(reading) => {
                            read_ouster_into_as(data, reading, &settings, numbers, kinds)
                        }
                        None => read_ouster_into(data, &settings, numbers, kinds),
                    },
                    vector: &|data| match named {
                        Some(reading) => read_ouster_as(data, reading, &settings),
                        None => read_ouster(data, &settings),
                    },
                    whole: whole.clone(),
                    cut: cut.clone(),
                }
                .check();
            }
        }
    }
}

/// Each of a payload's lent numbers arrives as what it is.
#[test]
fn payloads_of_captures() {
    let bytes = vec![7, 8, 9];
    let [seconds, fraction] = TIME;
    let unit = TimeUnit::Microseconds;
    let time = Timestamp {
        seconds,
        fraction,
        unit,
    };
    let copied = |Payload { bytes, time }: Payload| (bytes.to_vec(), time);
    for (reading, named) in READ_AS {
        let data = capture(reading, 2368, &bytes);
        of_data(
            &data,
            |data| {
                let found = match named {
                    Some(reading) => payload_as(data, reading, 2368, 0),
                    None => payload(data, 2368, 0),
                };
                found.map(|found| found.map(copied))
            },
            Ok(Some((bytes.clone(), time))),
            Ok(None),
        );
        of_data(
            &data,
            |data| {
                let all = match named {
                    Some(reading) => payloads_as(data, reading, 2368),
                    None => payloads(data, 2368),
                };
                all.map(|all| all.map(copied).collect())
            },
            Ok(vec![(bytes.clone(), time)]),
            Ok(vec![]),
        );
        // The port, too, is passed on.
        let whole = Payload {
            bytes: &bytes,
            time,
        };
        for (port, found) in [(2367, None), (2369, None), (0, Some(whole))] {
            let (one, all) = match named {
                Some(reading) => (
                    payload_as(&data, reading, port, 0),
                    payloads_as(&data, reading, port),
                ),
                None => (payload(&data, port, 0), payloads(&data, port)),
            };
            assert_eq!(one, Ok(found), "port {port}");
            assert_eq!(all.unwrap().next(), found, "port {port}");
        }
    }
}
