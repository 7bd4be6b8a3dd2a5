//! Each boundary at one below, at, and one above.

mod files;

use files::{capture, capture_of, lvx, lvx2, opening, record, Datagram};
use lidar::*;
use std::time::Duration;

const READINGS: [Reading; 2] = [Reading::Rust, Reading::Savefile];

/// A Velodyne packet of so many bytes: each block flagged, each distance 1.
fn packet(len: usize, factory_byte: u8) -> Vec<u8> {
    let mut bytes = vec![0; len.max(1206)];
    for block in bytes.chunks_mut(100).take(12) {
        block[..2].copy_from_slice(&[0xEE, 0xFF]);
        block[4..].iter_mut().step_by(3).for_each(|low| *low = 1);
    }
    bytes[1205] = factory_byte;
    bytes.truncate(len);
    bytes
}

#[test]
fn kitti_lengths() {
    assert_eq!(read_kitti(&[]), Ok(vec![]));
    let zero = Point::Cartesian {
        x: 0.0,
        y: 0.0,
        z: 0.0,
    };
    for (len, told) in [
        (15, Err(Error::Refused(Refusal::NotWholeRecords))),
        (16, Ok(vec![zero])),
        (17, Err(Error::Refused(Refusal::NotWholeRecords))),
        (32, Ok(vec![zero; 2])),
    ] {
        assert_eq!(read_kitti(&vec![0; len]), told, "{len} bytes");
    }
}

#[test]
fn room_is_asked_for_both_slices_and_nothing_else_is_touched() {
    let file: Vec<u8> = [1.0f32, 2.0, 3.0, 9.0, 4.0, 5.0, 6.0, 9.0]
        .iter()
        .flat_map(|x| x.to_le_bytes())
        .collect();
    for (numbers_len, kinds_len, told) in [
        (5, 2, Err(Refusal::NoRoom(2))),
        (6, 1, Err(Refusal::NoRoom(2))),
        (6, 2, Ok(2)),
        (7, 3, Ok(2)),
    ] {
        let (mut numbers, mut kinds) = (vec![-7.0f32; numbers_len], vec![77u8; kinds_len]);
        let answer = read_kitti_into(&file, &mut numbers, &mut kinds);
        assert_eq!(answer, told, "{numbers_len} {kinds_len}");
        if told.is_ok() {
            assert_eq!(numbers[..6], [1.0, 2.0, 3.0, 4.0, 5.0, 6.0]);
            assert_eq!(kinds[..2], [CARTESIAN; 2]);
            assert!(numbers[6..].iter().all(|x| *x == -7.0));
            assert!(kinds[2..].iter().all(|kind| *kind == 77));
        } else {
            assert!(numbers.iter().all(|x| *x == -7.0));
            assert!(kinds.iter().all(|kind| *kind == 77));
        }
    }
}

#[test]
fn every_nan_is_exact() {
    // Quiet and signalling, of both signs.
    let patterns = [0x7FC0_0001u32, 0x7F80_0001, 0xFFBF_FFFF, 0];
    let file: Vec<u8> = patterns
        .iter()
        .flat_map(|bits| bits.to_le_bytes())
        .collect();
    let (mut numbers, mut kinds) = ([0.0; 3], [0]);
    assert_eq!(read_kitti_into(&file, &mut numbers, &mut kinds), Ok(1));
    assert_eq!(numbers.map(f32::to_bits), patterns[..3]);
    let points = read_kitti(&file).unwrap();
    let [Point::Cartesian { x, y, z }] = points[..] else {
        panic!("{points:?}");
    };
    assert_eq!([x, y, z].map(f32::to_bits), patterns[..3]);
}

#[test]
fn livox_headers() {
    let refused = |file: &[u8]| match read_lvx(file) {
        Ok(read) => Err(read),
        Err(Error::Refused(refusal)) => Ok(refusal),
        Err(error) => panic!("{error}"),
    };
    let nothing = LivoxPoints {
        points: vec![],
        frames: 0,
    };
    assert_eq!(refused(&lvx(23, 0)), Ok(Refusal::TooShort));
    assert_eq!(refused(&lvx(24, 0)), Ok(Refusal::HeaderTooShort));
    assert_eq!(refused(&lvx(28, 0)), Ok(Refusal::HeaderTooShort));
    assert_eq!(refused(&lvx(29, 0)), Err(nothing.clone()));
    assert_eq!(refused(&lvx(87, 1)), Ok(Refusal::DevicesPastEnd));
    assert_eq!(refused(&lvx(88, 1)), Err(nothing.clone()));
    let mut other = lvx(29, 0);
    other[20] ^= 1;
    assert_eq!(refused(&other), Ok(Refusal::WrongCode));
    other[9] ^= 1;
    assert_eq!(refused(&other), Ok(Refusal::WrongMark));

    assert_eq!(read_lvx2(&lvx2(27)), Err(Error::Refused(Refusal::TooShort)));
    assert_eq!(read_lvx2(&lvx2(28)), Ok(nothing));
    // 51 is one byte short of a frame header.
    assert_eq!(read_lvx2(&lvx2(51)).unwrap().frames, 0);
    assert_eq!(read_lvx2(&lvx2(52)).unwrap().frames, 1);
    let mut other = lvx2(28);
    other[0] ^= 1;
    assert_eq!(read_lvx2(&other), Err(Error::Refused(Refusal::WrongMark)));
}

#[test]
fn capture_headers_and_records() {
    for reading in READINGS {
        let file = opening(reading);
        for port in [0, 2368] {
            assert_eq!(payloads_as(&file, reading, port).unwrap().count(), 0);
            assert_eq!(payload_as(&file, reading, port, 0), Ok(None));
        }
        assert_eq!(
            read_velodyne_as(&file, reading),
            Err(Error::Refused(Refusal::NoPayload))
        );
        let refusals = |file: &[u8]| {
            (
                payloads_as(file, reading, 0).map(|_| ()),
                payload_as(file, reading, 0, 0).map(|_| ()),
                read_velodyne_as(file, reading),
            )
        };
        for (file, refusal) in [
            (&file[..23], Refusal::TooShort),
            (&[0; 24][..], Refusal::WrongMark),
        ] {
            assert_eq!(
                refusals(file),
                (Err(refusal), Err(refusal), Err(refusal.into()))
            );
        }
        assert_eq!(payloads(&file[..23], 0).map(|_| ()), Err(Refusal::TooShort));
        assert_eq!(payload(&file[..23], 0, 0), Err(Refusal::TooShort));

        // Records of 42, 43 and 44 bytes.
        for bytes in [&[][..], &[7], &[7, 8]] {
            let file = capture(reading, 2368, bytes);
            let walk = payloads_as(&file, reading, 2368).unwrap();
            let all: Vec<_> = walk.map(|payload| payload.bytes).collect();
            let ranked = payload_as(&file, reading, 2368, 0);
            let ranked = ranked.map(|payload| payload.map(|payload| payload.bytes));
            if bytes.is_empty() {
                assert!(all.is_empty());
                assert_eq!(ranked, Ok(None));
            } else {
                assert_eq!(all, [bytes]);
                assert_eq!(ranked, Ok(Some(bytes)));
            }
            // The data ends a byte before the record does.
            let cut = &file[..file.len() - 1];
            assert_eq!(payloads_as(cut, reading, 2368).unwrap().count(), 0);
        }
    }
}

/// What a datagram states, for messages.
fn fields(datagram: &Datagram) -> String {
    let Datagram {
        udp_length,
        fragment,
        padding,
        ..
    } = datagram;
    let padding = padding.len();
    format!("UDP length {udp_length:?}, fragment field {fragment:#06x}, padding {padding}")
}

fn stating(udp_length: u16, datagram: Datagram) -> Datagram {
    Datagram {
        udp_length: Some(udp_length),
        ..datagram
    }
}

fn padded<'a>(padding: &'a [u8], datagram: Datagram<'a>) -> Datagram<'a> {
    Datagram {
        padding,
        ..datagram
    }
}

/// Holds how long the payload of a record is by each reading, 0 where it has none. A record of another port
/// comes before it, and a good one after it, which is found where the record ends.
#[track_caller]
fn of_a_record(datagram: Datagram, by_rust: usize, by_savefile: usize) {
    let (before, after) = (Datagram::new(2369, &[7]), Datagram::new(2368, b"next"));
    for (reading, len) in [(Reading::Rust, by_rust), (Reading::Savefile, by_savefile)] {
        let file = capture_of(reading, &[before, datagram, after]);
        let place = |Payload { bytes, .. }: Payload| {
            let start = bytes.as_ptr() as usize - file.as_ptr() as usize;
            (start, bytes.len())
        };
        let mut want = vec![(24 + 16 + 43 + 16 + 42, len), (file.len() - 4, 4)];
        want.retain(|(_, len)| *len > 0);
        let payloads = payloads_as(&file, reading, 2368).unwrap();
        let found: Vec<_> = payloads.map(place).collect();
        assert_eq!(found, want, "{reading:?}, {}", fields(&datagram));
        for rank in 0..=want.len() {
            let ranked = payload_as(&file, reading, 2368, rank).unwrap().map(place);
            assert_eq!(ranked, want.get(rank).copied(), "{reading:?}, rank {rank}");
        }
    }
}

/// By the Rust's reading padding is payload. By the other the UDP length decides.
#[test]
fn udp_lengths() {
    // Three bytes, padded to a record of 60.
    let of_60 = padded(&[0; 15], Datagram::new(2368, b"abc"));
    of_a_record(of_60, 18, 3);
    for (udp_length, len) in [
        (0, 0),
        (1, 0),
        (7, 0),
        (8, 0),
        (9, 1),
        (10, 2),
        (25, 17),
        // As much as there is from the UDP header on, and one more.
        (26, 18),
        (27, 0),
        // Counted from the IPv4 header, and from the record's start.
        (46, 0),
        (60, 0),
        // Good lengths by one byte alone.
        (0x0109, 0),
        (0x0900, 0),
        (65_535, 0),
    ] {
        of_a_record(stating(udp_length, of_60), 18, len);
    }
    // Without padding, from no payload to two bytes.
    for held in 0..=2 {
        let whole = Datagram::new(2368, &b"ab"[..held]);
        let exact = 8 + held as u16;
        of_a_record(whole, held, held);
        of_a_record(stating(exact - 1, whole), held, held.saturating_sub(1));
        of_a_record(stating(exact + 1, whole), held, 0);
    }
    // Padding alone is no payload.
    of_a_record(padded(&[0; 18], Datagram::new(2368, &[])), 18, 0);
}

/// The longest payload of a datagram has 65,527 bytes.
#[test]
fn the_longest_datagrams() {
    let bytes = vec![7; 65_527];
    let (longest, shorter) = (
        Datagram::new(2368, &bytes),
        Datagram::new(2368, &bytes[1..]),
    );
    of_a_record(stating(65_535, shorter), 65_526, 0);
    of_a_record(stating(65_535, longest), 65_527, 65_527);
    of_a_record(padded(&[0], stating(65_535, longest)), 65_528, 65_527);
}

/// By the Rust's reading a fragment is read like a whole datagram. By the other it is passed over.
#[test]
fn fragments() {
    let whole = Datagram::new(2368, b"abc");
    for (fragment, len) in [
        (0, 3),
        // Offsets 1, 255, 256 and 8,191, more-fragments, and both.
        (0x0001, 0),
        (0x00FF, 0),
        (0x0100, 0),
        (0x1FFF, 0),
        (0x2000, 0),
        (0x2001, 0),
        // Don't-fragment, the reserved flag and both make no fragment, and beside other bits change nothing.
        (0x4000, 3),
        (0x8000, 3),
        (0xC000, 3),
        (0x6000, 0),
        (0x8001, 0),
        (0xFFFF, 0),
    ] {
        of_a_record(Datagram { fragment, ..whole }, 3, len);
    }
}

/// The opening bytes of a capture, the unit that they state, and whether the magic's least significant byte
/// comes first.
const MAGICS: [([u8; 4], TimeUnit, bool); 4] = [
    ([0xD4, 0xC3, 0xB2, 0xA1], TimeUnit::Microseconds, true),
    ([0xA1, 0xB2, 0xC3, 0xD4], TimeUnit::Microseconds, false),
    ([0x4D, 0x3C, 0xB2, 0xA1], TimeUnit::Nanoseconds, true),
    ([0xA1, 0xB2, 0x3C, 0x4D], TimeUnit::Nanoseconds, false),
];

/// A capture in the byte order that a reading takes after a magic: a payload of one byte for each record, by
/// its number, its time and its port.
fn stamped(
    magic: [u8; 4],
    reading: Reading,
    least_first: bool,
    records: &[([u32; 2], u16)],
) -> Vec<u8> {
    let bytes: fn(u32) -> [u8; 4] = match (reading, least_first) {
        (Reading::Savefile, true) | (Reading::Rust, false) => u32::to_le_bytes,
        _ => u32::to_be_bytes,
    };
    let mut file = [&magic[..], &[0; 20]].concat();
    for (i, (time, port)) in records.iter().enumerate() {
        file.extend(record(bytes, *time, Datagram::new(*port, &[i as u8])));
    }
    file
}

/// The byte order is by the reading, and the unit by the magic alone.
#[test]
fn times_after_each_magic_in_each_reading() {
    // No number is another one, or another one with its bytes turned round.
    let records = [
        ([0x6553_F101, 0x000B_71B0], 2368),
        ([0x6553_F202, 0x3B9A_C9FF], 2369),
        ([0x0102_0304, 0xFFFF_FFFE], 2368),
    ];
    for (magic, unit, least_first) in MAGICS {
        for reading in READINGS {
            let file = stamped(magic, reading, least_first, &records);
            for (port, ranks) in [(2368, &[0, 2][..]), (2369, &[1]), (0, &[0, 1, 2]), (9, &[])] {
                let payloads: Vec<_> = payloads_as(&file, reading, port).unwrap().collect();
                let told: Vec<_> = payloads
                    .iter()
                    .map(|Payload { bytes, time }| (bytes.to_vec(), *time))
                    .collect();
                let stored = |i: &usize| {
                    let [seconds, fraction] = records[*i].0;
                    let time = Timestamp {
                        seconds,
                        fraction,
                        unit,
                    };
                    (vec![*i as u8], time)
                };
                let stored: Vec<_> = ranks.iter().map(stored).collect();
                assert_eq!(told, stored, "{magic:x?}, {reading:?}, port {port}");
                // By rank there is the same. After the last there is none, and so no unit either.
                for rank in 0..=payloads.len() {
                    let ranked = payload_as(&file, reading, port, rank);
                    assert_eq!(ranked, Ok(payloads.get(rank).copied()));
                    if reading == Reading::Rust {
                        assert_eq!(payload(&file, port, rank), ranked);
                    }
                }
                if reading == Reading::Rust {
                    assert!(lidar::payloads(&file, port).unwrap().eq(payloads));
                }
            }
        }
    }
}

#[test]
fn fractions_of_a_second() {
    // The nanoseconds of so many microseconds, and of so many nanoseconds, below a second.
    for (fraction, of_microseconds, of_nanoseconds) in [
        (0, Some(0), Some(0)),
        (1, Some(1_000), Some(1)),
        (999_999, Some(999_999_000), Some(999_999)),
        (1_000_000, None, Some(1_000_000)),
        (1_000_001, None, Some(1_000_001)),
        // Times 1,000 the first is the last below 2^32, and the second would wrap to 704.
        (4_294_967, None, Some(4_294_967)),
        (4_294_968, None, Some(4_294_968)),
        (999_999_999, None, Some(999_999_999)),
        (1_000_000_000, None, None),
        (1_000_000_001, None, None),
        (u32::MAX, None, None),
    ] {
        for (magic, unit, least_first) in MAGICS {
            let nanoseconds = match unit {
                TimeUnit::Microseconds => of_microseconds,
                TimeUnit::Nanoseconds => of_nanoseconds,
            };
            for seconds in [0, 1, u32::MAX] {
                let reading = Reading::Savefile;
                let records = [([seconds, fraction], 2368)];
                let file = stamped(magic, reading, least_first, &records);
                let Ok(Some(Payload { time, .. })) = payload_as(&file, reading, 2368, 0) else {
                    panic!("{magic:x?}");
                };
                // As stored, also where it is a second or more.
                let stored = Timestamp {
                    seconds,
                    fraction,
                    unit,
                };
                assert_eq!(time, stored);
                let since = nanoseconds.map(|part| Duration::new(seconds.into(), part));
                let beyond = FractionBeyondSecond { fraction, unit };
                assert_eq!(time.since_epoch(), since.ok_or(beyond), "{time:?}");
            }
        }
    }
    for (unit, text) in [
        (
            TimeUnit::Microseconds,
            "the fraction is 1000000000 microseconds, a second or more",
        ),
        (
            TimeUnit::Nanoseconds,
            "the fraction is 1000000000 nanoseconds, a second or more",
        ),
    ] {
        let fraction = 1_000_000_000;
        assert_eq!(FractionBeyondSecond { fraction, unit }.to_string(), text);
    }
}

#[test]
fn velodyne_packets() {
    for (len, points) in [(1205, 0), (1206, 384), (1207, 384)] {
        let packet = packet(len, 0x22);
        assert_eq!(decode_velodyne_packet(&packet).unwrap().len(), points);
        for reading in READINGS {
            let file = capture(reading, 2368, &packet);
            assert_eq!(read_velodyne_as(&file, reading).unwrap().len(), points);
            for port in [2367, 2369] {
                assert_eq!(
                    read_velodyne_as(&capture(reading, port, &packet), reading),
                    Err(Error::Refused(Refusal::NoPayload))
                );
            }
        }
    }
    let packet = packet(1206, 0x22);
    for (room, told) in [
        (383, Err(Refusal::NoRoom(384))),
        (384, Ok(384)),
        (385, Ok(384)),
    ] {
        let (mut numbers, mut kinds) = (vec![-7.0; 3 * room], vec![77; room]);
        assert_eq!(
            decode_velodyne_packet_into(&packet, &mut numbers, &mut kinds),
            told
        );
        let laid = if told.is_ok() { 384 } else { 0 };
        assert!(kinds[..laid].iter().all(|kind| *kind == POLAR));
        assert!(kinds[laid..].iter().all(|kind| *kind == 77));
        assert!(numbers[3 * laid..].iter().all(|x| *x == -7.0));
    }
}

#[test]
fn velodyne_models() {
    use VelodyneModel::*;
    for (byte, model) in [
        (0x00, Unknown),
        (0x20, Unknown),
        (0x21, VLP32C),
        (0x22, VLP16),
        (0x23, Unknown),
        (0x27, Unknown),
        (0x28, HDL32E),
        (0x29, Unknown),
        (0x34, Unknown),
        (0x35, VLP32C),
        (0x36, Unknown),
        (0xFF, Unknown),
    ] {
        assert_eq!(detect_velodyne_model(byte), model, "{byte:#x}");
    }
    // The model picks the elevations.
    for (byte, elevation) in [(0x22, -15.0), (0x28, -30.67), (0x35, -15.0)] {
        let points = decode_velodyne_packet(&packet(1206, byte)).unwrap();
        assert!(
            matches!(points[0], Point::Polar { range: 0.002, elevation: told, .. } if told == elevation)
        );
    }
}

#[test]
fn ouster_settings() {
    let os1_64 = OusterSettings::os1_64();
    assert_eq!(os1_64, OusterSettings::default());
    let OusterSettings {
        columns_per_packet: 16,
        pixels_per_column: 64,
        beam_altitudes,
        lidar_port: 7502,
    } = &os1_64
    else {
        panic!("{os1_64:?}");
    };
    assert_eq!(beam_altitudes.len(), 64);
    assert_eq!((beam_altitudes[0], beam_altitudes[63]), (16.611, -16.611));
    let os_128 = OusterSettings::os_128();
    let OusterSettings {
        columns_per_packet: 16,
        pixels_per_column: 128,
        beam_altitudes,
        lidar_port: 7502,
    } = &os_128
    else {
        panic!("{os_128:?}");
    };
    assert_eq!(beam_altitudes.len(), 128);
    assert_eq!((beam_altitudes[0], beam_altitudes[127]), (22.5, -22.5));

    // What is refused for its settings, and what is refused later, for want of a payload.
    let reading = Reading::Savefile;
    let file = opening(reading);
    let told = |columns, beams, elevations| {
        let settings = OusterSettings {
            columns_per_packet: columns,
            pixels_per_column: beams,
            beam_altitudes: vec![0.0; elevations],
            lidar_port: 7502,
        };
        let Err(Error::Refused(refusal)) = read_ouster_as(&file, reading, &settings) else {
            panic!("{settings:?}");
        };
        refusal.number()
    };
    for beams in [16, 32, 64, 128] {
        assert_eq!(told(16, beams - 1, 200), 2);
        assert_eq!(told(16, beams, 200), 9);
        assert_eq!(told(16, beams + 1, 200), 2);
        assert_eq!(told(16, beams, beams - 1), 2);
        assert_eq!(told(16, beams, beams), 9);
        assert_eq!(told(16, beams, beams + 1), 9);
    }
    assert_eq!(
        [0, 1, 64, 65].map(|columns| told(columns, 64, 64)),
        [2, 9, 9, 2]
    );
}

#[test]
fn ouster_packets() {
    for (settings, len) in [
        (OusterSettings::os1_64(), 12608),
        (OusterSettings::os_128(), 24896),
    ] {
        for reading in READINGS {
            let beams = settings.pixels_per_column;
            for (len, points) in [(len - 1, 0), (len, 16 * beams), (len + 1, 16 * beams)] {
                // All ones: the 20 bits of each range are 1,048,575 mm.
                let file = capture(reading, 7502, &vec![0xFF; len]);
                let read = read_ouster_as(&file, reading, &settings).unwrap();
                assert_eq!(read.len(), points);
                for (i, point) in read.iter().enumerate() {
                    let Point::Polar {
                        range, elevation, ..
                    } = *point
                    else {
                        panic!("{point:?}");
                    };
                    assert_eq!(range, 1048.575);
                    assert_eq!(elevation, settings.beam_altitudes[i % beams]);
                }
                let (mut numbers, mut kinds) = (vec![0.0; 3 * points], vec![0; points]);
                let laid = read_ouster_into_as(&file, reading, &settings, &mut numbers, &mut kinds);
                assert_eq!(laid, Ok(points));
            }
            for port in [7501, 7503] {
                let file = capture(reading, port, &vec![0xFF; len]);
                assert_eq!(
                    read_ouster_as(&file, reading, &settings),
                    Err(Error::Refused(Refusal::NoPayload))
                );
                // Asked for by its own number, or with every other port.
                for lidar_port in [port, 0] {
                    let asked = OusterSettings {
                        lidar_port,
                        ..settings.clone()
                    };
                    let read = read_ouster_as(&file, reading, &asked).unwrap();
                    assert_eq!(read.len(), 16 * settings.pixels_per_column);
                }
            }
        }
    }
}

/// A reader's packets are the payloads of its reading. By the savefile reading padding makes no packet long
/// enough, and a capture of fragments or of wrong UDP lengths alone has no payload.
#[test]
fn packets_of_each_reading() {
    let settings = OusterSettings::os1_64();
    for (port, packet, points) in [
        (2368, packet(1206, 0x22), 384),
        (7502, vec![0xFF; 12608], 16 * 64),
    ] {
        let read = |reading, datagram| {
            let file = capture_of(reading, &[datagram]);
            let read = match port {
                2368 => read_velodyne_as(&file, reading),
                _ => read_ouster_as(&file, reading, &settings),
            };
            read.map(|points| points.len())
        };
        let no_payload = Err(Error::Refused(Refusal::NoPayload));
        let whole = Datagram::new(port, &packet);
        let fragment = |fragment| Datagram { fragment, ..whole };
        let exact = 8 + packet.len() as u16;
        let (short, last) = packet.split_at(packet.len() - 1);
        for (datagram, by_savefile) in [
            (whole, Ok(points)),
            (padded(&[0; 4], whole), Ok(points)),
            (padded(last, Datagram::new(port, short)), Ok(0)),
            (stating(exact - 1, whole), Ok(0)),
            (stating(9, whole), Ok(0)),
            (stating(8, whole), no_payload),
            (stating(0, whole), no_payload),
            (stating(exact + 1, whole), no_payload),
            (stating(65_535, whole), no_payload),
            (fragment(0x0001), no_payload),
            (fragment(0x1FFF), no_payload),
            (fragment(0x2000), no_payload),
            (fragment(0x4000), Ok(points)),
            (fragment(0x8000), Ok(points)),
        ] {
            let fields = fields(&datagram);
            assert_eq!(read(Reading::Rust, datagram), Ok(points), "{fields}");
            assert_eq!(read(Reading::Savefile, datagram), by_savefile, "{fields}");
        }
    }
}

/// Each number of a stored reading keeps its sign and all its bits.
#[test]
fn stored_numbers() {
    // Of one point, whose numbers end with reflectivity and tag.
    let stored = |data_type: u8, numbers: Vec<u8>| {
        let mut package = [0; 11];
        (package[6], package[7]) = (data_type, numbers.len() as u8 + 2);
        let file = [&lvx2(28)[..], &[0; 24], &package, &numbers, &[0; 2]].concat();
        stored_reading(Form::Lvx2, &file, 0)
    };
    let (x, y, z) = (i16::MIN, i16::MAX, 0x1234);
    assert_eq!(
        stored(0, [x, y, z].map(i16::to_le_bytes).concat()),
        Ok(StoredReading::TenMillimetres { x, y, z })
    );
    let (x, y, z) = (i32::MIN, i32::MAX, 0x1234_5678);
    assert_eq!(
        stored(1, [x, y, z].map(i32::to_le_bytes).concat()),
        Ok(StoredReading::Millimetres { x, y, z })
    );
    let (depth, zenith, azimuth) = (u32::MAX, 0xFFFE, 0x9234u16);
    let angles = [zenith, azimuth].map(u16::to_le_bytes).concat();
    assert_eq!(
        stored(2, [&depth.to_le_bytes()[..], &angles].concat()),
        Ok(StoredReading::Spherical {
            depth,
            zenith,
            azimuth
        })
    );
}

fn at_millimetres(x: i32) -> StoredReading {
    StoredReading::Millimetres { x, y: 1, z: 2 }
}

fn at_ten_millimetres(x: i16) -> StoredReading {
    StoredReading::TenMillimetres { x, y: 1, z: 2 }
}

#[test]
fn placing_windows() {
    let still = |reading| place(reading, BeltCount(9), BeltDatum(9), PulseLength(1));
    assert_eq!(still(at_millimetres(15_999)), Ok(15.999));
    assert_eq!(still(at_millimetres(16_000)), Ok(16.0));
    assert_eq!(still(at_millimetres(16_001)), Err(Refusal::OutsideWindow));
    assert_eq!(still(at_millimetres(-16_000)), Ok(-16.0));
    assert_eq!(still(at_millimetres(-16_001)), Err(Refusal::OutsideWindow));
    assert_eq!(still(at_ten_millimetres(1_600)), Ok(16.0));
    assert_eq!(
        still(at_ten_millimetres(1_601)),
        Err(Refusal::OutsideWindow)
    );
    assert_eq!(still(at_ten_millimetres(-1_600)), Ok(-16.0));
    assert_eq!(
        still(at_ten_millimetres(-1_601)),
        Err(Refusal::OutsideWindow)
    );

    // One pulse of a micrometre either way.
    let pulse = |count, datum| {
        let placed = place(at_millimetres(16_000), count, datum, PulseLength(1));
        placed.map_err(Refusal::number)
    };
    assert_eq!(pulse(BeltCount(1), BeltDatum(0)), Err(13));
    assert_eq!(pulse(BeltCount(0), BeltDatum(1)), Ok(15.999999));
}

#[test]
fn placing_pulse_lengths_and_kinds() {
    let by = |length| {
        place(
            at_millimetres(0),
            BeltCount(1),
            BeltDatum(0),
            PulseLength(length),
        )
    };
    assert_eq!(by(0), Err(Refusal::BadPulseLength));
    assert_eq!(by(1), Ok(0.000_001));
    assert_eq!(by(1000), Ok(0.001));
    assert_eq!(by(1001), Err(Refusal::BadPulseLength));

    // The kind is checked first, then the pulse length, then the window.
    let spherical = StoredReading::Spherical {
        depth: 1,
        zenith: 1,
        azimuth: 1,
    };
    let float = StoredReading::Float {
        x: 1.0,
        y: 1.0,
        z: 1.0,
    };
    for reading in [spherical, float] {
        for length in [0, 1] {
            let placed = place(reading, BeltCount(0), BeltDatum(0), PulseLength(length));
            assert_eq!(placed, Err(Refusal::NotPlaceable));
        }
    }
    let far = place(
        at_millimetres(i32::MAX),
        BeltCount(0),
        BeltDatum(0),
        PulseLength(0),
    );
    assert_eq!(far, Err(Refusal::BadPulseLength));
    // The file's own refusals come before all of them.
    let in_file = |file: &[u8], length| {
        place_in_file(
            Form::Lvx2,
            file,
            0,
            BeltCount(0),
            BeltDatum(0),
            PulseLength(length),
        )
    };
    assert_eq!(in_file(&lvx2(27), 0), Err(Refusal::TooShort));
    assert_eq!(in_file(&lvx2(28), 0), Err(Refusal::NotPlaceable));
}

#[test]
fn pulses_wrap() {
    for (count, datum, told) in [
        (0, 0, 0),
        (1, 0, 1),
        (0, 1, -1),
        (704, 4_294_967_000, 1000),
        (0x7FFF_FFFF, 0, i32::MAX),
        (0x8000_0000, 0, i32::MIN),
        (0x8000_0001, 0, i32::MIN + 1),
    ] {
        assert_eq!(pulses(BeltCount(count), BeltDatum(datum)), BeltPulses(told));
    }
    // The count and the datum are not exchanged on the way down.
    let seen = at_millimetres(1500);
    let (count, datum, length) = (BeltCount(704), BeltDatum(4_294_967_000), PulseLength(250));
    assert_eq!(place(seen, count, datum, length), Ok(1.75));
    let ten = at_ten_millimetres(150);
    assert_eq!(place(ten, count, datum, length), Ok(1.75));
}

/// Zeros that no call looks at cost no memory.
#[test]
fn data_of_the_longest_length() {
    let data = vec![0; 1 << 31];
    let longest = &data[..data.len() - 1];
    // At the limit the next check applies.
    assert_eq!(read_kitti(longest), Err(Refusal::NotWholeRecords.into()));
    assert_eq!(read_kitti(&data), Err(Refusal::TooLong.into()));
    assert_eq!(read_lvx(longest), Err(Refusal::WrongMark.into()));
    assert_eq!(read_lvx(&data), Err(Refusal::TooLong.into()));
    assert_eq!(read_lvx2(&data), Err(Refusal::TooLong.into()));
    let settings = OusterSettings::os1_64();
    for reading in READINGS {
        let of = |data| {
            (
                payload_as(data, reading, 0, 0).map(|_| ()),
                payloads_as(data, reading, 0).map(|_| ()),
                read_velodyne_as(data, reading).map(|_| ()),
                read_ouster_as(data, reading, &settings).map(|_| ()),
            )
        };
        let all = |refusal: Refusal| {
            let error = Error::Refused(refusal);
            (Err(refusal), Err(refusal), Err(error), Err(error))
        };
        assert_eq!(of(longest), all(Refusal::WrongMark));
        assert_eq!(of(&data), all(Refusal::TooLong));
    }
}

/// Frames of 35 bytes, each with a package whose body runs to the data's end: so many points that no
/// machine has the memory.
#[test]
fn points_that_outnumber_the_memory() {
    const FRAME: usize = 24 + 11;
    let frames = 2_400_000;
    let end = FRAME * frames;
    let mut file = lvx2(28 + end);
    let mut points = 0;
    for i in 0..frames {
        let frame = &mut file[28 + FRAME * i..][..FRAME];
        let next = FRAME * (i + 1);
        let offset = if i + 1 == frames { 0 } else { next as u64 };
        frame[8..16].copy_from_slice(&offset.to_le_bytes());
        frame[31..35].copy_from_slice(&((end - next) as u32).to_le_bytes());
        points += (end - next) / 8;
    }
    // 12 bytes a point are more than the 2^47 that a program can address.
    assert!(points * 12 > 1 << 47);
    assert_eq!(
        read_lvx2_into(&file, &mut [], &mut []),
        Err(Refusal::NoRoom(points))
    );
    let error = read_lvx2(&file).unwrap_err();
    assert_eq!(error, Error::NoMemory { points });
    assert_eq!(
        error.to_string(),
        format!("there is no memory for the {points} points of the data")
    );
}

#[test]
fn refusals_have_their_numbers_and_texts() {
    let all = [
        Refusal::TooLong,
        Refusal::BadSettings,
        Refusal::TooShort,
        Refusal::WrongMark,
        Refusal::WrongCode,
        Refusal::HeaderTooShort,
        Refusal::DevicesPastEnd,
        Refusal::NotWholeRecords,
        Refusal::NoPayload,
        Refusal::NoRoom(4097),
        Refusal::NotPlaceable,
        Refusal::BadPulseLength,
        Refusal::OutsideWindow,
    ];
    let numbers: Vec<_> = all.iter().map(|refusal| refusal.number()).collect();
    assert_eq!(numbers, (1..=13).collect::<Vec<u8>>());
    let mut texts: Vec<_> = all.iter().map(Refusal::to_string).collect();
    assert!(texts[9].contains("4097"));
    assert_eq!(Error::from(all[0]).to_string(), texts[0]);
    texts.sort();
    texts.dedup();
    assert_eq!(texts.len(), 13);
}
