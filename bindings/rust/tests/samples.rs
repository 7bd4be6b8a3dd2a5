//! The samples of the repository, which `samples/make.py` makes.

use lidar::*;

fn sample(name: &str) -> Vec<u8> {
    std::fs::read(format!("../../samples/{name}")).unwrap()
}

/// A point's kind and bits, since a NaN equals nothing.
fn bits(point: &Point) -> (char, [u32; 3]) {
    match *point {
        Point::Cartesian { x, y, z } => ('c', [x, y, z].map(f32::to_bits)),
        Point::Polar {
            range,
            elevation,
            azimuth,
        } => ('p', [range, elevation, azimuth].map(f32::to_bits)),
    }
}

fn line(kind: char, [first, second, third]: [u32; 3]) -> String {
    format!("{kind} {first:08x} {second:08x} {third:08x}\n")
}

/// What the lister prints of a Livox file: through lent slices, with room for 4,096 points.
fn listed(name: &str) -> String {
    let data = sample(name);
    let (mut numbers, mut kinds) = (vec![0.0f32; 3 * 4096], vec![0; 4096]);
    let answer = if name.ends_with(".lvx") {
        read_lvx_into(&data, &mut numbers, &mut kinds)
    } else {
        read_lvx2_into(&data, &mut numbers, &mut kinds)
    };
    match answer {
        Ok(LivoxCounts { points, frames }) => {
            let mut text = format!("points {points} frames {frames}\n");
            for (kind, n) in kinds.iter().zip(numbers.chunks(3)).take(points) {
                let point = Point::new(*kind, [n[0], n[1], n[2]]).unwrap();
                let (kind, bits) = bits(&point);
                text += &line(kind, bits);
            }
            text
        }
        Err(Refusal::NoRoom(needed)) => format!("refused 10 {needed}\n"),
        Err(refusal) => format!("refused {}\n", refusal.number()),
    }
}

fn livox_samples() -> Vec<String> {
    let mut names: Vec<_> = std::fs::read_dir("../../samples")
        .unwrap()
        .map(|entry| entry.unwrap().file_name().into_string().unwrap())
        .filter(|name| name.ends_with(".lvx") || name.ends_with(".lvx2"))
        .collect();
    names.sort();
    names
}

#[test]
fn livox_slices_hold_what_the_lister_prints() {
    assert!(livox_samples().len() >= 8);
    for name in livox_samples() {
        let text = String::from_utf8(sample(&format!("{name}.txt"))).unwrap();
        assert!(listed(&name) == text, "{name}: {}", listed(&name));
    }
}

#[test]
fn livox_vectors_hold_what_the_lister_prints() {
    for name in livox_samples() {
        let data = sample(&name);
        let read = if name.ends_with(".lvx") {
            read_lvx(&data)
        } else {
            read_lvx2(&data)
        };
        // A vector has room for any number of points.
        if name == "no_room.lvx2" {
            assert_eq!(read.unwrap().points.len(), 4097);
            continue;
        }
        let text = match read {
            Ok(LivoxPoints { points, frames }) => {
                let head = format!("points {} frames {frames}\n", points.len());
                points
                    .iter()
                    .map(bits)
                    .fold(head, |text, (kind, bits)| text + &line(kind, bits))
            }
            Err(Error::Refused(refusal)) => format!("refused {}\n", refusal.number()),
            Err(error) => panic!("{name}: {error}"),
        };
        assert!(
            text.as_bytes() == sample(&format!("{name}.txt")),
            "{name}: {text}"
        );
    }
}

#[test]
fn stored_readings_are_the_files_own_numbers() {
    let (lvx, lvx2) = (sample("each_type.lvx"), sample("each_type.lvx2"));
    assert_eq!(
        stored_reading(Form::Lvx, &lvx, 0),
        Ok(StoredReading::Millimetres {
            x: 1500,
            y: -250,
            z: 16_777_217
        })
    );
    assert_eq!(
        stored_reading(Form::Lvx, &lvx, 1),
        Ok(StoredReading::Spherical {
            depth: 12345,
            zenith: 9000,
            azimuth: 35999
        })
    );
    let Ok(StoredReading::Float { x, y, z }) = stored_reading(Form::Lvx, &lvx, 2) else {
        panic!("the third point is of floats");
    };
    // The second is a NaN, whose bits are kept.
    assert_eq!(
        [x, y, z].map(f32::to_bits),
        [0x3F80_0000, 0x7FC1_2345, 0x8000_0000]
    );
    assert_eq!(
        stored_reading(Form::Lvx, &lvx, 3),
        Err(Refusal::NotPlaceable)
    );

    assert_eq!(
        stored_reading(Form::Lvx2, &lvx2, 0),
        Ok(StoredReading::TenMillimetres {
            x: -1,
            y: 0,
            z: 32767
        })
    );
    assert_eq!(
        stored_reading(Form::Lvx2, &lvx2, 2),
        Ok(StoredReading::Millimetres {
            x: i32::MAX,
            y: i32::MIN,
            z: 1
        })
    );
    assert_eq!(
        stored_reading(Form::Lvx2, &lvx2, 3),
        Ok(StoredReading::Spherical {
            depth: u32::MAX,
            zenith: 18000,
            azimuth: 1
        })
    );
    // A file of the other form is refused.
    assert_eq!(stored_reading(Form::Lvx2, &lvx, 0), Err(Refusal::WrongMark));
    assert_eq!(stored_reading(Form::Lvx, &lvx2, 0), Err(Refusal::WrongMark));
}

#[test]
fn placing_in_a_file_is_placing_its_reading() {
    let file = sample("case_on_belt.lvx2");
    let (count, datum, pulse) = (BeltCount(5), BeltDatum(u32::MAX - 94), PulseLength(1000));
    for rank in [0, 1, 449, 899] {
        let reading = stored_reading(Form::Lvx2, &file, rank).unwrap();
        let StoredReading::TenMillimetres { x, .. } = reading else {
            panic!("rank {rank}: {reading:?}");
        };
        let placed = place(reading, count, datum, pulse);
        // The belt moved by 100 pulses of a millimetre.
        assert_eq!(placed, Ok((i32::from(x) * 10 + 100) as f32 / 1000.0));
        assert_eq!(
            place_in_file(Form::Lvx2, &file, rank, count, datum, pulse),
            placed
        );
    }
    assert_eq!(
        place_in_file(Form::Lvx2, &file, 900, count, datum, pulse),
        Err(Refusal::NotPlaceable)
    );
}

#[test]
fn kitti_points_are_the_files_own_bits() {
    let file = sample("hall.bin");
    let stored: Vec<_> = file
        .chunks(16)
        .map(|record| {
            let at = |i: usize| u32::from_le_bytes(record[4 * i..4 * i + 4].try_into().unwrap());
            ('c', [at(0), at(1), at(2)])
        })
        .collect();
    assert_eq!(stored.len(), 551);
    assert_eq!(stored[549].1[0], 0x7FC1_2345);
    let points = read_kitti(&file).unwrap();
    assert!(points.iter().map(bits).eq(stored.iter().copied()));

    let (mut numbers, mut kinds) = (vec![0.0; 3 * 551], vec![0; 551]);
    assert_eq!(read_kitti_into(&file, &mut numbers, &mut kinds), Ok(551));
    let laid = numbers.iter().map(|x| x.to_bits());
    assert!(laid.eq(stored.iter().flat_map(|(_, bits)| *bits)));
    assert_eq!(kinds, [CARTESIAN; 551]);
}

/// The same capture with its magic the other way round, which the other reading takes.
fn turned(mut capture: Vec<u8>) -> Vec<u8> {
    capture[..4].reverse();
    capture
}

#[test]
fn velodyne_captures_are_read_by_the_reading_that_is_named() {
    let file = sample("hall_velodyne.pcap");
    let points = read_velodyne_as(&file, Reading::Rust).unwrap();
    assert_eq!(points.len(), 3072);
    let polar = |range, elevation, azimuth| Point::Polar {
        range,
        elevation,
        azimuth,
    };
    // The first two lasers, the second firing half a step on, and the last block, which adds 1.0.
    assert_eq!(points[0], polar(2071.0 * 0.002, -15.0, 0.0));
    assert_eq!(points[1], polar(2000.0 * 0.002, 1.0, 0.0));
    assert!(matches!(
        points[16],
        Point::Polar {
            elevation: -15.0,
            azimuth: 1.875,
            ..
        }
    ));
    assert!(matches!(
        points[3071],
        Point::Polar {
            elevation: 15.0,
            azimuth: 357.25,
            ..
        }
    ));

    assert_eq!(
        read_velodyne_as(&file, Reading::Savefile),
        Err(Error::Refused(Refusal::NoPayload))
    );
    let turned = turned(file.clone());
    assert_eq!(
        read_velodyne_as(&turned, Reading::Savefile).unwrap(),
        points
    );
    assert_eq!(
        read_velodyne_as(&turned, Reading::Rust),
        Err(Error::Refused(Refusal::NoPayload))
    );

    // Packet by packet there are the same points.
    let by_packet: Vec<_> = payloads_as(&file, Reading::Rust, 2368)
        .unwrap()
        .flat_map(|packet| decode_velodyne_packet(packet.bytes).unwrap())
        .collect();
    assert_eq!(by_packet, points);

    // Lent slices, exactly of the size.
    let (mut numbers, mut kinds) = (vec![0.0; 3 * 3072], vec![0; 3072]);
    assert_eq!(
        read_velodyne_into_as(&turned, Reading::Savefile, &mut numbers, &mut kinds),
        Ok(3072)
    );
    assert_eq!(&numbers[..3], [2071.0 * 0.002, -15.0, 0.0]);
    assert_eq!(kinds, [POLAR; 3072]);
}

#[test]
fn ouster_captures_are_read_by_the_reading_that_is_named() {
    let file = sample("hall_ouster.pcap");
    let settings = OusterSettings::os1_64();
    let points = read_ouster_as(&file, Reading::Savefile, &settings).unwrap();
    assert_eq!(points.len(), 2048);
    // Five sixths of a turn, in radians, and the first elevation of the settings.
    let Point::Polar {
        elevation, azimuth, ..
    } = points[0]
    else {
        panic!("{:?}", points[0]);
    };
    assert_eq!(elevation, 16.611);
    assert_eq!(azimuth, 75093.0 / 90112.0 * std::f32::consts::TAU);

    assert_eq!(
        read_ouster_as(&file, Reading::Rust, &settings),
        Err(Error::Refused(Refusal::NoPayload))
    );
    let turned = turned(file.clone());
    assert_eq!(
        read_ouster_as(&turned, Reading::Rust, &settings).unwrap(),
        points
    );

    let (mut numbers, mut kinds) = (vec![0.0; 3 * 2048], vec![0; 2048]);
    assert_eq!(
        read_ouster_into_as(&turned, Reading::Rust, &settings, &mut numbers, &mut kinds),
        Ok(2048)
    );
    assert_eq!(numbers[1..3], [16.611, azimuth]);
    assert_eq!(kinds, [POLAR; 2048]);
}

/// A caller who names no reading gets the usual one, in every call.
#[test]
fn the_usual_reading_is_that_of_the_rust() {
    const USUAL: Reading = Reading::Rust;
    let settings = OusterSettings::os1_64();
    let (velodyne, ouster) = (sample("hall_velodyne.pcap"), sample("hall_ouster.pcap"));
    let (mut numbers, mut kinds) = (vec![0.0; 3 * 3072], vec![0; 3072]);
    for file in [velodyne.clone(), turned(velodyne)] {
        assert_eq!(read_velodyne(&file), read_velodyne_as(&file, USUAL));
        let room = (&mut numbers[..], &mut kinds[..]);
        let usual = read_velodyne_into(&file, room.0, room.1);
        assert_eq!(usual, read_velodyne_into_as(&file, USUAL, room.0, room.1));
        assert_eq!(payload(&file, 2368, 7), payload_as(&file, USUAL, 2368, 7));
        let both = (payloads(&file, 2368), payloads_as(&file, USUAL, 2368));
        assert!(both.0.unwrap().eq(both.1.unwrap()));
    }
    for file in [ouster.clone(), turned(ouster)] {
        assert_eq!(
            read_ouster(&file, &settings),
            read_ouster_as(&file, USUAL, &settings)
        );
        let usual = read_ouster_into(&file, &settings, &mut numbers, &mut kinds);
        let named = read_ouster_into_as(&file, USUAL, &settings, &mut numbers, &mut kinds);
        assert_eq!(usual, named);
    }
}

#[test]
fn payloads_are_parts_of_the_capture() {
    let file = sample("hall_velodyne.pcap");
    let all: Vec<_> = payloads_as(&file, Reading::Rust, 2368).unwrap().collect();
    assert_eq!(all.len(), 8);
    for (rank, payload) in all.iter().enumerate() {
        // Record after record of 16 + 42 + 1,206 bytes, from byte 24 on.
        let start = 24 + 1264 * rank + 58;
        assert!(
            std::ptr::eq(payload.bytes, &file[start..start + 1206]),
            "rank {rank}"
        );
        let ranked = payload_as(&file, Reading::Rust, 2368, rank)
            .unwrap()
            .unwrap();
        assert!(std::ptr::eq(payload.bytes, ranked.bytes), "rank {rank}");
    }
    assert_eq!(payload_as(&file, Reading::Rust, 2368, 8), Ok(None));
    // Port 0 asks for every port, and a port beside finds nothing.
    assert_eq!(payloads_as(&file, Reading::Rust, 0).unwrap().count(), 8);
    for port in [2367, 2369] {
        assert_eq!(
            payloads_as(&file, Reading::Rust, port).unwrap().next(),
            None
        );
        assert_eq!(payload_as(&file, Reading::Rust, port, 0), Ok(None));
    }
    // After the last there is none, however often it is asked.
    let mut walk = payloads_as(&file, Reading::Rust, 2368).unwrap();
    assert_eq!(walk.by_ref().count(), 8);
    assert_eq!((walk.next(), walk.next()), (None, None));
}

#[test]
fn times_of_the_samples_rise_by_milliseconds() {
    for (name, reading, port, packets) in [
        ("hall_velodyne.pcap", Reading::Rust, 2368, 8),
        ("hall_ouster.pcap", Reading::Savefile, 7502, 2),
    ] {
        let file = sample(name);
        // The same capture of nanoseconds, and both as the other reading takes them.
        let nanosecond = |file: &[u8]| {
            let mut file = file.to_vec();
            let magic = &mut file[..4];
            magic.iter_mut().for_each(|byte| match *byte {
                0xC3 => *byte = 0x3C,
                0xD4 => *byte = 0x4D,
                _ => {}
            });
            file
        };
        let other = match reading {
            Reading::Rust => Reading::Savefile,
            _ => Reading::Rust,
        };
        let turned = turned(file.clone());
        for (file, reading, unit) in [
            (nanosecond(&file), reading, TimeUnit::Nanoseconds),
            (nanosecond(&turned), other, TimeUnit::Nanoseconds),
            (file, reading, TimeUnit::Microseconds),
            (turned, other, TimeUnit::Microseconds),
        ] {
            let times = payloads_as(&file, reading, port).unwrap();
            let times: Vec<_> = times.map(|payload| payload.time).collect();
            let rising = (0..packets).map(|rank| Timestamp {
                seconds: 1_700_000_000,
                fraction: 1000 * rank,
                unit,
            });
            assert!(times.iter().copied().eq(rising), "{name}: {times:?}");
        }
    }
}
