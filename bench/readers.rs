//! The readers beside the Rust, from bytes in memory: as it is, with the values pushed just before the
//! angles become radians or sines, which is what our readers hand over, and that with its memory kept.

use crate::files::{self, Random};
use crate::timing::{medians, Way};
use crate::{captures, SIZE};
use std::cell::RefCell;
use threecrate_core::{Point3f, PointCloud, Result};
use threecrate_io::lidar as sines;
use threecrate_io_kept::kept::give_back;
use threecrate_io_kept::lidar as kept;
use threecrate_io_polar::lidar as polar;

macro_rules! declare {
    ($($call:ident($($setting:ident: $type:ty),*);)*) => {
        extern "C" {
            $(fn $call(
                data: *const u8,
                data_len: usize,
                $($setting: $type,)*
                numbers: *mut u32,
                numbers_len: usize,
                kinds: *mut u8,
                kinds_len: usize,
                points: *mut usize,
                frames: *mut usize,
            ) -> u8;)*
        }
    };
}

// Floats and their patterns have one size, so one type stands for both.
declare! {
    lidar_read_kitti();
    lidar_read_kitti_bits();
    lidar_read_velodyne();
    lidar_read_velodyne_as(savefile: bool);
    lidar_read_ouster(columns: usize, pixels: usize, port: u16, altitudes: *const f32, altitudes_len: usize);
    lidar_read_ouster_as(
        savefile: bool,
        columns: usize,
        pixels: usize,
        port: u16,
        altitudes: *const f32,
        altitudes_len: usize
    );
    lidar_read_lvx();
    lidar_read_lvx_bits();
    lidar_read_lvx2();
    lidar_read_lvx2_bits();
}

type Cloud = Result<PointCloud<Point3f>>;

/// Our reader: fills both slices, and gives back the number and the points.
type Ours = Box<dyn Fn(&[u8], &mut [u32], &mut [u8]) -> (u8, usize)>;

/// The Rust's.
type Rust = Box<dyn Fn(&[u8]) -> Cloud>;

/// The Rust's, in two parts: what is made ready before the time counts, and the rest.
type Kept = Box<dyn for<'a> Fn(&'a [u8]) -> Box<dyn Fn() -> Cloud + 'a>>;

struct Reader {
    name: String,
    made: Box<dyn Fn(usize) -> Vec<u8>>,
    ours: Ours,
    /// By pattern; of captures, the savefile reading, on the same capture with the other magic.
    second: Ours,
    of_second: fn(&[u8]) -> Vec<u8>,
    kept: Kept,
    polar: Rust,
    sines: Rust,
}

macro_rules! ours {
    ($call:ident $(, $setting:expr)*) => {
        Box::new(move |data: &[u8], numbers: &mut [u32], kinds: &mut [u8]| {
            let (mut points, mut frames) = (0, 0);
            // SAFETY: each pointer and length come from one slice, the others from locals.
            let number = unsafe {
                $call(
                    data.as_ptr(),
                    data.len(),
                    $($setting,)*
                    numbers.as_mut_ptr(),
                    numbers.len(),
                    kinds.as_mut_ptr(),
                    kinds.len(),
                    &mut points,
                    &mut frames,
                )
            };
            (number, points)
        })
    };
}

fn readers() -> Vec<Reader> {
    let mut readers = vec![Reader {
        name: "KITTI".to_string(),
        made: Box::new(|size| files::kitti(&mut Random(1), size)),
        ours: ours!(lidar_read_kitti),
        second: ours!(lidar_read_kitti_bits),
        of_second: <[u8]>::to_vec,
        kept: Box::new(|data| Box::new(|| kept::VelodyneKittiBinReader::read_bytes(data))),
        polar: Box::new(polar::VelodyneKittiBinReader::read_bytes),
        sines: Box::new(sines::VelodyneKittiBinReader::read_bytes),
    }];
    for (name, model) in [("VLP-16", 0x22), ("HDL-32E", 0x28), ("VLP-32C", 0x35)] {
        readers.push(velodyne(name, model));
    }
    readers.push(ouster(64));
    readers.push(ouster(128));
    for (data_type, point) in [(1, 14), (2, 10), (3, 14)] {
        readers.push(Reader {
            name: format!("LVX, type {data_type}"),
            made: Box::new(move |size| files::lvx(&mut Random(1), size, data_type, point)),
            ours: ours!(lidar_read_lvx),
            second: ours!(lidar_read_lvx_bits),
            of_second: <[u8]>::to_vec,
            kept: Box::new(|data| Box::new(|| kept::LivoxLvxReader::read_bytes(data))),
            polar: Box::new(polar::LivoxLvxReader::read_bytes),
            sines: Box::new(sines::LivoxLvxReader::read_bytes),
        });
    }
    for (data_type, point) in [(0, 8), (1, 14), (2, 10)] {
        readers.push(Reader {
            name: format!("LVX2, type {data_type}"),
            made: Box::new(move |size| files::lvx2(&mut Random(1), size, data_type, point)),
            ours: ours!(lidar_read_lvx2),
            second: ours!(lidar_read_lvx2_bits),
            of_second: <[u8]>::to_vec,
            kept: Box::new(|data| Box::new(|| kept::LivoxLvx2Reader::read_bytes(data))),
            polar: Box::new(polar::LivoxLvx2Reader::read_bytes),
            sines: Box::new(sines::LivoxLvx2Reader::read_bytes),
        });
    }
    readers
}

fn velodyne(name: &str, model: u8) -> Reader {
    Reader {
        name: format!("Velodyne, {name}"),
        made: Box::new(move |size| {
            let mut random = Random(1);
            files::capture(size, 2368, |number| {
                files::velodyne_packet(&mut random, number, model)
            })
        }),
        ours: ours!(lidar_read_velodyne),
        second: ours!(lidar_read_velodyne_as, true),
        of_second: files::as_savefile,
        kept: Box::new(|data| {
            let payloads = kept::payloads_of(data, 2368).expect("a good capture");
            Box::new(move || kept::VelodynePcapReader::read_payloads(&payloads))
        }),
        polar: Box::new(|data| {
            polar::VelodynePcapReader::read_payloads(&polar::payloads_of(data, 2368)?)
        }),
        sines: Box::new(|data| {
            sines::VelodynePcapReader::read_payloads(&sines::payloads_of(data, 2368)?)
        }),
    }
}

fn ouster(beams: usize) -> Reader {
    macro_rules! settings {
        ($lidar:ident) => {
            match beams {
                64 => $lidar::OusterPcapReader::os1_64(),
                _ => $lidar::OusterPcapReader::os_128(),
            }
        };
    }
    let altitudes = settings!(polar).beam_altitudes;
    let for_second = altitudes.clone();
    let (without, with) = (settings!(polar), settings!(sines));
    Reader {
        name: format!("Ouster, {}", if beams == 64 { "OS1-64" } else { "OS-128" }),
        made: Box::new(move |size| {
            let mut random = Random(1);
            files::capture(size, 7502, |number| {
                files::ouster_packet(&mut random, number, beams)
            })
        }),
        ours: ours!(
            lidar_read_ouster,
            16,
            beams,
            7502,
            altitudes.as_ptr(),
            altitudes.len()
        ),
        second: ours!(
            lidar_read_ouster_as,
            true,
            16,
            beams,
            7502,
            for_second.as_ptr(),
            for_second.len()
        ),
        of_second: files::as_savefile,
        kept: Box::new(move |data| {
            let (settings, payloads) = (settings!(kept), kept::payloads_of(data, 7502));
            let payloads = payloads.expect("a good capture");
            Box::new(move || settings.read_payloads(&payloads))
        }),
        polar: Box::new(move |data| without.read_payloads(&polar::payloads_of(data, 7502)?)),
        sines: Box::new(move |data| with.read_payloads(&sines::payloads_of(data, 7502)?)),
    }
}

/// The two slices that are lent to our calls, for as many points as a file has.
struct Lent(RefCell<(Vec<u32>, Vec<u8>)>);

impl Lent {
    fn new(points: usize) -> Self {
        Self(RefCell::new((vec![1; 3 * points], vec![1; points])))
    }

    fn read(&self, ours: &Ours, data: &[u8]) -> usize {
        let (numbers, kinds) = &mut *self.0.borrow_mut();
        let (number, points) = ours(data, numbers, kinds);
        assert_eq!(number, 0, "refused");
        points
    }
}

pub fn bench(rounds: usize) {
    println!(
        "| file | 10^6 points | ours, MB/s | 10^6 points/s | second form, MB/s | the Rust without sines, \
         memory kept | without sines | as it is |"
    );
    println!("|---|---:|---:|---:|---:|---:|---:|---:|");
    for reader in readers() {
        row(rounds, &reader);
    }
    println!();
    println!(
        "The second form is the one by pattern, and of captures the savefile reading. Of the Rust: MB/s, \
         and how many times as long as ours it takes."
    );
}

fn row(rounds: usize, reader: &Reader) {
    let data = &(reader.made)(SIZE);
    let second_data = &(reader.of_second)(data);
    let read = |rust: &Rust| rust(data).expect("a good file").points;
    // What ours has to tell, bit for bit. A NaN may be another one.
    let want: Vec<f32> = read(&reader.polar)
        .iter()
        .flat_map(|p| [p.x, p.y, p.z])
        .collect();
    let count = want.len() / 3;
    let lent = Lent::new(count);
    for (ours, data) in [(&reader.ours, data), (&reader.second, second_data)] {
        assert_eq!(lent.read(ours, data), count, "{}: points", reader.name);
        let same = |(bits, x): (&u32, &f32)| {
            *bits == x.to_bits() || f32::from_bits(*bits).is_nan() && x.is_nan()
        };
        assert!(
            lent.0.borrow().0.iter().zip(&want).all(same),
            "{}: a number differs",
            reader.name
        );
    }
    drop(want);

    let ready = (reader.kept)(data);
    let again = || {
        let points = ready().expect("a good file").points;
        let count = points.len();
        give_back(points);
        count
    };
    let copied = RefCell::new(vec![1u8; data.len()]);
    let mut ways: Vec<Way<usize>> = vec![
        ("ours", Box::new(|| lent.read(&reader.ours, data))),
        ("second", Box::new(|| lent.read(&reader.second, second_data))),
        ("kept", Box::new(again)),
        ("no sines", Box::new(|| read(&reader.polar).len())),
        ("sines", Box::new(|| read(&reader.sines).len())),
    ];
    if reader.name == "KITTI" {
        ways.push((
            "copy",
            Box::new(|| {
                copied.borrow_mut().copy_from_slice(data);
                count
            }),
        ));
    }
    let times = medians(rounds, &count, &ways);
    let speed = |time: f64| data.len() as f64 / 1e6 / time;
    let beside = |time: f64| format!("{:.0}, {:.1} ×", speed(time), time / times[0]);
    println!(
        "| {} | {:.2} | {:.0} | {:.0} | {:.0} | {} | {} | {} |",
        reader.name,
        count as f64 / 1e6,
        speed(times[0]),
        count as f64 / 1e6 / times[0],
        speed(times[1]),
        beside(times[2]),
        beside(times[3]),
        beside(times[4])
    );
    if let Some(copy) = times.get(5) {
        println!(
            "| a plain copy of that file's bytes | | {:.0}, {:.2} × | | | | | |",
            speed(*copy),
            copy / times[0]
        );
    }
}

const SIZES: [usize; 4] = [1_000_000, 4_000_000, 16_000_000, SIZE];

/// How cost grows: our calls alone, on files of several sizes.
pub fn growth(rounds: usize) {
    println!("| picoseconds a byte | 1 MB | 4 MB | 16 MB | 64 MB |");
    println!("|---|---:|---:|---:|---:|");
    for reader in readers() {
        let captures = reader.name.starts_with("Velodyne") || reader.name.starts_with("Ouster");
        let second = if captures { "savefile" } else { "by pattern" };
        for (form, ours, of) in [
            ("", &reader.ours, <[u8]>::to_vec as fn(&[u8]) -> Vec<u8>),
            (second, &reader.second, reader.of_second),
        ] {
            let name = [reader.name.as_str(), form].join(if form.is_empty() { "" } else { ", " });
            grow(&name, |size| {
                let data = of(&(reader.made)(size));
                let points = match ours(&data, &mut [], &mut []) {
                    (10, points) => points,
                    (number, _) => panic!("{name}: {number}, where 10 tells the points"),
                };
                let lent = Lent::new(points);
                let ways: [Way<usize>; 1] = [("ours", Box::new(|| lent.read(ours, &data)))];
                medians(rounds_of(rounds, size), &points, &ways)[0] / data.len() as f64
            });
        }
    }
    for savefile in [false, true] {
        let reading = if savefile { "savefile" } else { "usual" };
        grow(&format!("captures by steps, {reading}"), |size| {
            let mut data = captures::made(size, 1206);
            if savefile {
                data = files::as_savefile(&data);
            }
            let seen = captures::ours(&data, savefile);
            let ways: [Way<captures::Seen>; 1] =
                [("steps", Box::new(|| captures::ours(&data, savefile)))];
            medians(rounds_of(rounds, size), &seen, &ways)[0] / data.len() as f64
        });
    }
}

/// More rounds of small files, whose times are short.
fn rounds_of(rounds: usize, size: usize) -> usize {
    rounds * (SIZE / size).min(16)
}

fn grow(name: &str, of_a_byte: impl Fn(usize) -> f64) {
    let cells = SIZES.map(|size| format!("{:.0}", of_a_byte(size) * 1e12));
    println!("| {name} | {} |", cells.join(" | "));
}
