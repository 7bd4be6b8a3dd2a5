//! The kept lists of cases: holds what the programs `cases` and `point_cases` are to write to the
//! oracle, and makes more lines for the lists. `crates/cases/src/main.rt` says what a line is.

use crate::capture_files;
use crate::livox_files::{self, Form};
use crate::original::{self, Original};
use crate::ours::{Belt, OusterSettings};
use crate::random::Random;
use crate::reading::{Expected, CARTESIAN};
use crate::stored::StoredReading;
use crate::tally::Tally;
use crate::words::{self, Reading};
use crate::{captures, kitti, ours, ouster, placing, velodyne};

/// A list that a program runs, what it is to write, and the name under which more lines are made.
pub struct List {
    stdin: &'static str,
    stdout: &'static str,
    on_points: bool,
    pub more: &'static str,
}

/// Of the calls that read a whole file, and of those on single points.
pub const LISTS: [List; 2] = [
    List {
        stdin: "crates/cases/stdin",
        stdout: "crates/cases/stdout",
        on_points: false,
        more: "more-cases",
    },
    List {
        stdin: "crates/point_cases/stdin",
        stdout: "crates/point_cases/stdout",
        on_points: true,
        more: "more-point-cases",
    },
];

/// The bytes of a line that is made, at most, so that the list stays short.
const LONGEST: usize = 420;

/// The same for packets.
const LONGEST_PACKETS: usize = 4000;

/// The first cases of a generator are for boundaries; this one is any.
const ANY_CASE: u64 = u64::MAX;

/// What the calls find in slices that they leave alone, the numbers by value or by pattern.
const KIND_BEFORE: u8 = 9;
const VALUE_BEFORE: f32 = 7.0;
const PATTERN_BEFORE: u32 = 7;

/// In the place of a reading: the call that names none, which gets the Rust's.
const NOT_NAMED: u64 = 2;

/// A line of the list.
struct Case<'a> {
    name: &'a str,
    call: &'a str,
    numbers: Vec<u64>,
    data: Vec<u8>,
}

pub fn compare(original: &Original) -> Tally {
    let mut tally = Tally::new("the kept lists", 0).of("cases");
    for list in &LISTS {
        compare_list(list, original, &mut tally);
    }
    tally
}

fn compare_list(list: &List, original: &Original, tally: &mut Tally) {
    let lines = std::fs::read_to_string(list.stdin).expect("the list of cases could not be read");
    let kept = std::fs::read_to_string(list.stdout).expect("the kept answers could not be read");
    for (k, (line, kept)) in std::iter::zip(lines.lines(), kept.lines()).enumerate() {
        tally.file(k as u64, &[], |_| {
            let case = parse(line).ok_or_else(|| format!("no case: {line}"))?;
            let told = kept
                .strip_prefix(case.name)
                .and_then(|rest| rest.strip_prefix(": "))
                .ok_or_else(|| format!("no answer to {}: {kept}", case.name))?;
            case.hold(original, told)
                .map_err(|what| format!("{}: {what}", case.name))
        });
    }
    let what = match (lines.lines().count(), kept.lines().count()) {
        (0, _) => format!("{} has no case", list.stdin),
        (cases, answers) if cases != answers => {
            format!("{} is not as long as {}", list.stdout, list.stdin)
        }
        _ => return,
    };
    tally.beside("the lists", Err(what));
}

/// Lines for a list, on standard output.
pub fn print_more(list: &List, seed: u64, of_each: u64) {
    for case in 0..of_each {
        let mut random = Random::of_case(seed, case);
        let room = random.within(0, 8);
        let reading = random.pick(&[Reading::Rust, Reading::Savefile]);
        let read = u8::from(reading == Reading::Savefile);
        let kitti = short(&mut random, LONGEST, |random| kitti::file(random, ANY_CASE));
        list.print(case, "kitti", &kitti, &format!("{room}"));
        list.print(case, "kitti-bits", &kitti, &format!("{room}"));
        let capture = short(&mut random, LONGEST, |random| {
            capture_files::file(random, ANY_CASE, reading).data
        });
        let (port, rank) = (random.pick(&[0, 0, 2368]), random.within(0, 2));
        list.print(case, "payload", &capture, &format!("{read} {port} {rank}"));
        for (form, name) in [(Form::Lvx, "lvx"), (Form::Lvx2, "lvx2")] {
            let file = short(&mut random, LONGEST, |random| {
                livox_files::file(random, ANY_CASE, form)
            });
            list.print(case, name, &file, &format!("{room}"));
            let rank = random.within(0, 3);
            list.print(case, &format!("{name}-rank"), &file, &format!("{rank}"));
            let belt = placing::belt(&mut random);
            let numbers = format!("{rank} {} {} {}", belt.count, belt.datum, belt.pulse_length);
            list.print(case, &format!("place-{name}"), &file, &numbers);
        }
        if case % 10 == 0 {
            print_packets(list, case, &mut random, room, reading);
        }
    }
}

/// Packets are long, so there are few of them, most of them with few points.
fn print_packets(list: &List, case: u64, random: &mut Random, room: usize, reading: Reading) {
    let read = u8::from(reading == Reading::Savefile);
    let mut packet = velodyne::packet(random);
    for (k, byte) in packet.iter_mut().enumerate().take(1200) {
        if k % 100 >= 4 && random.below(50) > 0 {
            *byte = 0;
        }
    }
    list.print(case, "packet", &packet, &format!("{room}"));
    let capture = capture_files::of_packets(random, reading, 2368, |_| packet.clone());
    if capture.len() <= LONGEST_PACKETS {
        list.print(case, "velodyne", &capture, &format!("{room} {read}"));
    }
    let settings = OusterSettings {
        columns_per_packet: random.within(0, 2),
        pixels_per_column: random.pick(&[16, 16, 32, 17]),
        lidar_port: random.pick(&[0, 7502]),
        beam_altitudes: Vec::new(),
    };
    let capture = short(random, LONGEST_PACKETS, |random| {
        capture_files::of_packets(random, reading, 7502, |random| {
            ouster::packet(random, &settings)
        })
    });
    let numbers = format!(
        "{room} {read} {} {} {} {}",
        settings.columns_per_packet,
        settings.pixels_per_column,
        settings.lidar_port,
        random.pick(&[16, 32, 129]),
    );
    list.print(case, "ouster", &capture, &numbers);
}

/// A file that is short enough, or else the beginning of one.
fn short(random: &mut Random, longest: usize, file: impl Fn(&mut Random) -> Vec<u8>) -> Vec<u8> {
    let mut data = file(random);
    for _ in 0..100 {
        if data.len() <= longest {
            break;
        }
        data = file(random);
    }
    data.truncate(longest);
    data
}

impl List {
    /// The line of a case, if it is for this list.
    fn print(&self, case: u64, call: &str, data: &[u8], numbers: &str) {
        let on_points = call.ends_with("-rank") || call.starts_with("place-");
        if on_points == self.on_points {
            println!(
                "made {case} {call}: {call} {} {numbers}{}",
                data.len(),
                put(data)
            );
        }
    }
}

/// The bytes as words, without longer runs of zeros.
fn put(data: &[u8]) -> String {
    let mut words = String::new();
    let mut at = 0;
    while at < data.len() {
        let zeros = data[at..].iter().take_while(|&&byte| byte == 0).count();
        if zeros >= 4 || at + zeros == data.len() || words.is_empty() {
            at += zeros;
            if at < data.len() {
                words += &format!(" @{at}={:02x}", data[at]);
                at += 1;
            }
        } else {
            words += &format!("{:02x}", data[at]);
            at += 1;
        }
    }
    words
}

fn parse(line: &str) -> Option<Case<'_>> {
    let (name, rest) = line.split_once(": ")?;
    let mut words = rest.split(' ');
    let call = words.next()?;
    let mut numbers = Vec::new();
    let mut data = Vec::new();
    for word in words {
        if let Some(word) = word.strip_prefix('@') {
            let (at, hex) = word.split_once('=')?;
            let at: usize = at.parse().ok()?;
            for k in 0..hex.len() / 2 {
                *data.get_mut(at + k)? = u8::from_str_radix(&hex[2 * k..2 * k + 2], 16).ok()?;
            }
        } else {
            let number = word.parse().ok()?;
            if numbers.is_empty() {
                data = vec![0; number as usize];
            }
            numbers.push(number);
        }
    }
    Some(Case {
        name,
        call,
        numbers,
        data,
    })
}

impl Case<'_> {
    fn number(&self, k: usize) -> u64 {
        self.numbers.get(k).copied().unwrap_or(0)
    }

    /// Holds what the program is to write to what the oracle tells.
    fn hold(&self, original: &Original, told: &str) -> Result<(), String> {
        let data = &self.data[..];
        match self.call {
            "place-lvx" => self.hold_in_file(original, Form::Lvx, told),
            "place-lvx2" => self.hold_in_file(original, Form::Lvx2, told),
            "millimetres" => {
                let x = i32::from_le_bytes(data.try_into().map_err(|_| "no i32")?);
                placing::hold_moved(placed(told)?, x as i128 * 1_000, self.belt(1))
            }
            "ten-millimetres" => {
                let x = i16::from_le_bytes(data.try_into().map_err(|_| "no i16")?);
                placing::hold_moved(placed(told)?, x as i128 * 10_000, self.belt(1))
            }
            "spherical" | "float" => placing::hold_refused(placed(told)?, 11),
            _ => {
                let want = self.line(original)?;
                if told == want {
                    Ok(())
                } else {
                    Err(format!("{told} is kept, and the oracle tells {want}"))
                }
            }
        }
    }

    /// The whole line of a reader, of a payload or of a stored reading.
    fn line(&self, original: &Original) -> Result<String, String> {
        let data = &self.data[..];
        let cartesian = |read: original::Patterns| match read {
            Err(number) => Expected::Refused(number),
            Ok(bits) => Expected::Read {
                kinds: vec![CARTESIAN; bits.len() / 3],
                bits,
                frames: 0,
            },
        };
        let livox = |form| Expected::livox(original.read_livox(form, data));
        Ok(match self.call {
            "kitti" => self.read(cartesian(original.read_kitti(data)), true),
            "kitti-bits" => self.read(cartesian(original.read_kitti(data)), false),
            "lvx" => self.read(livox(Form::Lvx), false),
            "lvx2" => self.read(livox(Form::Lvx2), false),
            "packet" => {
                let read = Ok(original::decode_velodyne_packet(data));
                self.read(Expected::polar(read), true)
            }
            "velodyne" => {
                let read = match self.reading(2) {
                    Reading::Rust => original.read_velodyne(data),
                    Reading::Savefile => by_words(data, 2368, original::read_velodyne_payloads),
                };
                self.read(Expected::polar(read), true)
            }
            "ouster" => self.read(self.ouster(original, self.settings()), true),
            "os1-64" => self.read(self.ouster(original, original::os1_64()), true),
            "os-128" => self.read(self.ouster(original, original::os_128()), true),
            "payload" => self.payload(original)?,
            "lvx-rank" => self.rank(original, Form::Lvx),
            "lvx2-rank" => self.rank(original, Form::Lvx2),
            call => return Err(format!("no such call: {call}")),
        })
    }

    fn reading(&self, k: usize) -> Reading {
        match self.number(k) {
            0 | NOT_NAMED => Reading::Rust,
            _ => Reading::Savefile,
        }
    }

    fn settings(&self) -> OusterSettings {
        OusterSettings {
            columns_per_packet: self.number(3) as usize,
            pixels_per_column: self.number(4) as usize,
            lidar_port: self.number(5) as u16,
            beam_altitudes: (0..self.number(6).min(129))
                .map(|k| k as f32 / 2.0)
                .collect(),
        }
    }

    fn ouster(&self, original: &Original, settings: OusterSettings) -> Expected {
        if words::bad_settings(&settings) {
            return Expected::Refused(2);
        }
        let read = |payloads: &[Vec<u8>]| original::read_ouster_payloads(&settings, payloads);
        Expected::polar(match self.reading(2) {
            Reading::Rust => original.read_ouster(&settings, &self.data),
            Reading::Savefile => by_words(&self.data, settings.lidar_port, read),
        })
    }

    fn read(&self, expected: Expected, by_value: bool) -> String {
        let room = self.number(1) as usize;
        let (number, points, frames, bits, kinds) = match expected {
            Expected::Refused(number) => (number, 0, 0, vec![], vec![]),
            Expected::Read { kinds, .. } if room < kinds.len() => {
                (10, kinds.len(), 0, vec![], vec![])
            }
            Expected::Read {
                bits,
                kinds,
                frames,
            } => (0, kinds.len(), frames, bits, kinds),
        };
        let mut line = format!("{number} {points} {frames} kinds");
        for k in 0..room {
            line += &format!(" {}", kinds.get(k).unwrap_or(&KIND_BEFORE));
        }
        let before = match by_value {
            true => VALUE_BEFORE.to_bits(),
            false => PATTERN_BEFORE,
        };
        for k in 0..3 * room {
            let number = bits.get(k).copied().unwrap_or(before);
            line += if k % 3 == 0 { " |" } else { "" };
            line += &match by_value && f32::from_bits(number).is_nan() {
                true => " nan".to_string(),
                false => format!(" {number:08x}"),
            };
        }
        line
    }

    fn payload(&self, original: &Original) -> Result<String, String> {
        let (port, rank) = (self.number(2) as u16, self.number(3) as usize);
        let payloads = match self.reading(1) {
            Reading::Rust => {
                let told = original.payloads(&self.data, &[port]).remove(0);
                captures::with_times(&self.data, port, told.as_deref().unwrap_or(&[]))?
            }
            Reading::Savefile => words::payloads(&self.data, Reading::Savefile, port, 0),
        };
        let ours::Told {
            start,
            len,
            seconds,
            fraction,
            unit,
        } = captures::told(payloads.get(rank));
        let hex: String = self.data[start..start + len]
            .iter()
            .map(|byte| format!("{byte:02x}"))
            .collect();
        Ok(format!("{start} {len} {seconds} {fraction} {unit} {hex}"))
    }

    fn belt(&self, first: usize) -> Belt {
        Belt {
            count: self.number(first) as u32,
            datum: self.number(first + 1) as u32,
            pulse_length: self.number(first + 2) as u32,
        }
    }

    /// The stored reading of the case's rank, by the original, or a number.
    fn stored_reading(&self, original: &Original, form: Form) -> Result<StoredReading, u8> {
        let rank = self.number(1) as usize;
        original.read_livox(form, &self.data)?.stored_reading(rank)
    }

    fn rank(&self, original: &Original, form: Form) -> String {
        match self.stored_reading(original, form) {
            Ok(reading) => reading.words(),
            Err(number) => number.to_string(),
        }
    }

    fn hold_in_file(&self, original: &Original, form: Form, told: &str) -> Result<(), String> {
        let reading = self.stored_reading(original, form);
        placing::hold_reading(placed(told)?, reading, self.belt(2))
    }
}

fn by_words(
    data: &[u8],
    port: u16,
    read: impl Fn(&[Vec<u8>]) -> original::Patterns,
) -> original::Patterns {
    match words::number(data) {
        0 => read(&words::copies(data, Reading::Savefile, port)),
        number => Err(number),
    }
}

/// A placing as the program writes it.
fn placed(told: &str) -> Result<ours::Placed, String> {
    let (number, bits) = match told.split_once(' ') {
        None => (told.parse().ok(), Some(ours::NO_DISTANCE)),
        Some((number, word)) => (number.parse().ok(), u32::from_str_radix(word, 16).ok()),
    };
    let placed = number.zip(bits);
    // Other words for the same placing are wrong, too.
    placed
        .filter(|&(number, bits)| match number {
            0 => told == format!("0 {bits:08x}"),
            _ => told == number.to_string(),
        })
        .ok_or_else(|| format!("no placing: {told}"))
}
