//! Files for the lister: those at an edge of what it takes, and any others.

use crate::lister::{BYTES, POINTS};
use crate::livox_files::{self, header, package_header, package_of, Form, FRAME_HEADER};
use crate::random::Random;

/// A type that neither form has.
const UNKNOWN: u8 = 9;

/// How many first bytes choose the form.
const OPENING: usize = 10;

/// Where both forms have what makes a file one of theirs, but for the count of devices.
const IDENTITY: usize = 24;

/// Any file of either form.
pub fn any(random: &mut Random) -> Vec<u8> {
    let form = random.pick(&[Form::Lvx, Form::Lvx2]);
    match random.below(40) {
        0 => {
            let length = random.below(200);
            noise(random, length)
        }
        1 => {
            let mut data = livox_files::file(random, livox_files::ANY, form);
            data.drain(..random.below(data.len().min(OPENING) + 1));
            data
        }
        2 => opened_as_the_other(random, form),
        // A quarter of them are cut or have many devices.
        _ => {
            let case = random.next() % (4 * livox_files::ANY);
            livox_files::file(random, case, form)
        }
    }
}

/// The files at an edge, of both forms by turns.
pub fn edges(seed: u64) -> Vec<Vec<u8>> {
    let [lvx, lvx2] = [Form::Lvx, Form::Lvx2].map(|form| {
        let mut random = Random::of_case(seed, u64::MAX);
        let mut files = lengths(&mut random, form);
        files.extend(counts(&mut random, form));
        files.extend(openings(&mut random, form));
        files
    });
    lvx.into_iter()
        .zip(lvx2)
        .flat_map(|(a, b)| [a, b])
        .collect()
}

/// Lengths around the greatest. Where a file ends in a point, a byte that is not read costs that point.
fn lengths(random: &mut Random, form: Form) -> Vec<Vec<u8>> {
    let mut files = vec![Vec::new()];
    for length in [BYTES - 1, BYTES, BYTES + 1] {
        files.push(ending_in_a_point(random, form, length));
        files.push(noise(random, length));
    }
    for more in [1, BYTES, BYTES + 1, 15 * BYTES] {
        let mut data = ending_in_a_point(random, form, BYTES);
        data.extend(noise(random, more));
        files.push(data);
    }
    files
}

/// Points and frames whose numbers have one digit or more, and points around the greatest number.
fn counts(random: &mut Random, form: Form) -> Vec<Vec<u8>> {
    let types = form.layout().types;
    let mut files = Vec::new();
    let numbers = [0, 1, 9, 10, 11, 99, 100, 999, 1000];
    for points in numbers.into_iter().chain(POINTS - 1..=POINTS + 1) {
        for one in types {
            files.push(with_points(random, form, points, &[one]));
        }
        files.push(with_points(random, form, points, &types));
    }
    for frames in [1, 9, 10, 99, 100, 999, 1000, 4095, 4096, 4097, 8000] {
        files.push(with_frames(random, form, frames));
    }
    for frames in [2, 10, 100] {
        for length in [1000, 10_000, BYTES] {
            files.push(overlapping(random, form, frames, length));
        }
    }
    files
}

/// First bytes that are cut off, missing, wrong or those of the other form.
fn openings(random: &mut Random, form: Form) -> Vec<Vec<u8>> {
    let types = form.layout().types;
    let mut files = Vec::new();
    for at in 0..=OPENING {
        let whole = with_points(random, form, 5, &types);
        files.push(whole[..at].to_vec());
        files.push(whole[at..].to_vec());
        // Below 28 bytes the refusal tells as which form a file with a wrong mark was read.
        for length in [24, 27, 28, 29, whole.len()] {
            let mut data = whole[..length].to_vec();
            data[at] ^= 1 << random.below(8);
            files.push(data);
        }
        files.push(opened_as_the_other(random, form));
    }
    files
}

/// Unknown bytes, and then three points that end with the file.
fn ending_in_a_point(random: &mut Random, form: Form, length: usize) -> Vec<u8> {
    let layout = form.layout();
    let (data_type, size) = random.pick(&layout.types);
    let mut data = header(random, form, 28, 0);
    data.extend(frame_header(0));
    let passed_over = length - data.len() - 2 * layout.package_header - 3 * size;
    package_of(random, &mut data, form, UNKNOWN, passed_over);
    package_of(random, &mut data, form, data_type, 3 * size);
    data
}

/// So many points of some types, in packages of at most 200 and frames of at most five packages.
fn with_points(random: &mut Random, form: Form, points: usize, types: &[(u8, usize)]) -> Vec<u8> {
    let mut data = header(random, form, 28, 1);
    let base = data.len();
    let mut left = points;
    loop {
        let place = data.len();
        data.extend(frame_header(0));
        for _ in 0..random.within(1, 5) {
            let (data_type, size) = random.pick(types);
            let some = random.within(100, 200).min(left);
            package_of(random, &mut data, form, data_type, some * size);
            left -= some;
        }
        if left == 0 {
            return data;
        }
        let next = frame_header(data.len() - base);
        data[place..place + FRAME_HEADER].copy_from_slice(&next);
    }
}

/// So many frames without packages, as near to each other as their next offsets allow.
fn with_frames(random: &mut Random, form: Form, frames: u64) -> Vec<u8> {
    let mut data = header(random, form, 28, 0);
    data.extend([0; 8]);
    for next in 1..frames {
        data.extend((8 * next).to_le_bytes());
    }
    data.extend([0; 16]);
    data
}

/// Frames of one package each, whose body runs on over the frames after it to the end of the file.
fn overlapping(random: &mut Random, form: Form, frames: usize, length: usize) -> Vec<u8> {
    let layout = form.layout();
    let mut data = header(random, form, 28, 0);
    let base = data.len();
    let frame = FRAME_HEADER + layout.package_header;
    let length = length.max(base + frames * frame);
    for i in 1..=frames {
        data.extend(frame_header(if i < frames { i * frame } else { 0 }));
        let (data_type, _) = random.pick(&layout.types);
        let body = length - data.len() - layout.package_header;
        package_header(random, &mut data, form, data_type, body);
    }
    let rest = length - data.len();
    data.extend(noise(random, rest));
    data
}

/// A file with the first bytes of the other form: those that choose, or all that make it one.
fn opened_as_the_other(random: &mut Random, form: Form) -> Vec<u8> {
    let other = match form {
        Form::Lvx => Form::Lvx2,
        Form::Lvx2 => Form::Lvx,
    };
    let mut data = with_points(random, form, 5, &form.layout().types);
    let opening = random.pick(&[OPENING, IDENTITY]);
    let taken = header(random, other, 28, 0);
    data[..opening].copy_from_slice(&taken[..opening]);
    data
}

fn frame_header(next: usize) -> [u8; FRAME_HEADER] {
    let mut bytes = [0xA5; FRAME_HEADER];
    bytes[8..16].copy_from_slice(&(next as u64).to_le_bytes());
    bytes
}

fn noise(random: &mut Random, length: usize) -> Vec<u8> {
    (0..length).map(|_| random.next() as u8).collect()
}
