//! Gives files to the original lidar.rs and to the facade, and compares what each makes of them.
//!
//! Arguments: a directory for the files, the lister, the seed, the number of files for each thing
//! compared, at least 1, and the names of what to compare, which is everything where none is given.

mod capture_files;
mod captures;
mod cases;
mod kitti;
mod lent;
mod lister;
mod lister_files;
mod livox;
mod livox_files;
mod long;
mod original;
mod ours;
mod ouster;
mod placing;
mod random;
mod reading;
mod stored;
mod tally;
mod velodyne;
mod words;

use lister::Lister;
use livox_files::Form;
use original::Original;
use std::process::ExitCode;
use tally::Tally;

/// What runs beside the static library.
struct Programs {
    original: Original,
    lister: Lister,
}

/// What is compared: its name, and the comparison.
type Comparison = (&'static str, fn(&Programs, u64, u64) -> Tally);

const COMPARISONS: [Comparison; 15] = [
    ("kitti", |run, seed, files| {
        kitti::compare(&run.original, seed, files)
    }),
    ("captures", |run, seed, files| {
        captures::compare(&run.original, seed, files)
    }),
    ("captures-savefile", |_, seed, files| {
        captures::compare_savefile(seed, files)
    }),
    ("velodyne", |run, seed, files| {
        velodyne::compare(&run.original, seed, files)
    }),
    ("velodyne-savefile", |_, seed, files| {
        velodyne::compare_savefile(seed, files)
    }),
    ("velodyne-packets", |_, seed, files| {
        velodyne::compare_packets(seed, files)
    }),
    ("ouster", |run, seed, files| {
        ouster::compare(&run.original, seed, files)
    }),
    ("ouster-savefile", |_, seed, files| {
        ouster::compare_savefile(seed, files)
    }),
    ("lvx", |run, seed, files| {
        livox::compare(&run.original, Form::Lvx, seed, files)
    }),
    ("lvx2", |run, seed, files| {
        livox::compare(&run.original, Form::Lvx2, seed, files)
    }),
    ("lvx-ranks", |run, seed, files| {
        livox::compare_stored(&run.original, Form::Lvx, seed, files)
    }),
    ("lvx2-ranks", |run, seed, files| {
        livox::compare_stored(&run.original, Form::Lvx2, seed, files)
    }),
    // A program is started for each file, which is slow.
    ("lister", |run, seed, files| {
        lister::compare(&run.original, &run.lister, seed, files.div_ceil(10))
    }),
    // The same lists each time, whatever the seed.
    ("cases", |run, _, _| cases::compare(&run.original)),
    // A placing takes no file and is quick.
    ("placing", |_, seed, files| {
        placing::compare(seed, files.saturating_mul(10))
    }),
];

fn main() -> ExitCode {
    let arguments: Vec<String> = std::env::args().skip(1).collect();
    let [directory, lister, seed, files, named @ ..] = &arguments[..] else {
        return usage();
    };
    let (Ok(seed), Ok(files @ 1..)) = (seed.parse(), files.parse()) else {
        return usage();
    };
    for list in &cases::LISTS {
        if named == [list.more] {
            cases::print_more(list, seed, files);
            return ExitCode::SUCCESS;
        }
    }
    if named
        .iter()
        .any(|name| COMPARISONS.iter().all(|(known, _)| known != name))
    {
        return usage();
    }
    let programs = Programs {
        original: Original::new(directory.as_ref()),
        lister: Lister::new(lister.as_ref(), directory.as_ref()),
    };
    // All of them run, whatever differs.
    let mut same = true;
    for (name, compare) in COMPARISONS {
        if named.is_empty() || named.iter().any(|one| one == name) {
            same &= compare(&programs, seed, files).finish();
        }
    }
    if same {
        ExitCode::SUCCESS
    } else {
        ExitCode::FAILURE
    }
}

fn usage() -> ExitCode {
    eprintln!("the seed and the number of files are whole numbers below 2^64, the second not 0; then, if not all is to be compared, any of:");
    for (name, _) in COMPARISONS {
        eprintln!("  {name}");
    }
    ExitCode::from(2)
}
