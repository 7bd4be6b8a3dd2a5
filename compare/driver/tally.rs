//! Counts what was compared, tells each difference, and says now and then how far it is.

use std::time::{Duration, Instant};

/// Differences beyond these are counted and not told.
const TOLD: u64 = 3;

/// A file that differs is told as a smaller one that differs too, made in at most so many tries.
const TRIES: u32 = 20_000;

/// A file that is still longer is not printed.
const PRINTED: usize = 4096;

/// The time between two lines of progress.
const PROGRESS: Duration = Duration::from_secs(5);

pub struct Tally {
    reader: &'static str,
    things: &'static str,
    seed: u64,
    files: u64,
    differences: u64,
    told: Instant,
}

impl Tally {
    pub fn new(reader: &'static str, seed: u64) -> Self {
        Tally {
            reader,
            things: "files",
            seed,
            files: 0,
            differences: 0,
            told: Instant::now(),
        }
    }

    /// For what is compared without a file.
    pub fn of(self, things: &'static str) -> Self {
        Tally { things, ..self }
    }

    /// Compares one file. `compare` is called again on smaller files where this one differs.
    pub fn file(
        &mut self,
        case: u64,
        data: &[u8],
        mut compare: impl FnMut(&[u8]) -> Result<(), String>,
    ) {
        self.files += 1;
        self.tell_progress();
        let Err(what) = compare(data) else { return };
        self.differences += 1;
        if self.differences > TOLD {
            return;
        }
        let (small, what) = shrunk(data, what, compare);
        eprintln!("{}: seed {}, case {case}: {what}", self.reader, self.seed);
        eprintln!(
            "  data of {} bytes, the case has {}: {}",
            small.len(),
            data.len(),
            hex(&small)
        );
    }

    fn tell_progress(&mut self) {
        // The clock is asked once in a while.
        if self.files % 64 == 0 && self.told.elapsed() >= PROGRESS {
            self.told = Instant::now();
            eprintln!("{}: {} {} so far", self.reader, self.files, self.things);
        }
    }

    /// Counts a difference that was found without the original.
    pub fn beside(&mut self, what: &str, found: Result<(), String>) {
        if let Err(difference) = found {
            self.differences += 1;
            eprintln!("{}: {what}: {difference}", self.reader);
        }
    }

    /// Prints the result line. True where nothing differs, of something.
    pub fn finish(self) -> bool {
        let Tally {
            reader,
            things,
            files,
            differences,
            ..
        } = self;
        println!("{reader}: {files} {things} compared, {differences} differences found");
        if files == 0 {
            eprintln!("{reader}: nothing was compared, which is a failure");
        }
        files > 0 && differences == 0
    }
}

/// A small file that differs, and what differs in it: parts are left out, and then bytes made 0, as
/// long as a difference stays.
fn shrunk(
    data: &[u8],
    what: String,
    mut compare: impl FnMut(&[u8]) -> Result<(), String>,
) -> (Vec<u8>, String) {
    let mut small = (data.to_vec(), what);
    let mut tries = 0;
    let mut differs = |smaller: Vec<u8>, small: &mut (Vec<u8>, String)| {
        tries += 1;
        if tries > TRIES {
            return false;
        }
        match compare(&smaller) {
            Ok(()) => false,
            Err(what) => {
                *small = (smaller, what);
                true
            }
        }
    };
    let mut part = data.len();
    while part > 0 {
        // From the end, so that what leads to a place stays as long as the place matters.
        let mut end = small.0.len();
        while end > 0 {
            let start = end.saturating_sub(part);
            let without = [&small.0[..start], &small.0[end..]].concat();
            differs(without, &mut small);
            end = start.min(small.0.len());
        }
        part /= 2;
    }
    for at in 0..small.0.len() {
        if small.0[at] != 0 {
            let mut zeroed = small.0.clone();
            zeroed[at] = 0;
            differs(zeroed, &mut small);
        }
    }
    small
}

fn hex(data: &[u8]) -> String {
    if data.len() > PRINTED {
        return "too long to print".to_string();
    }
    data.iter().map(|byte| format!("{byte:02x}")).collect()
}
