//! The lister, which is run as a program, with each file on its standard input.

use crate::lister_files;
use crate::livox_files::Form;
use crate::original::Original;
use crate::random::Random;
use crate::reading::POLAR;
use crate::tally::Tally;
use std::fmt::Write as _;
use std::fs::{self, File};
use std::io::{ErrorKind, Write};
use std::path::{Path, PathBuf};
use std::process::{Command, Stdio};
use std::thread::sleep;
use std::time::Duration;

/// 01-scope.md: the lister reads at most so many bytes, and has room for so many points.
pub const BYTES: usize = 65_536;
pub const POINTS: usize = 4_096;

pub struct Lister {
    program: PathBuf,
    given: PathBuf,
    printed: PathBuf,
}

/// What standard input is. Into a pipe the file is written in parts, with pauses, so that a read of it
/// gives less than was asked for.
#[derive(Clone, Copy)]
enum Input {
    File,
    Pipe,
}

const PARTS: usize = 3;
const PAUSE: Duration = Duration::from_millis(2);

pub fn compare(original: &Original, lister: &Lister, seed: u64, files: u64) -> Tally {
    let mut tally = Tally::new("lister", seed);
    let edges = lister_files::edges(seed);
    for case in 0..files {
        let data = match edges.get(case as usize) {
            Some(edge) => edge.clone(),
            None => lister_files::any(&mut Random::of_case(seed, case)),
        };
        // The pauses take time, so that only long files and some others come both ways.
        let piped = data.len() >= BYTES - 1 || case % 25 == 0;
        let length = data.len();
        tally.file(case, &data, |data| {
            let expected = expected(original, data);
            same(&lister.list(data, Input::File)?, &expected)?;
            // Not so the beginnings of a file that differs.
            if piped && data.len() == length {
                same(&lister.list(data, Input::Pipe)?, &expected)
                    .map_err(|what| format!("from a pipe: {what}"))?;
            }
            Ok(())
        });
    }
    tally
}

/// What 01-scope.md has the lister print.
fn expected(original: &Original, data: &[u8]) -> String {
    if data.len() > BYTES {
        return "too long\n".to_string();
    }
    let form = if data.starts_with(b"livox_tech") {
        Form::Lvx
    } else {
        Form::Lvx2
    };
    match original.read_livox(form, data) {
        Err(number) => format!("refused {number}\n"),
        Ok(file) => {
            let kinds = file.kinds();
            if kinds.len() > POINTS {
                return format!("refused 10 {}\n", kinds.len());
            }
            let mut text = format!("points {} frames {}\n", kinds.len(), file.frames);
            for (point, &kind) in file.bits.chunks(3).zip(&kinds) {
                let letter = if kind == POLAR { 'p' } else { 'c' };
                let [x, y, z] = [point[0], point[1], point[2]];
                writeln!(text, "{letter} {x:08x} {y:08x} {z:08x}").unwrap();
            }
            text
        }
    }
}

impl Lister {
    /// `directory` is for this run alone.
    pub fn new(program: &Path, directory: &Path) -> Self {
        Lister {
            program: program.to_path_buf(),
            given: directory.join("given"),
            printed: directory.join("printed"),
        }
    }

    /// What the program prints. The error says how it ended, if that was not well.
    fn list(&self, data: &[u8], input: Input) -> Result<Vec<u8>, String> {
        let ready = "the lister's files could not be made ready";
        // Into a file, so that a lister that prints before it has read everything does not block.
        let printed = File::create(&self.printed).expect(ready);
        let stdin = match input {
            Input::File => {
                fs::write(&self.given, data).expect(ready);
                Stdio::from(File::open(&self.given).expect(ready))
            }
            Input::Pipe => Stdio::piped(),
        };
        let mut running = Command::new(&self.program)
            .stdin(stdin)
            .stdout(printed)
            .spawn()
            .expect("the lister could not be started");
        if let Some(mut pipe) = running.stdin.take() {
            for part in data.chunks(data.len().div_ceil(PARTS).max(1)) {
                match pipe.write_all(part) {
                    // The lister reads no more.
                    Err(error) if error.kind() == ErrorKind::BrokenPipe => break,
                    written => written.expect("the lister could not be given its input"),
                }
                sleep(PAUSE);
            }
        }
        let status = running.wait().expect("the lister could not be waited for");
        if !status.success() {
            return Err(format!("the lister ended with {status}"));
        }
        Ok(fs::read(&self.printed).expect("what the lister printed could not be read"))
    }
}

/// The error says which line differs first.
fn same(printed: &[u8], expected: &str) -> Result<(), String> {
    if printed == expected.as_bytes() {
        return Ok(());
    }
    // With their ends, so that a missing one shows.
    let mut printed = printed.split_inclusive(|&byte| byte == b'\n');
    let mut expected = expected.split_inclusive('\n');
    let mut line = 1;
    loop {
        let (got, want) = (printed.next(), expected.next());
        if got != want.map(str::as_bytes) {
            let got = got.map(String::from_utf8_lossy);
            return Err(format!("line {line} is {got:?} and not {want:?}"));
        }
        line += 1;
    }
}
