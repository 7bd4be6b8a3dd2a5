//! Draws a lidar file as it looks from above, as an SVG picture: `./view` at the top of the repository
//! builds and runs this.
//!
//! What the file tells comes from the library. The sines that turn angles into places are this
//! program's own, and so are the colours: nothing here is proved.

mod file;
mod scene;
mod svg;
mod time;

use std::io::{Read, Write};
use std::path::{Path, PathBuf};
use std::process::ExitCode;

const USAGE: &str = "usage: ./view FILE [OUT.svg] [--as kitti|lvx|lvx2|velodyne|ouster] [--within METRES]

Draws the points of a lidar file from above. The picture goes to OUT.svg, or to standard output.
The kind of file is told by its opening bytes, and KITTI, which has none, by a name that ends in .bin.
A capture is drawn as Velodyne or Ouster and in the reading that finds most packets, and the times of
the first and the last of them are told.
Points beyond METRES, by default 1000, are left out and counted.";

struct Asked {
    file: PathBuf,
    out: Option<PathBuf>,
    name: Option<file::Name>,
    within: f64,
}

fn asked(arguments: impl Iterator<Item = std::ffi::OsString>) -> Result<Asked, String> {
    let mut paths = Vec::new();
    let (mut name, mut within) = (None, 1000.0);
    let mut arguments = arguments;
    while let Some(argument) = arguments.next() {
        let mut value = || {
            let value = arguments.next().and_then(|value| value.into_string().ok());
            value.ok_or_else(|| format!("{} wants a value", argument.to_string_lossy()))
        };
        match argument.to_str() {
            Some("--as") => {
                let value = value()?;
                name = Some(file::Name::of(&value).ok_or(format!("there is no kind {value}"))?);
            }
            Some("--within") => {
                let value = value()?;
                within = match value.parse::<f64>() {
                    Ok(metres) if metres > 0.0 && metres <= 1e6 => metres,
                    _ => return Err(format!("--within {value} is not above 0 and up to 1000000")),
                };
            }
            Some(option) if option.starts_with("--") => {
                return Err(format!("there is no option {option}"));
            }
            _ => paths.push(PathBuf::from(argument)),
        }
    }
    let mut paths = paths.into_iter();
    match (paths.next(), paths.next(), paths.next()) {
        (Some(file), out, None) => Ok(Asked {
            file,
            out,
            name,
            within,
        }),
        _ => Err("one file is asked for, and one place for the picture".into()),
    }
}

fn draw(asked: &Asked) -> Result<(), String> {
    let shown = asked.file.display();
    let data = load(&asked.file).map_err(|error| format!("{shown}: {error}"))?;
    let told =
        file::read(&data, &asked.file, asked.name).map_err(|why| format!("{shown}: {why}"))?;
    let scene = scene::Scene::new(&told.points, told.angles, asked.within);
    let caption = scene.caption(&told.what, told.captured.as_deref());
    let name = asked.file.file_name().unwrap_or(asked.file.as_os_str());
    let picture = svg::draw(&scene, &name.to_string_lossy(), &caption);
    match &asked.out {
        Some(out) => write_to(out, &asked.file, &picture)?,
        None => std::io::stdout()
            .write_all(picture.as_bytes())
            .map_err(|error| format!("standard output: {error}"))?,
    }
    eprintln!("{shown}: {}", caption.join("; "));
    Ok(())
}

/// The file's bytes, or one more than the longest data that is read: a device may have no end.
fn load(path: &Path) -> std::io::Result<Vec<u8>> {
    let mut data = Vec::new();
    std::fs::File::open(path)?
        .take(1 << 31)
        .read_to_end(&mut data)?;
    Ok(data)
}

/// Writes the picture, unless that is the file that was read.
fn write_to(out: &Path, file: &Path, picture: &str) -> Result<(), String> {
    let place = |path: &Path| path.canonicalize().ok();
    if place(out).is_some() && place(out) == place(file) {
        return Err(format!("{}: that is the file itself", out.display()));
    }
    std::fs::write(out, picture).map_err(|error| format!("{}: {error}", out.display()))
}

fn main() -> ExitCode {
    let asked = match asked(std::env::args_os().skip(1)) {
        Ok(asked) => asked,
        Err(why) => {
            eprintln!("view: {why}\n\n{USAGE}");
            return ExitCode::from(2);
        }
    };
    match draw(&asked) {
        Ok(()) => ExitCode::SUCCESS,
        Err(why) => {
            eprintln!("view: {why}");
            ExitCode::FAILURE
        }
    }
}
