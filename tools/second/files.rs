// Written from docs/RULES.md alone: what the programs read, and how a run of theirs ends.

use crate::faults::Fault;
use crate::filters::Point;
use crate::{record, sheet};
use std::fs::File;
use std::io::Read;
use std::path::Path;
use std::process::exit;

pub const MOST_OF_SHEET: u64 = 65537;
const MOST_OF_STEP: u64 = 14337;

/// What ends a run early: a line that is printed, and one that is told on standard error. The other may be empty.
#[derive(Debug, Default, PartialEq)]
pub struct Stop {
    pub printed: String,
    pub told: String,
}

impl From<Fault> for Stop {
    fn from(fault: Fault) -> Stop {
        Stop {
            printed: format!("{fault}\n"),
            ..Stop::default()
        }
    }
}

/// The bytes of a file, at most so many.
pub fn read(path: &Path, most: u64) -> Result<Vec<u8>, Stop> {
    let mut bytes = Vec::new();
    File::open(path)
        .and_then(|file| file.take(most).read_to_end(&mut bytes))
        .map_err(|reason| Stop {
            told: format!("{}: {reason}\n", path.display()),
            ..Stop::default()
        })?;
    Ok(bytes)
}

/// The points and the faces of the sheet and the step in a folder. The sheet is read and used before the step is.
pub fn read_sheet_and_step(folder: &Path) -> Result<(Vec<Point>, Vec<[usize; 3]>), Stop> {
    let sheet = sheet::read(&read(&folder.join("sheet.obj"), MOST_OF_SHEET)?)?;
    let step = read(&folder.join("step.bin"), MOST_OF_STEP)?;
    Ok((record::lay(&step, &sheet.points)?, sheet.faces))
}

/// Ends a program that has printed all but what stopped it.
pub fn end(outcome: Result<(), Stop>) -> ! {
    let Err(stop) = outcome else { exit(0) };
    print!("{}", stop.printed);
    eprint!("{}", stop.told);
    exit(1);
}

/// A new folder of these files.
#[cfg(test)]
pub fn trial_folder(name: &str, files: &[(&str, &[u8])]) -> std::path::PathBuf {
    let folder = std::env::temp_dir().join(format!("second-{name}-{}", std::process::id()));
    std::fs::create_dir_all(&folder).unwrap();
    for (file, bytes) in files {
        std::fs::write(folder.join(file), bytes).unwrap();
    }
    folder
}
