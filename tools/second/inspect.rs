// Written from docs/RULES.md alone: the program `inspect`, for a folder and for two frames; with --questions `questions`, and with
// --reviewers the example `example_reviewers`.

mod boxes;
mod faults;
mod files;
mod filters;
mod frames;
mod inspection;
mod record;
mod reviewing;
mod sheet;

use files::Stop;
use filters::Point;
use inspection::Inspection;
use std::path::{Path, PathBuf};

const DEPTH: u32 = 2;
const USAGE: &str = "usage: inspect-second [--refused FILE] [--questions] [FOLDER]
       inspect-second START.obj END.obj
       inspect-second --reviewers
";

/// What is known after all pairs.
struct Findings {
    /// The fault lines of the refused pairs.
    refusals: String,
    /// The refused pairs, as they stand in the file of pairs.
    refused: Vec<u8>,
    report: String,
    answers: String,
}

/// Offers the pairs in turn. Answers the fault lines of the refused, and these pairs again.
fn offer_pairs(inspection: &mut Inspection, pairs: &[u8]) -> (String, Vec<u8>) {
    let mut lines = String::new();
    let mut refused = Vec::new();
    // a rest of under four bytes is no chunk
    for pair in pairs.chunks_exact(4) {
        let first = u16::from_le_bytes([pair[0], pair[1]]);
        let second = u16::from_le_bytes([pair[2], pair[3]]);
        if let Err(fault) = inspection.offer(first.into(), second.into()) {
            lines += &format!("{fault}\n");
            refused.extend_from_slice(pair);
        }
    }
    (lines, refused)
}

fn inspect(points: Vec<Point>, faces: Vec<[usize; 3]>, pairs: &[u8]) -> Result<Findings, Stop> {
    let mut inspection = Inspection::open(points, faces, DEPTH)?;
    let (refusals, refused) = offer_pairs(&mut inspection, pairs);
    let report = inspection.report();
    let answers = inspection.answers();
    Ok(Findings {
        refusals,
        refused,
        report,
        answers,
    })
}

/// Each file is read and used before the next one.
fn inspect_folder(folder: &Path) -> Result<Findings, Stop> {
    let (points, faces) = files::read_sheet_and_step(folder)?;
    let pairs = files::read(&folder.join("pairs.bin"), u64::MAX)?;
    inspect(points, faces, &pairs)
}

/// Does what `record`, `near` and an inspection of their files do, and tells whether a pair was refused.
fn inspect_frames(start: &Path, end: &Path, printed: &mut String) -> Result<(), Stop> {
    let (sheet, points) = frames::read(start, end)?;
    let step = record::write(&points);
    *printed += &frames::line(&points, &step);
    let points = record::lay(&step, &sheet.points)?;
    let pairs = boxes::near_pairs(&points, &sheet.faces)?;
    *printed += &boxes::line(sheet.faces.len(), pairs.len());
    let findings = inspect(points, sheet.faces, &boxes::bytes_of(&pairs))?;
    *printed += &format!("{}{}", findings.refusals, findings.report);
    *printed += &match findings.refused.len() / 4 {
        0 => "covered all pairs\n".to_string(),
        count => format!("refused {count} pairs\n"),
    };
    Ok(())
}

/// The words of a command line.
#[derive(Default)]
struct Words {
    target: Option<PathBuf>,
    asks: bool,
    reviews: bool,
    paths: Vec<PathBuf>,
}

fn words() -> Words {
    let mut words = Words::default();
    let mut left = std::env::args_os().skip(1);
    while let Some(word) = left.next() {
        if word == "--refused" {
            words.target = left.next().map(PathBuf::from);
        } else if word == "--questions" {
            words.asks = true;
        } else if word == "--reviewers" {
            words.reviews = true;
        } else {
            words.paths.push(PathBuf::from(word));
        }
    }
    words
}

/// A refused pair is passed over: the run still ends well.
fn run_folder(folder: &Path, words: &Words) -> Result<(), Stop> {
    let findings = inspect_folder(folder)?;
    let told = match words.asks {
        true => findings.answers,
        false => findings.report,
    };
    print!("{}{told}", findings.refusals);
    if let Some(path) = &words.target {
        std::fs::write(path, findings.refused).expect("the refused pairs can be stored");
    }
    Ok(())
}

fn run_frames(start: &Path, end: &Path) -> Result<(), Stop> {
    let mut printed = String::new();
    let outcome = inspect_frames(start, end, &mut printed);
    print!("{printed}");
    outcome
}

fn run_reviewers() -> Result<(), Stop> {
    print!("{}", reviewing::review()?);
    Ok(())
}

fn main() {
    let words = words();
    let plain = words.target.is_none() && !words.asks;
    files::end(match (words.reviews, &words.paths[..]) {
        (true, []) if plain => run_reviewers(),
        (false, []) => run_folder(Path::new("."), &words),
        (false, [folder]) => run_folder(folder, &words),
        (false, [start, end]) if plain => run_frames(start, end),
        _ => Err(Stop {
            told: USAGE.to_string(),
            ..Stop::default()
        }),
    });
}

#[cfg(test)]
mod worked_cases {
    use super::*;

    const SHEET: &[u8] =
        b"v 0 0 0\nv 4 0 0\nv 0 4 0\nv 1 1 1\nv 1 1 9\nv 2 1 9\nf 1 2 3\nf 4 5 6\n";
    const STEP: &[u8] = &[0, 0, 0, 4, 0xFE, 0xFF, 0, 0];
    const REPORT: &str = "VF 3 0 1 2\n\
                          VF kept 1 struck 5 shared 0 repeated 0\n\
                          EE kept 0 struck 9 shared 0 repeated 0\n";

    /// What is printed for a folder of these files, and whether all went well.
    fn run(name: &str, sheet: &[u8], step: &[u8], pairs: &[u8]) -> (String, bool) {
        let plan = [("sheet.obj", sheet), ("step.bin", step), ("pairs.bin", pairs)];
        let folder = files::trial_folder(name, &plan);
        let outcome = inspect_folder(&folder);
        std::fs::remove_dir_all(&folder).unwrap();
        match outcome {
            Ok(found) => {
                let printed = format!("{}{}", found.refusals, found.report);
                (printed, found.refused.is_empty())
            }
            Err(stop) => (stop.printed, false),
        }
    }

    /// What is printed for two frames, and what is told on standard error, without the folder.
    fn run_two(name: &str, frames: &[(&str, &[u8])]) -> (String, String) {
        let folder = files::trial_folder(name, frames);
        let mut printed = String::new();
        let [start, end] = ["start.obj", "end.obj"].map(|frame| folder.join(frame));
        let stop = inspect_frames(&start, &end, &mut printed).err().unwrap_or_default();
        std::fs::remove_dir_all(&folder).unwrap();
        let told = stop.told.replace(&format!("{}/", folder.display()), "");
        (printed + &stop.printed, told)
    }

    #[test]
    fn the_worked_folder() {
        let (printed, well) = run("worked", SHEET, STEP, &[0, 0, 1, 0]);
        assert_eq!(printed, REPORT);
        assert!(well);
    }

    #[test]
    fn refused_pairs_and_a_rest() {
        let pairs = [0, 0, 0, 0, 0, 0, 1, 0, 2, 0, 0, 0, 0, 0, 0, 1, 7, 7, 7];
        let (printed, well) = run("refused", SHEET, STEP, &pairs);
        let lines = "fault 18 offer 0 0\nfault 17 offer 2 0\nfault 17 offer 256 0\n";
        assert_eq!(printed, format!("{lines}{REPORT}"));
        assert!(!well);
    }

    #[test]
    fn faults_of_the_files_end_the_run() {
        let pairs = [0, 0, 0, 0];
        let (printed, _) = run("text", b"v 1 2\n", b"", &pairs);
        assert_eq!(printed, "fault 1 field 1 3\n");
        let (printed, _) = run("long", &[b'#'; 70000], b"", &pairs);
        assert_eq!(printed, "fault 6 sheet 0 0\n");
        let (printed, _) = run("step", SHEET, &STEP[..5], &pairs);
        assert_eq!(printed, "fault 8 step 3 3\n");
        let (printed, _) = run("rest", SHEET, &[0; 20000], &pairs);
        assert_eq!(printed, "fault 12 step 0 0\n");
    }

    #[test]
    fn an_empty_folder_plan_has_a_report() {
        let (printed, well) = run("empty", b"", b"", b"");
        let counts = "kept 0 struck 0 shared 0 repeated 0";
        assert_eq!(printed, format!("VF {counts}\nEE {counts}\n"));
        assert!(well);
    }

    #[test]
    fn the_worked_frames() {
        let end = b"v 0 0 0\nv 4 0 0\nv 0 4 0\nv 1 1 -1\nv 1 1 9\nv 2 1 9\nf 1 2 3\nf -3 -2 -1\n";
        let (printed, told) = run_two("two", &[("start.obj", SHEET), ("end.obj", end)]);
        let before = "step 6 points, 1 moved, 8 bytes\nnear 2 faces, 1 pairs\n";
        assert_eq!(printed, format!("{before}{REPORT}covered all pairs\n"));
        assert_eq!(told, "");
    }

    #[test]
    fn frames_of_nothing_are_covered() {
        let (printed, _) = run_two("nothing", &[("start.obj", b""), ("end.obj", b"#")]);
        let before = "step 0 points, 0 moved, 0 bytes\nnear 0 faces, 0 pairs\n";
        let counts = "kept 0 struck 0 shared 0 repeated 0";
        assert_eq!(printed, format!("{before}VF {counts}\nEE {counts}\ncovered all pairs\n"));
    }

    #[test]
    fn refused_pairs_are_counted() {
        // twelve faces in one place are 66 pairs; two lists of 512 take 9 EE entries of each of 56, and 6 VF entries
        let mut text = "v 0 0 0\n".repeat(36);
        for i in 0..12 {
            text += &format!("f {} {} {}\n", 3 * i + 1, 3 * i + 2, 3 * i + 3);
        }
        let frame = text.as_bytes();
        let (printed, _) = run_two("full", &[("start.obj", frame), ("end.obj", frame)]);
        let lines: Vec<&str> = printed.lines().collect();
        assert_eq!(lines[..2], ["step 36 points, 0 moved, 36 bytes", "near 12 faces, 66 pairs"]);
        assert_eq!(lines[2..12], ["fault 21 offer 0 0"; 10]);
        assert_eq!(lines[12], "VF 0 1 0 3");
        assert!(lines.contains(&"VF kept 336 struck 0 shared 0 repeated 0"));
        assert!(lines.contains(&"EE kept 504 struck 0 shared 0 repeated 0"));
        assert_eq!(lines.last(), Some(&"refused 10 pairs"));
    }

    #[test]
    fn what_ends_a_run_of_two_frames() {
        let (printed, told) = run_two("fault", &[("start.obj", b"w")]);
        assert_eq!(printed, "fault 2 line 1 0\n");
        assert_eq!(told, "");
        let (printed, told) = run_two("late", &[("start.obj", SHEET), ("end.obj", b"v 1 2")]);
        assert_eq!(printed, "fault 1 field 1 3\n");
        assert_eq!(told, "");
        let (printed, told) = run_two("differ", &[("start.obj", SHEET), ("end.obj", b"")]);
        assert_eq!(printed, "the frames have 6 and 0 points\n");
        assert_eq!(told, "");
        let (printed, told) = run_two("missing", &[("start.obj", SHEET)]);
        assert_eq!(printed, "");
        assert!(told.starts_with("end.obj: "));
        let crowd = ["v 0 0 0\nv 1 0 0\nv 0 1 0\n", &"f 1 2 3\n".repeat(1415)].concat();
        let crowd = crowd.as_bytes();
        let (printed, told) = run_two("crowd", &[("start.obj", crowd), ("end.obj", crowd)]);
        assert_eq!(printed, "step 3 points, 0 moved, 3 bytes\nfault 25 search 0 0\n");
        assert_eq!(told, "");
    }
}
