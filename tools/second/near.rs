// Written from docs/RULES.md alone: the program `near`.

mod boxes;
mod faults;
mod files;
#[allow(dead_code)] // finding pairs asks no filter and writes no record
mod filters;
#[allow(dead_code)]
mod record;
mod sheet;

use files::Stop;
use std::path::{Path, PathBuf};

/// Writes the near pairs of the plan in a folder; answers the line that tells of them.
fn near(folder: &Path) -> Result<String, Stop> {
    let (points, faces) = files::read_sheet_and_step(folder)?;
    let pairs = boxes::near_pairs(&points, &faces)?;
    let target = folder.join("pairs.bin");
    std::fs::write(target, boxes::bytes_of(&pairs)).expect("the pairs can be stored");
    Ok(boxes::line(faces.len(), pairs.len()))
}

fn main() {
    let arguments: Vec<_> = std::env::args_os().skip(1).collect();
    if arguments.len() > 1 {
        eprintln!("usage: near-second [FOLDER]");
        std::process::exit(1);
    }
    let folder = arguments.first().map_or(PathBuf::from("."), PathBuf::from);
    files::end(near(&folder).map(|line| print!("{line}")));
}

#[cfg(test)]
mod worked_cases {
    use super::*;

    const SHEET: &[u8] =
        b"v 0 0 0\nv 4 0 0\nv 0 4 0\nv 1 1 1\nv 1 1 9\nv 2 1 9\nf 1 2 3\nf 4 5 6\n";
    const STEP: &[u8] = &[0, 0, 0, 4, 0xFE, 0xFF, 0, 0];

    /// What is printed for a folder of these files, and what its file of pairs then has.
    fn run(name: &str, files: &[(&str, &[u8])]) -> (String, Option<Vec<u8>>) {
        let folder = files::trial_folder(name, files);
        let printed = near(&folder).unwrap_or_else(|stop| stop.printed);
        let pairs = std::fs::read(folder.join("pairs.bin")).ok();
        std::fs::remove_dir_all(&folder).unwrap();
        (printed, pairs)
    }

    #[test]
    fn the_worked_folder() {
        let (printed, pairs) = run("near", &[("sheet.obj", SHEET), ("step.bin", STEP)]);
        assert_eq!(printed, "near 2 faces, 1 pairs\n");
        assert_eq!(pairs, Some(vec![0, 0, 1, 0]));
        let (printed, pairs) = run("far", &[("sheet.obj", SHEET), ("step.bin", &[0; 6])]);
        assert_eq!(printed, "near 2 faces, 0 pairs\n");
        assert_eq!(pairs, Some(vec![]));
    }

    #[test]
    fn older_pairs_are_replaced() {
        let old: (&str, &[u8]) = ("pairs.bin", b"older pairs");
        let (printed, pairs) = run("again", &[("sheet.obj", SHEET), ("step.bin", STEP), old]);
        assert_eq!(printed, "near 2 faces, 1 pairs\n");
        assert_eq!(pairs, Some(vec![0, 0, 1, 0]));
        let (printed, pairs) = run("none", &[("sheet.obj", b"#"), ("step.bin", b""), old]);
        assert_eq!(printed, "near 0 faces, 0 pairs\n");
        assert_eq!(pairs, Some(vec![]));
    }

    #[test]
    fn a_fault_leaves_the_pairs() {
        let old: (&str, &[u8]) = ("pairs.bin", b"old");
        let crowd = [b"v 0 0 0\nv 1 0 0\nv 0 1 0\n".to_vec(), b"f 1 2 3\n".repeat(1415)].concat();
        let cases: [(&[u8], &[u8], &str); 4] = [
            (b"v 1 2\n", b"", "fault 1 field 1 3\n"),
            (SHEET, &STEP[..5], "fault 8 step 3 3\n"),
            (SHEET, &[0; 20000], "fault 12 step 0 0\n"),
            // 1,415 times 1,414 halves
            (&crowd, &[0; 3], "fault 25 search 0 0\n"),
        ];
        for (sheet, step, line) in cases {
            let (printed, pairs) = run("faulty", &[("sheet.obj", sheet), ("step.bin", step), old]);
            assert_eq!(printed, line);
            assert_eq!(pairs, Some(b"old".to_vec()));
        }
    }

    #[test]
    fn a_fault_of_the_sheet_comes_before_a_step_that_is_missing() {
        let (printed, pairs) = run("early", &[("sheet.obj", b"w")]);
        assert_eq!(printed, "fault 2 line 1 0\n");
        assert_eq!(pairs, None);
        assert_eq!(run("missing", &[("sheet.obj", SHEET)]), (String::new(), None));
    }
}
