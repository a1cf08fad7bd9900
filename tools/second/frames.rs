// Written from docs/RULES.md alone: two frames of one sheet, and the step between them.

use crate::files::{self, Stop};
use crate::filters::Point;
use crate::sheet::{self, Sheet};
use std::path::Path;

/// Reads a frame.
fn read_frame(path: &Path) -> Result<Sheet, Stop> {
    let text = files::read(path, files::MOST_OF_SHEET)?;
    Ok(sheet::read(&text)?)
}

/// The line of the first difference that keeps two frames from being of one sheet.
fn difference(start: &Sheet, end: &Sheet) -> Option<String> {
    let [points, others] = [start, end].map(|frame| frame.points.len());
    if points != others {
        return Some(format!("the frames have {points} and {others} points\n"));
    }
    let [faces, others] = [start, end].map(|frame| frame.faces.len());
    if faces != others {
        return Some(format!("the frames have {faces} and {others} faces\n"));
    }
    let face = (0..faces).find(|&face| start.faces[face] != end.faces[face])?;
    Some(format!("the frames differ in face {face}\n"))
}

/// The first frame, and its points with the ends that the second gives them.
pub fn read(start: &Path, end: &Path) -> Result<(Sheet, Vec<Point>), Stop> {
    let start = read_frame(start)?;
    let end = read_frame(end)?;
    if let Some(printed) = difference(&start, &end) {
        let told = String::new();
        return Err(Stop { printed, told });
    }
    let ways = start.points.iter().zip(&end.points);
    let points = ways.map(|(&start, &end)| Point { start, end }).collect();
    Ok((start, points))
}

/// The line that tells of a step.
pub fn line(points: &[Point], record: &[u8]) -> String {
    let moved = points.iter().filter(|point| point.start != point.end);
    let [points, moved, bytes] = [points.len(), moved.count(), record.len()];
    format!("step {points} points, {moved} moved, {bytes} bytes\n")
}

#[cfg(test)]
mod worked_cases {
    use super::*;

    const POINTS: &str = "v 0 0 0\nv 1 0 0\nv 0 1 0\nv 0 0 1\n";

    /// The line of the first difference; no line, where there is none.
    fn told(start: &str, end: &str) -> String {
        let [start, end] = [start, end].map(|text| sheet::read(text.as_bytes()).unwrap());
        difference(&start, &end).unwrap_or_default()
    }

    #[test]
    fn frames_of_one_sheet() {
        let front = format!("{POINTS}f 1 2 3\nf 2 4 3\n");
        let back = "v 9 9 9\nv 8 8 8\nv 7 7 7\nf -3 2 -1\nv 6 6 6\nf -3 -1 3";
        assert_eq!(told(&front, back), "");
        assert_eq!(told("", "#"), "");
    }

    #[test]
    fn the_first_difference_is_told() {
        let two = format!("{POINTS}f 1 2 3\nf 2 4 3\n");
        let other = |faces: &str| told(&two, &format!("{POINTS}{faces}"));
        assert_eq!(told(&two, "v 0 0 0\n"), "the frames have 4 and 1 points\n");
        assert_eq!(other("f 2 3 4"), "the frames have 2 and 1 faces\n");
        assert_eq!(other("f 1 2 3\nf 2 4 3\nf 1 2 3"), "the frames have 2 and 3 faces\n");
        assert_eq!(other("f 1 2 4\nf 1 2 3"), "the frames differ in face 0\n");
        assert_eq!(other("f 1 2 3\nf 2 4 1"), "the frames differ in face 1\n");
        // a face is its corners in their order
        assert_eq!(other("f 1 2 3\nf 4 3 2"), "the frames differ in face 1\n");
    }

    #[test]
    fn the_line_of_a_step() {
        let starts = [[0, 0, 0], [1, 1, 1], [0, 0, 7]];
        let ends = [[0, 0, 0], [1, 1, -1], [300, -1, 7]];
        let ways = starts.into_iter().zip(ends);
        let points: Vec<_> = ways.map(|(start, end)| Point { start, end }).collect();
        let record = crate::record::write(&points);
        assert_eq!(line(&points, &record), "step 3 points, 2 moved, 9 bytes\n");
        assert_eq!(line(&[], &[]), "step 0 points, 0 moved, 0 bytes\n");
    }
}
