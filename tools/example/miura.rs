// miura FOLDER: writes two frames of a Miura fold, the record of the step between them and the pairs of faces that may come near,
// as sheet.obj, next.obj, step.bin and pairs.bin of the folder.
//
// The facets are rhombs with an angle of 60 degrees, and each is tilted by an angle t: 30 degrees in the first frame, 45 in the
// second. With w = sqrt(1 - (sin 60 sin t)^2), a facet of side 1 then is sin 60 cos t / w wide (along x), w deep (along y) and
// sin 60 sin t high, and every other column is shifted by cos 60 / w along y. These four are fractions times square roots of
// whole numbers, so whole numbers do to round them.

#[path = "../second/boxes.rs"]
#[allow(dead_code)] // of these four, only the near pairs and the writing of a record are needed
mod boxes;
#[path = "../second/faults.rs"]
#[allow(dead_code)]
mod faults;
#[path = "../second/filters.rs"]
#[allow(dead_code)]
mod filters;
#[path = "../second/record.rs"]
#[allow(dead_code)]
mod record;

use filters::{Point, Vector};
use std::path::Path;

/// Facets in a row, and rows.
const CELLS: i128 = 10;
/// A facet's side: flat, the sheet would be 4,000 long on each side.
const SIDE: i128 = 400;

/// p/q times the square root of root.
#[derive(Clone, Copy)]
struct Length {
    p: i128,
    q: i128,
    root: i128,
}

/// Halves of a facet's measures, for a side of 1. Depth and shift have one root.
struct Frame {
    half_width: Length,
    half_depth: Length,
    half_shift: Length,
    half_height: Length,
}

const fn length(p: i128, q: i128, root: i128) -> Length {
    Length { p, q, root }
}

const FOLDED_A_THIRD: Frame = Frame {
    half_width: length(3, 26, 13),
    half_depth: length(1, 8, 13),
    half_shift: length(1, 13, 13),
    half_height: length(1, 8, 3),
};

const FOLDED_HALF: Frame = Frame {
    half_width: length(1, 10, 15),
    half_depth: length(1, 8, 10),
    half_shift: length(1, 10, 10),
    half_height: length(1, 8, 6),
};

impl Length {
    fn times(self, factor: i128) -> Length {
        length(self.p * factor, self.q, self.root)
    }

    /// The sum of two lengths of one root.
    fn plus(self, other: Length) -> Length {
        assert_eq!(self.root, other.root);
        let p = self.p * other.q + other.p * self.q;
        length(p, self.q * other.q, self.root)
    }

    /// The nearest whole number.
    fn rounded(self) -> i128 {
        let mut size: i128 = 0;
        // size + 1/2 is below the length, in whole numbers
        while (2 * size + 1).pow(2) * self.q.pow(2) < 4 * self.p.pow(2) * self.root {
            size += 1;
        }
        size * self.p.signum()
    }
}

impl Frame {
    /// The point in a row and a column, both from 0.
    fn point(&self, row: i128, column: i128) -> Vector {
        let up = if row % 2 == 0 { -1 } else { 1 };
        let along = if column % 2 == 0 { -1 } else { 1 };
        let shift = self.half_shift.times(along);
        let x = self.half_width.times(2 * column - CELLS);
        let y = self.half_depth.times(2 * row - CELLS).plus(shift);
        let z = self.half_height.times(up);
        [x, y, z].map(|length| length.times(SIDE).rounded())
    }

    /// All points, row by row.
    fn points(&self) -> Vec<Vector> {
        let mut points = Vec::new();
        for row in 0..=CELLS {
            for column in 0..=CELLS {
                points.push(self.point(row, column));
            }
        }
        points
    }
}

/// Two triangles for each cell, row by row; the corners' numbers from 0.
fn faces() -> Vec<[usize; 3]> {
    let mut faces = Vec::new();
    for row in 0..CELLS as usize {
        for column in 0..CELLS as usize {
            let here = row * (CELLS as usize + 1) + column;
            let below = here + CELLS as usize + 1;
            faces.push([here, here + 1, below + 1]);
            faces.push([here, below + 1, below]);
        }
    }
    faces
}

fn text(points: &[Vector], fold: &str) -> String {
    let mut text = format!(
        "# A square of film, {CELLS} by {CELLS} cells of the Miura fold, folded {fold}.\n\
         # Eleven rows of eleven points; a cell is two triangles. One unit is a millimetre.\n"
    );
    for (i, [x, y, z]) in points.iter().enumerate() {
        let row = i / (CELLS as usize + 1);
        if i % (CELLS as usize + 1) == 0 {
            text += &format!("\n# row {}\n", row + 1);
        }
        text += &format!("v {x} {y} {z}\n");
    }
    text += "\n# cells, row by row\n";
    for [a, b, c] in faces() {
        text += &format!("f {} {} {}\n", a + 1, b + 1, c + 1);
    }
    text
}

fn main() {
    let Some(folder) = std::env::args_os().nth(1) else {
        eprintln!("usage: miura FOLDER");
        std::process::exit(1);
    };
    let [starts, ends] = [FOLDED_A_THIRD, FOLDED_HALF].map(|frame| frame.points());
    let ways = starts.iter().zip(&ends);
    let points: Vec<Point> = ways.map(|(&start, &end)| Point { start, end }).collect();
    let write = |name: &str, bytes: &[u8]| {
        std::fs::write(Path::new(&folder).join(name), bytes).expect("the folder can be written")
    };
    write("sheet.obj", text(&starts, "a third of the way").as_bytes());
    write(
        "next.obj",
        text(&ends, "half of the way: the next frame").as_bytes(),
    );
    write("step.bin", &record::write(&points));
    let pairs = boxes::near_pairs(&points, &faces()).expect("there are places for the pairs");
    write("pairs.bin", &boxes::bytes_of(&pairs));
}

#[cfg(test)]
mod worked_cases {
    use super::*;

    #[test]
    fn lengths_are_rounded_to_the_nearest() {
        // 10 / 3 times the root of 2 is 4.71, a half of the root of 3 is 0.87, a fifth of it 0.35
        assert_eq!(length(10, 3, 2).rounded(), 5);
        assert_eq!(length(-1, 2, 3).rounded(), -1);
        assert_eq!(length(1, 5, 3).rounded(), 0);
        assert_eq!(length(0, 5, 3).rounded(), 0);
        assert_eq!(length(300, 1, 4).rounded(), 600);
    }

    /// A side is 400 long in both frames, give or take the rounding of its ends.
    fn keeps_its_length(p: Vector, q: Vector) -> bool {
        let square: i128 = (0..3).map(|axis| (p[axis] - q[axis]).pow(2)).sum();
        (398 * 398..=402 * 402).contains(&square)
    }

    #[test]
    fn facets_keep_their_sides() {
        for frame in [FOLDED_A_THIRD, FOLDED_HALF] {
            for row in 0..=CELLS {
                for column in 0..=CELLS {
                    let here = frame.point(row, column);
                    assert!(keeps_its_length(here, frame.point(row, column + 1)));
                    assert!(keeps_its_length(here, frame.point(row + 1, column)));
                }
            }
        }
    }

    #[test]
    fn there_are_121_points_and_200_faces() {
        assert_eq!(FOLDED_HALF.points().len(), 121);
        assert_eq!(faces().len(), 200);
        assert_eq!(faces()[..2], [[0, 1, 12], [0, 12, 11]]);
        assert_eq!(faces()[199], [108, 120, 119]);
    }
}
