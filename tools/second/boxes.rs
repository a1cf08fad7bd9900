// Written from docs/RULES.md alone: swept boxes, and the near pairs by trying all pairs.

use crate::faults::Fault;
use crate::filters::{Point, Vector};

const MOST_PAIRS: usize = 1_000_000;

struct SweptBox {
    least: Vector,
    greatest: Vector,
}

/// The box of a face's corners over start and end.
fn swept_box(face: [usize; 3], points: &[Point]) -> SweptBox {
    let places = face.map(|corner| [points[corner].start, points[corner].end]);
    let along = |axis| places.iter().flatten().map(move |place: &Vector| place[axis]);
    SweptBox {
        least: [0, 1, 2].map(|axis| along(axis).min().expect("a face has corners")),
        greatest: [0, 1, 2].map(|axis| along(axis).max().expect("a face has corners")),
    }
}

/// Whether they overlap or touch on all three axes.
fn meet(one: &SweptBox, other: &SweptBox) -> bool {
    (0..3).all(|axis| {
        one.least[axis] <= other.greatest[axis] && other.least[axis] <= one.greatest[axis]
    })
}

/// The pairs of different faces whose boxes meet, lower numbers first and in ascending order, where there are places for them.
pub fn near_pairs(points: &[Point], faces: &[[usize; 3]]) -> Result<Vec<[usize; 2]>, Fault> {
    let boxes: Vec<_> = faces.iter().map(|&face| swept_box(face, points)).collect();
    let mut pairs = Vec::new();
    for (first, one) in boxes.iter().enumerate() {
        for (second, other) in boxes.iter().enumerate().skip(first + 1) {
            if meet(one, other) {
                pairs.push([first, second]);
            }
        }
    }
    if pairs.len() > MOST_PAIRS {
        return Err(Fault::new(25, "search", 0, 0));
    }
    Ok(pairs)
}

/// Pairs as they stand in a file: each number in two bytes, the lower first.
pub fn bytes_of(pairs: &[[usize; 2]]) -> Vec<u8> {
    let numbers = pairs.iter().flatten();
    numbers.flat_map(|&face| (face as u16).to_le_bytes()).collect()
}

/// The line that tells how many faces and near pairs there are.
pub fn line(faces: usize, pairs: usize) -> String {
    format!("near {faces} faces, {pairs} pairs\n")
}

#[cfg(test)]
mod worked_cases {
    use super::*;

    fn moves(start: Vector, end: Vector) -> Point {
        Point { start, end }
    }

    fn rests(place: Vector) -> Point {
        moves(place, place)
    }

    /// Faces of three points each.
    fn own_points(count: usize) -> Vec<[usize; 3]> {
        (0..count).map(|i| [3 * i, 3 * i + 1, 3 * i + 2]).collect()
    }

    fn near(points: &[Point]) -> Vec<[usize; 2]> {
        near_pairs(points, &own_points(points.len() / 3)).unwrap()
    }

    #[test]
    fn a_box_is_around_start_and_end() {
        let points = [
            moves([0, 5, -1], [0, 5, 7]),
            moves([-3, 2, 0], [1, 2, 0]),
            moves([0, 0, 0], [0, 9, -4]),
            rests([-4096, 4096, 4096]),
        ];
        let swept = swept_box([1, 2, 0], &points);
        assert_eq!(swept.least, [-3, 0, -4]);
        assert_eq!(swept.greatest, [1, 9, 7]);
    }

    #[test]
    fn boxes_that_touch_meet_and_one_unit_apart_they_do_not() {
        let flat = [rests([0, 0, 0]), rests([2, 3, 0]), rests([1, 3, 0])];
        let past = |axis: usize, gap: i128| {
            let mut place = [1, 1, 0];
            place[axis] = [2, 3, 0][axis] + gap;
            rests(place)
        };
        for axis in 0..3 {
            for (gap, expected) in [(0, vec![[0, 1]]), (1, vec![])] {
                let mut points = flat.to_vec();
                points.extend([past(axis, gap + 2), past(axis, gap), past(axis, gap + 1)]);
                assert_eq!(near(&points), expected, "axis {axis}, gap {gap}");
                points.rotate_left(3);
                assert_eq!(near(&points), expected, "axis {axis}, gap {gap}, turned");
            }
        }
    }

    #[test]
    fn what_moves_through_meets_by_its_way() {
        // neither at the start nor at the end, and by one corner alone
        let mut points = vec![rests([0, 0, 0]), rests([4, 0, 0]), rests([0, 4, 0])];
        points.extend([moves([1, 1, 1], [1, 1, -1]), rests([1, 1, 9]), rests([2, 1, 9])]);
        assert_eq!(near(&points), [[0, 1]]);
        assert_eq!(bytes_of(&near(&points)), [0, 0, 1, 0]);
        points[3] = rests([1, 1, 1]);
        assert_eq!(near(&points), [] as [[usize; 2]; 0]);
    }

    #[test]
    fn pairs_ascend() {
        let points = [rests([0; 3]), rests([1; 3]), rests([2; 3]), rests([3; 3])];
        // the boxes 2 to 3, 0 to 2, 1 to 3 and 0 to 2, in faces that share points
        let faces = [[3, 2, 2], [0, 1, 2], [3, 1, 2], [0, 1, 2]];
        let pairs = near_pairs(&points, &faces).unwrap();
        assert_eq!(pairs, [[0, 1], [0, 2], [0, 3], [1, 2], [1, 3], [2, 3]]);
        let apart = [[3, 3, 3], [0, 1, 1], [2, 3, 2], [1, 1, 1]];
        assert_eq!(near_pairs(&points, &apart).unwrap(), [[0, 2], [1, 3]]);
        for few in 0..2 {
            assert_eq!(near_pairs(&points, &faces[..few]), Ok(vec![]));
        }
    }

    #[test]
    fn numbers_of_two_bytes() {
        assert_eq!(bytes_of(&[[1, 256], [4094, 4095]]), [1, 0, 0, 1, 0xFE, 15, 0xFF, 15]);
        assert_eq!(line(2, 1), "near 2 faces, 1 pairs\n");
    }

    #[test]
    fn a_million_pairs_have_places() {
        // 998,991 and 990 and 15 and 3 and 1
        let groups = [1414, 45, 6, 3, 2, 2];
        let points: Vec<Point> = (0..6).map(|group| rests([group, 0, 0])).collect();
        let mut faces = Vec::new();
        for (group, count) in groups.into_iter().enumerate() {
            faces.extend(vec![[group; 3]; count]);
        }
        assert_eq!(near_pairs(&points, &faces[..1470]).unwrap().len(), 1_000_000);
        let more = near_pairs(&points, &faces).unwrap_err().to_string();
        assert_eq!(more, "fault 25 search 0 0");
    }
}
