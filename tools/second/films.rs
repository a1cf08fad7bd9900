// Random films: points that move, and faces that are near each other, or not by a unit.

use crate::dice::Dice;
use crate::filters::{Point, Vector, GREATEST_COORDINATE};
use crate::plans;

#[derive(Clone)]
pub struct Film {
    pub points: Vec<Point>,
    pub faces: Vec<[usize; 3]>,
}

/// The kinds of film take turns.
pub fn make(dice: &mut Dice, turn: usize) -> Film {
    match turn % 8 {
        0..3 => side_by_side(dice),
        3 | 4 => scattered(dice),
        5 => winding(dice),
        6 => next_to_none(dice),
        _ => in_one_place(dice),
    }
}

/// The box of each face lies at the one of an earlier face: on some axes they overlap, touch or are a unit apart.
fn side_by_side(dice: &mut Dice) -> Film {
    let base = dice.one_of(&[-GREATEST_COORDINATE, 0, GREATEST_COORDINATE - 9]);
    let mut boxes = vec![([base; 3], make_size(dice))];
    for _ in 0..1 + dice.below(20) {
        let (least, size) = dice.one_of(&boxes);
        boxes.push(make_next(dice, least, size));
    }
    let mut film = Film {
        points: Vec::new(),
        faces: Vec::new(),
    };
    for (least, size) in boxes {
        let from = film.points.len();
        film.points.extend(fill_box(dice, least, size));
        film.faces.push([from, from + 1, from + 2]);
    }
    film
}

fn make_size(dice: &mut Dice) -> Vector {
    [(); 3].map(|()| dice.from_to(0, 4))
}

/// A box before or behind this one on each axis, or on the first axes in one place with it.
fn make_next(dice: &mut Dice, least: Vector, size: Vector) -> (Vector, Vector) {
    let (mut next, new_size) = (least, make_size(dice));
    for axis in dice.below(3)..3 {
        let gap = dice.one_of(&[-1, 0, 0, 1]);
        next[axis] += match dice.one_in(2) {
            true => size[axis] + gap,
            false => -new_size[axis] - gap,
        };
    }
    (next, new_size)
}

/// Three points that reach each side of the box, at their start or at their end.
fn fill_box(dice: &mut Dice, least: Vector, size: Vector) -> [Point; 3] {
    let mut places = [[0; 3]; 6];
    for axis in 0..3 {
        let mut reached = [0; 6].map(|_: i128| dice.from_to(0, size[axis]));
        let at = dice.below(6);
        reached[at] = 0;
        reached[(at + 1 + dice.below(5)) % 6] = size[axis];
        for (place, reached) in places.iter_mut().zip(reached) {
            place[axis] = (least[axis] + reached).clamp(-GREATEST_COORDINATE, GREATEST_COORDINATE);
        }
    }
    [0, 2, 4].map(|i| Point {
        start: places[i],
        end: places[i + 1],
    })
}

/// Faces of any points, some of them equal or with the same corners in another order.
pub fn scattered(dice: &mut Dice) -> Film {
    let reach = [dice.one_of(&[2, 5, 12, 100, GREATEST_COORDINATE]); 3];
    let count = 3 + dice.below(38);
    let points = make_points(dice, count, reach);
    let mut faces = vec![make_face(dice, points.len())];
    for _ in 0..1 + dice.below(39) {
        let [a, b, c] = dice.one_of(&faces);
        faces.push(match dice.below(6) {
            0 => [a, b, c],
            1 => [b, a, c],
            _ => make_face(dice, points.len()),
        });
    }
    Film { points, faces }
}

/// A strip of faces, each with three points in turn.
fn winding(dice: &mut Dice) -> Film {
    let mut points = Vec::new();
    let mut start = [0; 3];
    for _ in 0..3 + dice.below(60) {
        let end = start.map(|coordinate: i128| coordinate + dice.from_to(-1, 1));
        points.push(Point { start, end });
        start = start.map(|coordinate| coordinate + dice.from_to(-2, 3));
    }
    let faces = (2..points.len()).map(|i| [i - 2, i - 1, i]).collect();
    Film { points, faces }
}

/// No face or one, and at times no point.
fn next_to_none(dice: &mut Dice) -> Film {
    let count = dice.below(7);
    let points = make_points(dice, count, [5; 3]);
    let faces = match points.len() > 2 && dice.one_in(2) {
        true => vec![make_face(dice, points.len())],
        false => Vec::new(),
    };
    Film { points, faces }
}

/// So that next to nothing is struck, and the lists get full.
fn in_one_place(dice: &mut Dice) -> Film {
    let count = 10 + dice.below(12);
    let reach = [dice.from_to(0, 1), 0, 0];
    let points = make_points(dice, 3 * count, reach);
    let faces = (0..count).map(|i| [3 * i, 3 * i + 1, 3 * i + 2]).collect();
    Film { points, faces }
}

/// So many points.
fn make_points(dice: &mut Dice, count: usize, reach: Vector) -> Vec<Point> {
    let make_one = |_| plans::make_point(dice, reach);
    (0..count).map(make_one).collect()
}

/// Three different points of so many.
pub fn make_face(dice: &mut Dice, points: usize) -> [usize; 3] {
    let corners = plans::make_corners(dice, points);
    [corners[0], corners[1], corners[2]]
}

/// Groups of so many equal faces, a unit apart and in no order: a face is near those of its group and no others.
pub fn groups(dice: &mut Dice, sizes: &[usize]) -> Film {
    let mut points = Vec::new();
    let mut faces = Vec::new();
    for &size in sizes {
        let first = points.len();
        let x = first as i128;
        for [x, y] in [[x, 0], [x + 2, 0], [x, 4]] {
            points.push(Point {
                start: [x, y, 0],
                end: [x, y, 1],
            });
        }
        for _ in 0..size {
            let place = dice.below(faces.len() + 1);
            faces.insert(place, [first, first + 1, first + 2]);
        }
    }
    Film { points, faces }
}

/// As many points and faces as a sheet has: a strip of 32 rows, each face of it twice.
pub fn longest_strip() -> Film {
    let mut points = Vec::new();
    for i in 0..2048 {
        let (row, along) = (i / 64, i % 64);
        let x = if row % 2 == 0 { along } else { 63 - along };
        points.push(Point {
            start: [x, row, i % 2],
            end: [x, row, 1 - i % 2],
        });
    }
    let mut faces = Vec::new();
    for latest in 2..2050 {
        let corner = latest.min(2047);
        faces.extend([[corner - 2, corner - 1, corner]; 2]);
    }
    Film { points, faces }
}
