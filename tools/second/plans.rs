// Random plans: a sheet with a step, and pairs of its faces. The rules accept each sheet and each step.

use crate::dice::Dice;
use crate::filters::{Point, Vector, GREATEST_COORDINATE};
use crate::record;

pub struct Plan {
    pub points: Vec<Point>,
    pub sheet: Vec<u8>,
    pub step: Vec<u8>,
    pub pairs: Vec<u8>,
}

/// What the parts of a plan have in common.
struct Style {
    /// How far from the middle its points start, along each axis.
    reach: Vector,
    /// Whether a face is often a copy of the last one.
    copies: bool,
    /// No plan has more pairs.
    most_pairs: usize,
}

fn make_style(dice: &mut Dice) -> Style {
    if dice.one_in(8) {
        // next to nothing is struck, and the lists get full
        let reach = [dice.from_to(0, 1), 0, 0];
        let copies = dice.one_in(2);
        let most_pairs = 900;
        return Style {
            reach,
            copies,
            most_pairs,
        };
    }
    let mut reach = [dice.one_of(&[2, 5, 12, 100, 1000, GREATEST_COORDINATE]); 3];
    if dice.one_in(4) {
        reach[2] = 1;
    }
    let copies = dice.one_in(4);
    let most_pairs = dice.one_of(&[4, 80, 80, 900]);
    Style {
        reach,
        copies,
        most_pairs,
    }
}

pub fn make(dice: &mut Dice) -> Plan {
    let style = make_style(dice);
    let count = 3 + dice.below(38);
    let make_one = |_| make_point(dice, style.reach);
    let points: Vec<Point> = (0..count).map(make_one).collect();
    let faces = 2 + dice.below(39);
    Plan {
        sheet: make_text(dice, &points, faces, style.copies),
        step: record::write(&points),
        pairs: make_pairs(dice, faces, style.most_pairs),
        points,
    }
}

fn make_place(dice: &mut Dice, reach: Vector) -> Vector {
    let at_the_bound = dice.one_in(10);
    reach.map(|bound| match at_the_bound {
        true => dice.one_of(&[-bound, bound]),
        false => dice.from_to(-bound, bound),
    })
}

pub fn make_point(dice: &mut Dice, reach: Vector) -> Point {
    let start = make_place(dice, reach);
    let [x, y, z] = start;
    let wanted = match dice.below(6) {
        0 => start,
        1 => [x, y, -z],
        2 => [-x, -y, -z],
        3 => start.map(|coordinate| coordinate + dice.from_to(-2, 2)),
        _ => make_place(dice, reach),
    };
    let end = wanted.map(|end| end.clamp(-GREATEST_COORDINATE, GREATEST_COORDINATE));
    Point { start, end }
}

/// The lines in some order that has each face below its points, with empty lines and comments.
fn make_text(dice: &mut Dice, points: &[Point], faces: usize, copies: bool) -> Vec<u8> {
    let mut text = Vec::new();
    let (mut above, mut left) = (0, faces);
    let mut corners = Vec::new();
    while above < points.len() || left > 0 {
        if dice.one_in(12) {
            text.extend(make_skipped_line(dice));
        }
        if above == points.len() || (above >= 3 && left > 0 && dice.one_in(3)) {
            if corners.is_empty() || !copies || dice.one_in(3) {
                corners = make_corners(dice, above);
            }
            text.extend(face_line(dice, &corners, above).bytes());
            left -= 1;
        } else {
            let [x, y, z] = points[above].start.map(|coordinate| told(dice, coordinate));
            text.extend(format!("v {x} {y} {z}\n").bytes());
            above += 1;
        }
    }
    if dice.one_in(4) {
        text.pop(); // the last line may lack its line feed
    }
    text
}

pub fn make_skipped_line(dice: &mut Dice) -> Vec<u8> {
    let mut line = Vec::new();
    if dice.one_in(2) {
        let length = dice.below(9);
        line.push(b'#');
        line.extend(dice.bytes(length));
        line.retain(|&byte| byte != b'\n');
    }
    line.push(b'\n');
    line
}

/// Three different corners, of the points above.
pub fn make_corners(dice: &mut Dice, above: usize) -> Vec<usize> {
    let mut corners = Vec::new();
    while corners.len() < 3 {
        let corner = dice.below(above);
        if !corners.contains(&corner) {
            corners.push(corner);
        }
    }
    corners
}

/// The line of a face. Its numbers count from the front, or back, or some of them back.
pub fn face_line(dice: &mut Dice, corners: &[usize], above: usize) -> String {
    let way = dice.below(3);
    let mut line = "f".to_string();
    for &corner in corners {
        let counts_back = way == 1 || way == 2 && dice.one_in(2);
        let number = match counts_back {
            true => corner as i128 - above as i128,
            false => corner as i128 + 1,
        };
        line += " ";
        line += &told(dice, number);
    }
    line + "\n"
}

/// A number's field, at times with a needless zero or minus.
pub fn told(dice: &mut Dice, number: i128) -> String {
    let sign = if number < 0 { "-" } else { "" };
    match dice.below(20) {
        0 => format!("{sign}{:05}", number.abs()),
        1 => format!("{sign}{:02}", number.abs()),
        2 if number == 0 => "-0".to_string(),
        _ => number.to_string(),
    }
}

fn make_pairs(dice: &mut Dice, faces: usize, most: usize) -> Vec<u8> {
    let refusals = !dice.one_in(3);
    let mut bytes = Vec::new();
    for _ in 0..dice.below(most) {
        let pair = if refusals && dice.one_in(8) {
            make_refused_pair(dice, faces)
        } else {
            let first = dice.below(faces);
            [first, (first + 1 + dice.below(faces - 1)) % faces]
        };
        for face in pair {
            bytes.extend((face as u16).to_le_bytes());
        }
    }
    if dice.one_in(2) {
        let rest = dice.below(4);
        bytes.extend(dice.bytes(rest));
    }
    bytes
}

fn make_refused_pair(dice: &mut Dice, faces: usize) -> [usize; 2] {
    let face = dice.below(faces);
    let outside = dice.one_of(&[faces, faces + 1, faces + 256, 65535]);
    match dice.below(5) {
        0 | 1 => [face, face],
        2 => [face, outside],
        3 => [outside, face],
        _ => [outside, dice.one_of(&[outside, 65535])],
    }
}
