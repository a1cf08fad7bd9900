// random_frames COUNT DIRECTORY [SEED]: makes the folders 000, 001 and so on. Each has two random frames, sheet.obj and next.obj, the
// record step.bin of the step between them, and some older pairs.bin. Every sixth has frames that differ, every sixth is damaged.
// Four more folders stand at limits: just_under, just and just_over have 999,999 to 1,000,001 near pairs, largest has the largest sheet.
// The same seed makes the same folders.

mod damage;
mod dice;
#[allow(dead_code)] // of these three, only the writing of a record is needed
mod faults;
mod films;
#[allow(dead_code)]
mod filters;
mod numbers;
#[allow(dead_code)] // whole plans are made by `random`
mod plans;
#[allow(dead_code)]
mod record;

use dice::Dice;
use films::Film;
use filters::{Point, Vector};
use numbers::Numbers;
use plans::Plan;
use std::fs;
use std::path::Path;

const NAMES: [&str; 4] = ["next.obj", "sheet.obj", "step.bin", "pairs.bin"];

/// Groups of so many equal faces: with 998,991, 990, 15 and 3 near pairs, which are a million less one, and then twice with one more.
const GROUPS: [usize; 6] = [1414, 45, 6, 3, 2, 2];

/// A missing file is none.
type Files = [Option<Vec<u8>>; 4];

fn starts(film: &Film) -> Vec<Vector> {
    film.points.iter().map(|point| point.start).collect()
}

fn ends(film: &Film) -> Vec<Vector> {
    film.points.iter().map(|point| point.end).collect()
}

/// The lines in some order that has each face below its points, with empty lines and comments.
fn make_text(dice: &mut Dice, places: &[Vector], faces: &[[usize; 3]]) -> Vec<u8> {
    let mut text = Vec::new();
    let (mut above, mut left) = (0, faces.iter());
    while above < places.len() || !left.as_slice().is_empty() {
        if dice.one_in(12) {
            text.extend(plans::make_skipped_line(dice));
        }
        let fits = |face: &[usize; 3]| face.iter().all(|&corner| corner < above);
        if left.as_slice().first().is_some_and(fits) && (above == places.len() || dice.one_in(2)) {
            let face = left.next().expect("a face is left");
            text.extend(plans::face_line(dice, face, above).bytes());
        } else {
            let [x, y, z] = places[above].map(|coordinate| plans::told(dice, coordinate));
            text.extend(format!("v {x} {y} {z}\n").bytes());
            above += 1;
        }
    }
    text
}

/// A short text: each face stands below its greatest corner, as their order is by these, and counts back.
fn short_text(places: &[Vector], faces: &[[usize; 3]]) -> Vec<u8> {
    let mut text = String::new();
    let mut left = faces.iter().peekable();
    for (latest, [x, y, z]) in places.iter().enumerate() {
        text += &format!("v {x} {y} {z}\n");
        while let Some([a, b, c]) = left.next_if(|face| face.iter().max() == Some(&latest)) {
            let [a, b, c] = [a, b, c].map(|corner| latest + 1 - corner);
            text += &format!("f -{a} -{b} -{c}\n");
        }
    }
    text.into_bytes()
}

/// The first frame with its step, and some bytes for older pairs.
fn make_plan(dice: &mut Dice, film: Film) -> Plan {
    let older = dice.below(9);
    Plan {
        sheet: make_text(dice, &starts(&film), &film.faces),
        step: record::write(&film.points),
        pairs: dice.bytes(older),
        points: film.points,
    }
}

fn with_next(next: Option<Vec<u8>>, [sheet, step, pairs]: damage::Files) -> Files {
    [next, sheet, step, pairs]
}

/// The first frame is of the one film, the second of the other.
fn whole(dice: &mut Dice, film: Film, other: Film) -> Files {
    let next = make_text(dice, &ends(&other), &other.faces);
    with_next(Some(next), damage::whole(make_plan(dice, film)))
}

/// Two films that differ in one way or in two; the ways take turns.
fn differing(dice: &mut Dice, turn: usize) -> Files {
    let film = films::scattered(dice);
    let mut other = film.clone();
    let face = dice.below(film.faces.len());
    let [a, b, c] = film.faces[face];
    let rests = |place| Point { start: place, end: place };
    match turn % 6 {
        0 => other.points.push(rests([1, 2, 3])),
        1 => other.faces.push([c, a, b]),
        2 => other.faces[face] = films::make_face(dice, film.points.len()),
        3 => other.faces[face] = [b, c, a],
        4 => other.faces[face..].reverse(),
        _ => {
            other.points.push(rests([1, 2, 3]));
            other.faces.pop();
        }
    }
    match dice.one_in(2) {
        true => whole(dice, film, other),
        false => whole(dice, other, film),
    }
}

/// Damages the first frame or its step, or the second frame; the kinds of damage take turns.
fn damaged(dice: &mut Dice, turn: usize) -> Files {
    let film = films::scattered(dice);
    let next = make_text(dice, &ends(&film), &film.faces);
    let plan = make_plan(dice, film.clone());
    if turn % 2 == 0 {
        return with_next(Some(next), damage::damage(dice, turn / 2, plan));
    }
    let second = Plan {
        sheet: next,
        ..make_plan(dice, film)
    };
    let [next, ..] = damage::damage(dice, turn / 2, second);
    with_next(next, damage::whole(plan))
}

fn make_files(dice: &mut Dice, number: usize) -> Files {
    match number % 6 {
        2 => differing(dice, number / 6),
        5 => damaged(dice, number / 6),
        _ => {
            let film = films::make(dice, number);
            whole(dice, film.clone(), film)
        }
    }
}

fn largest() -> Files {
    let film = films::longest_strip();
    let [sheet, next] = [starts(&film), ends(&film)].map(|places| short_text(&places, &film.faces));
    let step = record::write(&film.points);
    [Some(next), Some(sheet), Some(step), None]
}

fn write(files: Files, folder: &Path) {
    fs::create_dir_all(folder).expect("the folder can be made");
    for (name, bytes) in NAMES.into_iter().zip(files) {
        if let Some(bytes) = bytes {
            fs::write(folder.join(name), bytes).expect("the file can be written");
        }
    }
}

fn main() {
    let arguments: Vec<String> = std::env::args().skip(1).collect();
    let (Some(count), Some(directory)) = (arguments.first(), arguments.get(1)) else {
        eprintln!("usage: random_frames COUNT DIRECTORY [SEED]");
        std::process::exit(1);
    };
    let count = count.parse().expect("the count is a number");
    let seed = arguments
        .get(2)
        .map_or(1, |seed| seed.parse().expect("the seed is a number"));
    let directory = Path::new(directory);
    let mut dice = Dice(Numbers(seed));
    for number in 0..count {
        let files = make_files(&mut dice, number);
        write(files, &directory.join(format!("{number:03}")));
    }
    for (groups, name) in [(4, "just_under"), (5, "just"), (6, "just_over")] {
        let film = films::groups(&mut dice, &GROUPS[..groups]);
        write(whole(&mut dice, film.clone(), film), &directory.join(name));
    }
    write(largest(), &directory.join("largest"));
}
