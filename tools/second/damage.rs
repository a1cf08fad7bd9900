// Random damage to the files of a plan.

use crate::dice::Dice;
use crate::plans::Plan;
use crate::record;

const MOST_BYTES: usize = 65536;
const MOST_POINTS: usize = 2048;
const MOST_FACES: usize = 4096;

/// Kinds of damage.
const KINDS: usize = 16;

/// Sheet, step and pairs; a missing file is none.
pub type Files = [Option<Vec<u8>>; 3];

/// Damages the plan in one way; the kinds of damage take turns.
pub fn damage(dice: &mut Dice, turn: usize, mut plan: Plan) -> Files {
    let round = turn / KINDS;
    match turn % KINDS {
        0 | 1 => twist_a_line(dice, &mut plan.sheet),
        2 => change_a_number(dice, &mut plan.sheet, b"v ", &OUT_OF_RANGE),
        3 => change_a_number(dice, &mut plan.sheet, b"v ", NO_NUMBERS[round % 4]),
        4 => change_a_number(dice, &mut plan.sheet, b"f ", &NO_POINTS),
        5 => change_a_byte(dice, &mut plan.sheet),
        6 => cut_off_or_append(dice, &mut plan.sheet),
        7 => end_lines_with_carriage_returns(&mut plan.sheet),
        8 => fill(2 * round, &mut plan),
        9 => fill(2 * round + 1, &mut plan),
        10 => plan.step[0] |= 8,
        11 => change_a_byte_of_step(dice, &mut plan.step),
        12 => move_out_of_range(dice, &mut plan),
        13 => cut_off_or_append(dice, &mut plan.step),
        14 => count_back_wrongly(dice, round, &mut plan.sheet),
        _ => return empty_or_take_away(dice, plan),
    }
    whole(plan)
}

/// The files of a plan.
pub fn whole(plan: Plan) -> Files {
    [Some(plan.sheet), Some(plan.step), Some(plan.pairs)]
}

fn change_a_byte(dice: &mut Dice, bytes: &mut [u8]) {
    let place = dice.below(bytes.len());
    bytes[place] = match dice.one_in(2) {
        true => dice.one_of(b"019- vf#\n\r\t.+/"),
        false => dice.below(256) as u8,
    };
}

/// Often to a value that keeps the number of bytes that are asked for.
fn change_a_byte_of_step(dice: &mut Dice, step: &mut [u8]) {
    let place = dice.below(step.len());
    step[place] = match dice.below(4) {
        0 => dice.below(256) as u8,
        1 => step[place] | 8,
        2 => step[place] ^ 0x40,
        _ => 0,
    };
    if dice.one_in(4) {
        step[place..].iter_mut().take(2).for_each(|byte| *byte = 0);
    }
}

/// A coordinate of a point ends just past the bound.
fn move_out_of_range(dice: &mut Dice, plan: &mut Plan) {
    let point = dice.below(plan.points.len());
    plan.points[point].end[dice.below(3)] = dice.one_of(&[-4097, 4097]);
    plan.step = record::write(&plan.points);
}

fn cut_off_or_append(dice: &mut Dice, bytes: &mut Vec<u8>) {
    if dice.one_in(2) {
        bytes.truncate(dice.below(bytes.len()));
    } else {
        for _ in 0..1 + dice.below(4) {
            bytes.push(dice.one_of(b"\0\x01\x04\x07\xFF\n vf#1-"));
        }
    }
}

fn end_lines_with_carriage_returns(text: &mut Vec<u8>) {
    let lines: Vec<&[u8]> = text.split(|&byte| byte == b'\n').collect();
    *text = lines.join(&b"\r\n"[..]);
}

fn empty_or_take_away(dice: &mut Dice, plan: Plan) -> Files {
    let mut files = whole(plan);
    let which = dice.below(3);
    files[which] = if dice.one_in(2) { Some(vec![]) } else { None };
    files
}

fn lines(text: &[u8]) -> Vec<Vec<u8>> {
    let split = text.split(|&byte| byte == b'\n');
    split.map(<[u8]>::to_vec).collect()
}

fn words(line: &[u8]) -> Vec<Vec<u8>> {
    let split = line.split(|&byte| byte == b' ');
    split.map(<[u8]>::to_vec).collect()
}

fn twist_a_line(dice: &mut Dice, text: &mut Vec<u8>) {
    let mut lines = lines(text);
    let place = dice.below(lines.len());
    if dice.one_in(6) {
        let moved = lines.remove(place);
        lines.insert(0, moved);
    } else {
        lines[place] = twisted(dice, &lines[place]);
    }
    *text = lines.join(&b'\n');
}

fn twisted(dice: &mut Dice, line: &[u8]) -> Vec<u8> {
    let mut words = words(line);
    let place = dice.below(words.len());
    match dice.below(5) {
        0 => words[0] = dice.one_of(&WRONG_STARTS).to_vec(),
        1 => _ = words.remove(place),
        2 => words.insert(place, words[place].clone()),
        3 => words.insert(place, vec![]),
        _ => words.push(vec![]),
    }
    words.join(&b' ')
}

const WRONG_STARTS: [&[u8]; 8] = [b"V", b"F", b"vt", b"g", b" v", b"\tf", b"f", b"v"];

/// Changes a number of a line with this start into a wrong one, or into the line's next.
fn change_a_number(dice: &mut Dice, text: &mut Vec<u8>, start: &[u8], wrong: &[&[u8]]) {
    let mut lines = lines(text);
    let begins = |line: &&mut Vec<u8>| line.starts_with(start);
    let mut with_numbers: Vec<_> = lines.iter_mut().filter(begins).collect();
    let line = dice.below(with_numbers.len());
    let mut words = words(with_numbers[line]);
    let place = 1 + dice.below(3);
    words[place] = match dice.one_in(4) {
        true => words[1 + place % 3].clone(),
        false => dice.one_of(wrong).to_vec(),
    };
    *with_numbers[line] = words.join(&b' ');
    *text = lines.join(&b'\n');
}

const OUT_OF_RANGE: [&[u8]; 5] = [b"4097", b"-4097", b"04097", b"-04097", b"4098"];

const NO_NUMBERS: [&[&[u8]]; 4] = [
    &[b"000001", b"123456"],
    &[b"-", b"--1", b"+1"],
    &[b"1.0", b"1/1", b"1e3"],
    &[b"x", b"\xB2", b"\t1"],
];

const NO_POINTS: [&[u8]; 6] = [b"0", b"-0", b"-41", b"41", b"2048", b"99999"];

/// Has a face count back to no point, to the one before the first, or to another corner of its own.
fn count_back_wrongly(dice: &mut Dice, round: usize, text: &mut Vec<u8>) {
    let mut lines = lines(text);
    let is_face = |place: &usize| lines[*place].starts_with(b"f ");
    let faces: Vec<usize> = (0..lines.len()).filter(is_face).collect();
    let line = dice.one_of(&faces);
    let above = lines_that_begin(&lines[..line].join(&b'\n'), b"v ") as i128;
    let mut words = words(&lines[line]);
    let place = 1 + dice.below(3);
    words[place] = match round % 3 {
        0 => b"-0".to_vec(),
        1 => format!("{}", -above - 1).into_bytes(),
        _ => the_other_way(&words[1 + place % 3], above).into_bytes(),
    };
    lines[line] = words.join(&b' ');
    *text = lines.join(&b'\n');
}

/// The number that names the same of so many points from the other end.
fn the_other_way(word: &[u8], above: i128) -> String {
    let word = std::str::from_utf8(word).expect("a plan's text is read");
    match word.parse::<i128>().expect("a plan's corner is a number") {
        number if number < 0 => (above + 1 + number).to_string(),
        number => (number - above - 1).to_string(),
    }
}

/// Fills the sheet to one of its three limits, or to one more.
fn fill(way: usize, plan: &mut Plan) {
    let beyond = way % 2;
    plan.sheet.push(b'\n');
    match way / 2 % 3 {
        0 => {
            plan.sheet.push(b'#');
            plan.sheet.resize(MOST_BYTES + beyond, b'#');
        }
        1 => {
            let more = MOST_POINTS + beyond - lines_that_begin(&plan.sheet, b"v ");
            plan.sheet.extend(b"v 1 2 3\n".repeat(more));
            plan.step.extend(vec![0; more]);
        }
        _ => {
            let more = MOST_FACES + beyond - lines_that_begin(&plan.sheet, b"f ");
            plan.sheet.extend(b"f 1 2 3\n".repeat(more));
        }
    }
}

fn lines_that_begin(text: &[u8], start: &[u8]) -> usize {
    let lines = text.split(|&byte| byte == b'\n');
    lines.filter(|line| line.starts_with(start)).count()
}
