// Brute force as anyone writes it, once with a test that stops early and once with one that does not.

use crate::sheets::{Pair, SweptBox};

fn meet(one: &SweptBox, other: &SweptBox) -> bool {
    one.least.x <= other.greatest.x
        && other.least.x <= one.greatest.x
        && one.least.y <= other.greatest.y
        && other.least.y <= one.greatest.y
        && one.least.z <= other.greatest.z
        && other.least.z <= one.greatest.z
}

fn meet_at_once(one: &SweptBox, other: &SweptBox) -> bool {
    (one.least.x <= other.greatest.x)
        & (other.least.x <= one.greatest.x)
        & (one.least.y <= other.greatest.y)
        & (other.least.y <= one.greatest.y)
        & (one.least.z <= other.greatest.z)
        & (other.least.z <= one.greatest.z)
}

pub fn stopping_early(boxes: &[SweptBox], pairs: &mut Vec<Pair>) {
    for i in 0..boxes.len() {
        for j in i + 1..boxes.len() {
            if meet(&boxes[i], &boxes[j]) {
                pairs.push(Pair {
                    first: i as u16,
                    second: j as u16,
                });
            }
        }
    }
}

pub fn at_once(boxes: &[SweptBox], pairs: &mut Vec<Pair>) {
    for i in 0..boxes.len() {
        for j in i + 1..boxes.len() {
            if meet_at_once(&boxes[i], &boxes[j]) {
                pairs.push(Pair {
                    first: i as u16,
                    second: j as u16,
                });
            }
        }
    }
}
