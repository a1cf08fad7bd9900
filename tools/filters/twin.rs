// The rules of the filters in plain Rust, as anyone writes them who does not prove them.

use crate::tests::{Kind, Moving, Test, V3};
use crate::vectors::{cross, dot, minus, plus};

/// From the least to the greatest number.
type Span = (i64, i64);

fn joined(one: Span, other: Span) -> Span {
    (one.0.min(other.0), one.1.max(other.1))
}

/// The spans of the two features.
fn spans(test: &Test, of: impl Fn(&Moving) -> Span) -> (Span, Span) {
    let [p, a, b, c] = [of(&test.p), of(&test.a), of(&test.b), of(&test.c)];
    match test.kind {
        Kind::Vf => (p, joined(joined(a, b), c)),
        Kind::Ee => (joined(b, c), joined(a, p)),
    }
}

pub fn box_strikes(test: &Test) -> bool {
    (0..3).any(|axis| {
        let swept = |m: &Moving| joined((m.start[axis], m.start[axis]), (m.end[axis], m.end[axis]));
        let (first, second) = spans(test, swept);
        first.1 < second.0 || second.1 < first.0
    })
}

const DIRECTIONS: [V3; 13] = [
    [1, 0, 0],
    [0, 1, 0],
    [0, 0, 1],
    [1, 1, 0],
    [1, -1, 0],
    [1, 0, 1],
    [1, 0, -1],
    [0, 1, 1],
    [0, 1, -1],
    [1, 1, 1],
    [1, 1, -1],
    [1, -1, 1],
    [1, -1, -1],
];

pub fn slab_strikes(test: &Test) -> bool {
    DIRECTIONS.iter().any(|&direction| {
        let along = |v: V3| (dot(direction, v), dot(direction, v));
        let start = spans(test, |m| along(m.start));
        let end = spans(test, |m| along(m.end));
        start.1.1 < start.0.0 && end.1.1 < end.0.0 || start.0.1 < start.1.0 && end.0.1 < end.1.0
    })
}

pub fn plane_strikes(test: &Test) -> bool {
    let Test { p, a, b, c, .. } = test;
    let way = |m: &Moving| minus(m.end, m.start);
    let d0 = minus(p.start, a.start);
    let d1 = minus(p.end, a.end);
    let n0 = cross(minus(b.start, a.start), minus(c.start, a.start));
    let n1 = cross(minus(b.end, a.end), minus(c.end, a.end));
    let turn = cross(minus(way(b), way(a)), minus(way(c), way(a)));
    let between = minus(plus(n0, n1), turn);
    let g0 = 3 * dot(d0, n0);
    let g1 = dot(d0, between) + dot(d1, n0);
    let g2 = dot(d1, between) + dot(d0, n1);
    let g3 = 3 * dot(d1, n1);
    g0 > 0 && g1 > 0 && g2 > 0 && g3 > 0 || g0 < 0 && g1 < 0 && g2 < 0 && g3 < 0
}

/// As it is delivered.
pub fn row_strikes(test: &Test) -> bool {
    slab_strikes(test) || plane_strikes(test)
}

/// What Box strikes, Slab strikes, so this is the same.
pub fn with_box_strikes(test: &Test) -> bool {
    box_strikes(test) || slab_strikes(test) || plane_strikes(test)
}

/// Whether each of the 2^depth subintervals is struck: the whole first, and its halves where it passed.
pub fn struck_at(strikes: &impl Fn(&Test) -> bool, test: &Test, depth: u8) -> bool {
    if strikes(test) {
        return true;
    }
    depth > 0
        && struck_at(strikes, &each_point(test, first_half), depth - 1)
        && struck_at(strikes, &each_point(test, last_half), depth - 1)
}

fn first_half(m: Moving) -> Moving {
    Moving {
        start: plus(m.start, m.start),
        end: plus(m.start, m.end),
    }
}

fn last_half(m: Moving) -> Moving {
    Moving {
        start: plus(m.start, m.end),
        end: plus(m.end, m.end),
    }
}

fn each_point(test: &Test, half: impl Fn(Moving) -> Moving) -> Test {
    Test {
        kind: test.kind,
        p: half(test.p),
        a: half(test.a),
        b: half(test.b),
        c: half(test.c),
    }
}
