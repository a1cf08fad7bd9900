// What viewers do without filters: the moments at which the four points are in one plane, as roots of a cubic in f64, and whether the
// features touch there, within rounding. It decides nothing here; it is timed beside the filters.

use crate::tests::{Kind, Moving, Test};
use crate::vectors::{cross, dot, minus, plus};

type V3 = [f64; 3];

/// Relative to the sizes at hand.
const TOLERANCE: f64 = 1e-9;

pub fn touches(test: &Test) -> bool {
    let [p, a, b, c] = [test.p, test.a, test.b, test.c].map(Line::of);
    let (p, b, c) = (p.minus(&a), b.minus(&a), c.minus(&a));
    roots(volume(&p, &b, &c))
        .into_iter()
        .flatten()
        .any(|t| touch_at(test.kind, p.at(t), b.at(t), c.at(t)))
}

/// The point from + t·way.
struct Line {
    from: V3,
    way: V3,
}

impl Line {
    fn of(m: Moving) -> Line {
        let from = m.start.map(|x| x as f64);
        let to = m.end.map(|x| x as f64);
        Line {
            from,
            way: minus(to, from),
        }
    }

    fn minus(&self, other: &Line) -> Line {
        Line {
            from: minus(self.from, other.from),
            way: minus(self.way, other.way),
        }
    }

    fn at(&self, t: f64) -> V3 {
        [0, 1, 2].map(|i| self.from[i] + t * self.way[i])
    }
}

/// p·(b × c) as k0 + k1·t + k2·t² + k3·t³.
fn volume(p: &Line, b: &Line, c: &Line) -> [f64; 4] {
    let n0 = cross(b.from, c.from);
    let [first, second] = [cross(b.way, c.from), cross(b.from, c.way)];
    let n1 = plus(first, second);
    let n2 = cross(b.way, c.way);
    [
        dot(p.from, n0),
        dot(p.from, n1) + dot(p.way, n0),
        dot(p.from, n2) + dot(p.way, n1),
        dot(p.way, n2),
    ]
}

/// The roots from 0 to 1, each found by halving between two stationary points.
fn roots(k: [f64; 4]) -> [Option<f64>; 3] {
    let value = |t: f64| k[0] + t * (k[1] + t * (k[2] + t * k[3]));
    let mut stops = [0.0, 1.0, 1.0, 1.0];
    let mut count = 1;
    for t in stationary(k) {
        if t > stops[count - 1] && t < 1.0 {
            stops[count] = t;
            count += 1;
        }
    }
    stops[count] = 1.0;
    let mut found = [None; 3];
    for (root, ends) in found.iter_mut().zip(stops[..=count].windows(2)) {
        *root = root_between(&value, ends[0], ends[1]);
    }
    found
}

/// Where k1 + 2·k2·t + 3·k3·t² is 0, in ascending order.
fn stationary(k: [f64; 4]) -> [f64; 2] {
    let (a, b, c) = (3.0 * k[3], 2.0 * k[2], k[1]);
    if a == 0.0 {
        return [-c / b, f64::NAN];
    }
    let q = -0.5 * (b + (b * b - 4.0 * a * c).sqrt().copysign(b));
    let (s, t) = (q / a, c / q);
    if s < t { [s, t] } else { [t, s] }
}

/// Between two moments at which the value does not rise and fall.
fn root_between(value: &impl Fn(f64) -> f64, mut from: f64, mut to: f64) -> Option<f64> {
    let low = value(from);
    if low == 0.0 {
        return Some(from);
    }
    if value(to) == 0.0 {
        return Some(to);
    }
    if (low > 0.0) == (value(to) > 0.0) {
        return None;
    }
    for _ in 0..40 {
        let middle = 0.5 * (from + to);
        if (value(middle) > 0.0) == (low > 0.0) {
            from = middle;
        } else {
            to = middle;
        }
    }
    Some(0.5 * (from + to))
}

/// Of four points in one plane, the place a being zero: whether the features touch.
fn touch_at(kind: Kind, p: V3, b: V3, c: V3) -> bool {
    match kind {
        // p = s·b + t·c, with s and t the weights of b and c
        Kind::Vf => solve(b, c, p).is_some_and(|(s, t)| is_part(s) && is_part(t) && is_part(s + t)),
        // s·p = b + t·(c − b)
        Kind::Ee => solve(p, minus(b, c), b).is_some_and(|(s, t)| is_part(s) && is_part(t)),
    }
}

fn is_part(s: f64) -> bool {
    (-TOLERANCE..=1.0 + TOLERANCE).contains(&s)
}

/// w = s·u + t·v, by the products with u × v.
fn solve(u: V3, v: V3, w: V3) -> Option<(f64, f64)> {
    let n = cross(u, v);
    let size = dot(n, n);
    if size == 0.0 {
        return None;
    }
    Some((dot(cross(w, v), n) / size, dot(cross(u, w), n) / size))
}
