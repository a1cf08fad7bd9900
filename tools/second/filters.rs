// Written from docs/RULES.md alone: tests, subintervals, the filters and their verdicts.

pub const GREATEST_SCALE: u32 = 6;
pub const GREATEST_COORDINATE: i128 = 4096;

pub type Vector = [i128; 3];

#[derive(Clone, Copy, Debug, PartialEq)]
pub struct Point {
    pub start: Vector,
    pub end: Vector,
}

#[derive(Clone, Copy, Debug, PartialEq)]
pub enum Kind {
    /// The points are P, a, b, c.
    Vf,
    /// The points are u, v, k, l.
    Ee,
}

#[derive(Clone, Copy, Debug, PartialEq)]
pub struct Test {
    kind: Kind,
    scale: u32,
    points: [Point; 4],
}

impl Kind {
    /// How many of the four points are the first feature's.
    pub fn first_feature_size(self) -> usize {
        match self {
            Kind::Vf => 1,
            Kind::Ee => 2,
        }
    }
}

impl Test {
    /// Numbers outside the bounds make no test.
    pub fn new(kind: Kind, scale: u32, points: [Point; 4]) -> Option<Test> {
        if scale > GREATEST_SCALE {
            return None;
        }
        let bound = GREATEST_COORDINATE << scale;
        for point in points {
            for axis in 0..3 {
                if point.start[axis].abs() > bound || point.end[axis].abs() > bound {
                    return None;
                }
            }
        }
        Some(Test {
            kind,
            scale,
            points,
        })
    }

    pub fn first_feature(&self) -> &[Point] {
        &self.points[..self.kind.first_feature_size()]
    }

    pub fn second_feature(&self) -> &[Point] {
        &self.points[self.kind.first_feature_size()..]
    }

    /// Subinterval j of depth h. No test where scale and depth pass 6 together.
    pub fn subinterval(&self, h: u32, j: i128) -> Option<Test> {
        let parts = 1i128 << h;
        let points = self.points.map(|point| Point {
            start: between(&point, parts - j, j),
            end: between(&point, parts - j - 1, j + 1),
        });
        Test::new(self.kind, self.scale + h, points)
    }
}

/// start_weight·start + end_weight·end
fn between(point: &Point, start_weight: i128, end_weight: i128) -> Vector {
    let mut sum = [0; 3];
    for axis in 0..3 {
        sum[axis] = start_weight * point.start[axis] + end_weight * point.end[axis];
    }
    sum
}

fn add(p: Vector, q: Vector) -> Vector {
    [p[0] + q[0], p[1] + q[1], p[2] + q[2]]
}

fn less(p: Vector, q: Vector) -> Vector {
    [p[0] - q[0], p[1] - q[1], p[2] - q[2]]
}

fn dot(p: Vector, q: Vector) -> i128 {
    p[0] * q[0] + p[1] * q[1] + p[2] * q[2]
}

fn cross(p: Vector, q: Vector) -> Vector {
    [
        p[1] * q[2] - p[2] * q[1],
        p[2] * q[0] - p[0] * q[2],
        p[0] * q[1] - p[1] * q[0],
    ]
}

/// A filter answers true for struck and false for passed.
pub type Filter = fn(&Test) -> bool;

/// The least and the greatest coordinate of a feature, over start and end.
fn least_and_greatest(feature: &[Point], axis: usize) -> (i128, i128) {
    let mut least = feature[0].start[axis];
    let mut greatest = least;
    for point in feature {
        for coordinate in [point.start[axis], point.end[axis]] {
            least = least.min(coordinate);
            greatest = greatest.max(coordinate);
        }
    }
    (least, greatest)
}

pub fn box_strikes(test: &Test) -> bool {
    for axis in 0..3 {
        let (first_least, first_greatest) = least_and_greatest(test.first_feature(), axis);
        let (second_least, second_greatest) = least_and_greatest(test.second_feature(), axis);
        if first_greatest < second_least || second_greatest < first_least {
            return true;
        }
    }
    false
}

/// All with entries -1, 0 and 1, not all 0, the first that isn't 0 being 1.
pub fn directions() -> Vec<Vector> {
    let mut directions = Vec::new();
    for x in -1..=1 {
        for y in -1..=1 {
            for z in -1..=1 {
                let direction = [x, y, z];
                let first_not_zero = direction.into_iter().find(|&entry| entry != 0);
                if first_not_zero == Some(1) {
                    directions.push(direction);
                }
            }
        }
    }
    directions
}

/// The products of the direction with all differences, at start and at end.
fn products(test: &Test, direction: Vector) -> Vec<i128> {
    let mut products = Vec::new();
    for p in test.first_feature() {
        for q in test.second_feature() {
            products.push(dot(direction, less(p.start, q.start)));
            products.push(dot(direction, less(p.end, q.end)));
        }
    }
    products
}

fn all_above_or_all_below_zero(numbers: &[i128]) -> bool {
    numbers.iter().all(|&number| number > 0) || numbers.iter().all(|&number| number < 0)
}

pub fn slab_strikes(test: &Test) -> bool {
    directions()
        .into_iter()
        .any(|direction| all_above_or_all_below_zero(&products(test, direction)))
}

/// G0, G1, G2, G3 of Plane.
#[allow(non_snake_case)]
pub fn plane_numbers(test: &Test) -> [i128; 4] {
    let [p, a, b, c] = match test.kind {
        Kind::Vf => test.points,
        Kind::Ee => {
            let [u, v, k, l] = test.points;
            [l, k, u, v]
        }
    };
    let va = less(a.end, a.start);
    let vb = less(b.end, b.start);
    let vc = less(c.end, c.start);
    let d0 = less(p.start, a.start);
    let d1 = less(p.end, a.end);
    let n0 = cross(less(b.start, a.start), less(c.start, a.start));
    let n1 = cross(less(b.end, a.end), less(c.end, a.end));
    let twice_n = less(add(n0, n1), cross(less(vb, va), less(vc, va)));
    let A = dot(d0, n0);
    let B = dot(d1, n1);
    let twice_C = dot(d0, twice_n);
    let twice_D = dot(d1, twice_n);
    let E = dot(d0, n1);
    let F = dot(d1, n0);
    [3 * A, twice_C + F, twice_D + E, 3 * B]
}

pub fn plane_strikes(test: &Test) -> bool {
    all_above_or_all_below_zero(&plane_numbers(test))
}

/// The row of Box, Slab and Plane, which strikes what the delivered row strikes.
pub fn row_strikes(test: &Test) -> bool {
    box_strikes(test) || slab_strikes(test) || plane_strikes(test)
}

#[derive(Clone, Copy, Debug, PartialEq)]
pub enum Verdict {
    Passed = 0,
    Struck = 1,
    /// Scale and depth pass 6 together.
    TooDeep = 2,
}

/// Struck at a depth: the filter strikes each of the 2^depth subintervals.
pub fn verdict_at_depth(filter: Filter, test: &Test, depth: u32) -> Verdict {
    if test.scale + depth > GREATEST_SCALE {
        return Verdict::TooDeep;
    }
    for j in 0..1i128 << depth {
        let subinterval = test.subinterval(depth, j).expect("within the bounds");
        if !filter(&subinterval) {
            return Verdict::Passed;
        }
    }
    Verdict::Struck
}

#[cfg(test)]
mod worked_cases {
    use super::*;

    fn moves(start: Vector, end: Vector) -> Point {
        Point { start, end }
    }

    fn rests(place: Vector) -> Point {
        moves(place, place)
    }

    fn vf(points: [Point; 4]) -> Test {
        Test::new(Kind::Vf, 0, points).unwrap()
    }

    /// P from start to end against the resting face T.
    fn against_t(start: Vector, end: Vector) -> Test {
        let [a, b, c] = [[0, 0, 0], [4, 0, 0], [0, 4, 0]].map(rests);
        vf([moves(start, end), a, b, c])
    }

    /// What Box, Slab, Plane and the row answer.
    fn answers(test: &Test) -> [bool; 4] {
        [box_strikes, slab_strikes, plane_strikes, row_strikes].map(|filter: Filter| filter(test))
    }

    /// The first and the last subinterval that the row passes.
    fn window(test: &Test, depth: u32) -> Option<(i128, i128)> {
        let passes = |j: &i128| !row_strikes(&test.subinterval(depth, *j).unwrap());
        let passed: Vec<i128> = (0..1i128 << depth).filter(passes).collect();
        Some((*passed.first()?, *passed.last()?))
    }

    #[test]
    fn case_1_all_three_strike() {
        let test = against_t([1, 1, 1], [1, 1, 3]);
        assert_eq!(plane_numbers(&test), [48, 80, 112, 144]);
        assert_eq!(answers(&test), [true; 4]);
        for depth in 0..=6 {
            assert_eq!(window(&test, depth), None);
            let verdict = verdict_at_depth(row_strikes, &test, depth);
            assert_eq!(verdict, Verdict::Struck);
        }
    }

    #[test]
    fn case_2_is_passed_and_has_windows() {
        let test = against_t([1, 1, 1], [1, 1, -1]);
        assert_eq!(plane_numbers(&test), [48, 16, -16, -48]);
        assert_eq!(answers(&test), [false; 4]);
        assert_eq!(window(&test, 0), Some((0, 0)));
        assert_eq!(window(&test, 1), Some((0, 1)));
        assert_eq!(window(&test, 2), Some((1, 2)));
        assert_eq!(window(&test, 6), Some((31, 32)));
    }

    #[test]
    fn case_3_is_passed() {
        let test = against_t([1, 1, 1], [1, 1, 0]);
        assert_eq!(plane_numbers(&test), [48, 32, 16, 0]);
        assert_eq!(answers(&test), [false; 4]);
    }

    #[test]
    fn case_4_plane_passes_and_box_strikes() {
        let test = against_t([9, 9, 0], [9, 9, 0]);
        assert_eq!(plane_numbers(&test), [0, 0, 0, 0]);
        assert!(!plane_strikes(&test));
        assert!(box_strikes(&test));
        assert!(row_strikes(&test));
    }

    #[test]
    fn case_5_box_passes_and_slab_strikes() {
        let test = vf([
            moves([1, 1, 1], [1, 1, 11]),
            moves([0, 0, 0], [0, 0, 10]),
            moves([4, 0, 0], [4, 0, 10]),
            moves([0, 4, 0], [0, 4, 10]),
        ]);
        assert_eq!(plane_numbers(&test), [48, 48, 48, 48]);
        assert!(!box_strikes(&test));
        assert!(slab_strikes(&test));
        assert!(row_strikes(&test));
    }

    #[test]
    fn case_6_all_pass_and_depth_1_strikes() {
        let test = vf([
            moves([2, 0, 2], [-2, 0, 0]),
            rests([0, 0, 0]),
            moves([1, 0, 0], [0, 0, 1]),
            rests([0, 1, 0]),
        ]);
        assert_eq!(plane_numbers(&test), [6, 0, 0, 6]);
        assert_eq!(answers(&test), [false; 4]);
        let halves = [0, 1].map(|j| test.subinterval(1, j).unwrap());
        assert_eq!(plane_numbers(&halves[0]), [48, 24, 12, 12]);
        assert_eq!(plane_numbers(&halves[1]), [12, 12, 24, 48]);
        for filter in [plane_strikes, row_strikes] {
            assert_eq!(verdict_at_depth(filter, &test, 0), Verdict::Passed);
            assert_eq!(verdict_at_depth(filter, &test, 1), Verdict::Struck);
        }
    }

    #[test]
    fn case_7_is_passed() {
        let points = [
            rests([-2, 0, 0]),
            rests([2, 0, 0]),
            moves([0, -2, 1], [0, -2, -1]),
            moves([0, 2, 1], [0, 2, -1]),
        ];
        let test = Test::new(Kind::Ee, 0, points).unwrap();
        assert_eq!(plane_numbers(&test), [-48, -16, 16, 48]);
        assert_eq!(answers(&test), [false; 4]);
    }

    #[test]
    fn there_are_thirteen_directions() {
        assert_eq!(directions().len(), 13);
    }

    #[test]
    fn scale_and_depth_are_at_most_6_together() {
        let test = against_t([1, 1, 1], [1, 1, 3]);
        assert_eq!(test.subinterval(0, 0), Some(test));
        assert_eq!(test.subinterval(7, 0), None);
        let verdict = verdict_at_depth(row_strikes, &test, 7);
        assert_eq!(verdict, Verdict::TooDeep);
    }
}
