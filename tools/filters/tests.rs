// The tests that are put to the filters, drawn by a generator.

pub type V3 = [i64; 3];

/// A point that goes in a straight line.
#[derive(Clone, Copy)]
pub struct Moving {
    pub start: V3,
    pub end: V3,
}

#[derive(Clone, Copy, PartialEq)]
pub enum Kind {
    /// The point p against the face a, b, c.
    Vf,
    /// The edge from b to c against the edge from a to p.
    Ee,
}

#[derive(Clone, Copy)]
pub struct Test {
    pub kind: Kind,
    pub p: Moving,
    pub a: Moving,
    pub b: Moving,
    pub c: Moving,
}

/// How tests of a class are drawn.
#[derive(Clone, Copy)]
pub enum Class {
    /// All coordinates are any.
    Uniform,
    /// Four points close to each other, with short moves.
    Near,
    /// Two features, each of a near test, at any two places.
    Far,
    /// Two features that touch at half the step, but for rounding.
    Crossing,
}

impl Test {
    /// The numbers of p, a, b and c, as entry.txt takes them.
    pub fn numbers(&self) -> impl Iterator<Item = i64> {
        let points = [self.p, self.a, self.b, self.c];
        points
            .into_iter()
            .flat_map(|point| point.start.into_iter().chain(point.end))
    }
}

const BOUND: i64 = 4096;
const MIDDLE: V3 = [0; 3];

/// The pseudo-random numbers of `verdicts`.
pub struct Numbers(pub u64);

impl Numbers {
    fn from_to(&mut self, least: i64, greatest: i64) -> i64 {
        self.0 = self
            .0
            .wrapping_mul(6364136223846793005)
            .wrapping_add(1442695040888963407);
        least + (self.0 >> 33) as i64 % (greatest - least + 1)
    }

    fn place(&mut self, around: V3, reach: i64) -> V3 {
        around.map(|middle| (middle + self.from_to(-reach, reach)).clamp(-BOUND, BOUND))
    }

    fn moving(&mut self, around: V3, reach: i64, way: i64) -> Moving {
        let start = self.place(around, reach);
        let end = self.place(start, way);
        Moving { start, end }
    }

    fn anywhere(&mut self, reach: i64) -> Moving {
        Moving {
            start: self.place(MIDDLE, reach),
            end: self.place(MIDDLE, reach),
        }
    }

    /// A point that is at this place at half the step, given by the sum of start and end.
    fn through(&mut self, sum: V3) -> Moving {
        let start = sum.map(|sum| self.from_to((sum - BOUND).max(-BOUND), (sum + BOUND).min(BOUND)));
        let mut end = sum;
        for (end, start) in end.iter_mut().zip(start) {
            *end -= start;
        }
        Moving { start, end }
    }

    /// Of four points, p is of one feature with none, with b and c, or with a, as the kind has it.
    pub fn test(&mut self, class: Class, kind: Kind) -> Test {
        let [p, a, b, c] = match class {
            Class::Uniform => [(); 4].map(|()| self.anywhere(BOUND)),
            Class::Near => {
                let middle = self.place(MIDDLE, BOUND - 200);
                [(); 4].map(|()| self.moving(middle, 100, 20))
            }
            Class::Far => {
                let [first, second] = [(); 2].map(|()| self.place(MIDDLE, BOUND - 200));
                let sides = match kind {
                    Kind::Vf => [first, second, second, second],
                    Kind::Ee => [second, second, first, first],
                };
                sides.map(|side| self.moving(side, 100, 20))
            }
            Class::Crossing => self.crossing(kind),
        };
        Test { kind, p, a, b, c }
    }

    fn crossing(&mut self, kind: Kind) -> [Moving; 4] {
        // a third of the bounds, so that p is within them
        let [a, b, c] = [(); 3].map(|()| self.anywhere(BOUND / 3));
        let sum = |m: &Moving, axis: usize| m.start[axis] + m.end[axis];
        let p = match kind {
            // the mean of the corners with weights 2, 1 and 1
            Kind::Vf => self.through([0, 1, 2].map(|axis| {
                (2 * sum(&a, axis) + sum(&b, axis) + sum(&c, axis)) / 4
            })),
            // behind the middle of b and c as seen from a, at twice the way
            Kind::Ee => self.through([0, 1, 2].map(|axis| {
                sum(&b, axis) + sum(&c, axis) - sum(&a, axis)
            })),
        };
        [p, a, b, c]
    }
}
