// The sheets that are searched: points with start and end, and faces.

#[repr(C)]
#[derive(Clone, Copy, Debug, Default, PartialEq, Eq)]
pub struct Coords {
    pub x: i16,
    pub y: i16,
    pub z: i16,
}

#[repr(C)]
#[derive(Clone, Copy, Debug, Default, PartialEq, Eq)]
pub struct Point {
    pub start: Coords,
    pub end: Coords,
}

#[repr(C)]
#[derive(Clone, Copy, Debug, Default, PartialEq, Eq)]
pub struct Face {
    pub corners: [u16; 3],
}

/// The least and the greatest coordinates.
#[repr(C)]
#[derive(Clone, Copy, Debug, Default, PartialEq, Eq)]
pub struct SweptBox {
    pub least: Coords,
    pub greatest: Coords,
}

/// A place of the search's tree.
#[repr(C)]
#[derive(Clone, Copy, Debug, Default, PartialEq, Eq)]
pub struct Node {
    pub first: u16,
    pub count: u16,
    pub bounds: SweptBox,
}

/// Two different faces, the lower number first.
#[repr(C)]
#[derive(Clone, Copy, Debug, Default, PartialEq, Eq)]
pub struct Pair {
    pub first: u16,
    pub second: u16,
}

pub struct Sheet {
    pub name: &'static str,
    pub points: Vec<Point>,
    pub faces: Vec<Face>,
}

impl Coords {
    fn least(self, other: Coords) -> Coords {
        Coords {
            x: self.x.min(other.x),
            y: self.y.min(other.y),
            z: self.z.min(other.z),
        }
    }

    fn greatest(self, other: Coords) -> Coords {
        Coords {
            x: self.x.max(other.x),
            y: self.y.max(other.y),
            z: self.z.max(other.z),
        }
    }
}

impl Sheet {
    fn swept_box(&self, face: &Face) -> SweptBox {
        let corners = face.corners.map(|corner| self.points[usize::from(corner)]);
        let [p, q, r] = corners.map(|point| point.start.least(point.end));
        let [s, t, u] = corners.map(|point| point.start.greatest(point.end));
        SweptBox {
            least: p.least(q).least(r),
            greatest: s.greatest(t).greatest(u),
        }
    }

    pub fn swept_boxes(&self) -> Vec<SweptBox> {
        self.faces.iter().map(|face| self.swept_box(face)).collect()
    }
}

/// Cells in a row, and rows.
const CELLS: usize = 43;

/// The pseudo-random numbers of `verdicts`.
pub struct Numbers(pub u64);

impl Numbers {
    /// A number from 0 to below the bound.
    pub fn below(&mut self, bound: usize) -> usize {
        self.0 = self
            .0
            .wrapping_mul(6364136223846793005)
            .wrapping_add(1442695040888963407);
        (self.0 >> 33) as usize % bound
    }

    fn from_to(&mut self, least: i16, greatest: i16) -> i16 {
        least + self.below((greatest - least + 1) as usize) as i16
    }

    fn place(&mut self, around: Coords, reach: i16) -> Coords {
        let mut near = |middle: i16| (middle + self.from_to(-reach, reach)).clamp(-4096, 4096);
        Coords {
            x: near(around.x),
            y: near(around.y),
            z: near(around.z),
        }
    }
}

/// A point of the Miura fold: rhombs with an angle of 60 degrees, each tilted by an angle (tools/example/miura.rs).
fn folded(row: usize, column: usize, side: f64, tilt: f64) -> Coords {
    let sine = 0.75_f64.sqrt();
    let depth = (1.0 - (sine * tilt.sin()).powi(2)).sqrt();
    let width = sine * tilt.cos() / depth;
    let height = sine * tilt.sin();
    let sign = |number: usize| if number % 2 == 0 { -0.5 } else { 0.5 };
    let middle = CELLS as f64 / 2.0;
    let x = width * (column as f64 - middle);
    let y = depth * (row as f64 - middle) + 0.5 / depth * sign(column);
    let z = height * sign(row);
    let whole = |length: f64| (side * length).round() as i16;
    Coords {
        x: whole(x),
        y: whole(y),
        z: whole(z),
    }
}

/// A grid of two triangles a cell, folded from one tilt to another, in degrees.
pub fn grid(name: &'static str, from: f64, to: f64) -> Sheet {
    let side = 180.0;
    let mut points = Vec::new();
    let mut faces = Vec::new();
    for row in 0..=CELLS {
        for column in 0..=CELLS {
            points.push(Point {
                start: folded(row, column, side, from.to_radians()),
                end: folded(row, column, side, to.to_radians()),
            });
        }
    }
    for row in 0..CELLS {
        for column in 0..CELLS {
            let here = (row * (CELLS + 1) + column) as u16;
            let below = here + CELLS as u16 + 1;
            faces.push(Face {
                corners: [here, here + 1, below + 1],
            });
            faces.push(Face {
                corners: [here, below + 1, below],
            });
        }
    }
    Sheet {
        name,
        points,
        faces,
    }
}

/// The same sheet, its faces numbered at random.
pub fn shuffled(name: &'static str, mut sheet: Sheet) -> Sheet {
    let mut numbers = Numbers(1);
    for i in (1..sheet.faces.len()).rev() {
        sheet.faces.swap(i, numbers.below(i + 1));
    }
    Sheet { name, ..sheet }
}

const MIDDLE: Coords = Coords { x: 0, y: 0, z: 0 };

/// 4,096 triangles over 2,048 points: the corners are any points (`near` is 0), or one point and two of the nearest to it.
pub fn shared_soup(name: &'static str, near: usize) -> Sheet {
    let mut numbers = Numbers(3);
    let mut points = Vec::new();
    for _ in 0..2048 {
        let start = numbers.place(MIDDLE, 4096);
        let end = numbers.place(start, 50);
        points.push(Point { start, end });
    }
    let mut faces = Vec::new();
    for i in 0..4096usize {
        let first = i / 2;
        let far = |j: &usize| {
            let (p, q) = (points[first].start, points[*j].start);
            let square = |a: i16, b: i16| (i64::from(a) - i64::from(b)).pow(2);
            square(p.x, q.x) + square(p.y, q.y) + square(p.z, q.z)
        };
        let mut others: Vec<usize> = (0..2048).filter(|&j| j != first).collect();
        if near > 0 {
            others.sort_by_key(far);
            others.truncate(near);
        }
        let second = others.swap_remove(numbers.below(others.len()));
        let third = others.swap_remove(numbers.below(others.len()));
        faces.push(Face {
            corners: [first, second, third].map(|corner| corner as u16),
        });
    }
    Sheet {
        name,
        points,
        faces,
    }
}
