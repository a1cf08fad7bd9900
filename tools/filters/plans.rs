// The example's plan: its tests, and its pairs offered as anyone writes it who does not prove it.

use crate::tests::{Kind, Moving, Test};
use crate::twin;
use std::fs;
use std::io;
use std::path::Path;

/// The files of a plan, which has no faults.
pub struct Files {
    pub text: Vec<u8>,
    pub record: Vec<u8>,
    pub pairs: Vec<u8>,
}

pub struct Plan {
    points: Vec<Moving>,
    faces: Vec<[u16; 3]>,
    pairs: Vec<[u16; 2]>,
}

/// Places of a list.
const ROOM: usize = 512;

/// An inspection: two lists, and the shared, struck, repeated and kept tests of each kind, VF first.
#[derive(Default)]
pub struct Inspection {
    pub vf: Vec<(u16, u16)>,
    pub ee: Vec<[u16; 4]>,
    pub counts: [[u32; 4]; 2],
}

impl Files {
    pub fn read(folder: &Path) -> io::Result<Files> {
        Ok(Files {
            text: fs::read(folder.join("sheet.obj"))?,
            record: fs::read(folder.join("step.bin"))?,
            pairs: fs::read(folder.join("pairs.bin"))?,
        })
    }
}

impl Plan {
    pub fn of(files: &Files) -> Plan {
        let text = std::str::from_utf8(&files.text).expect("a sheet's text is ASCII");
        let mut points = Vec::new();
        let mut faces = Vec::new();
        for line in text.lines() {
            if let Some(fields) = line.strip_prefix("v ") {
                let start = three(fields);
                points.push(Moving { start, end: start });
            } else if let Some(fields) = line.strip_prefix("f ") {
                faces.push(three(fields).map(|number| number as u16 - 1));
            }
        }
        let mut record = files.record.iter();
        let mut next = || *record.next().expect("a record of all points");
        for point in &mut points {
            let map = next();
            for (axis, end) in point.end.iter_mut().enumerate() {
                if map >> axis & 1 == 1 {
                    *end += i64::from(i16::from_le_bytes([next(), next()]));
                }
            }
        }
        let number = |bytes: &[u8]| u16::from_le_bytes([bytes[0], bytes[1]]);
        let pairs = files.pairs.chunks_exact(4);
        let pairs = pairs.map(|pair| [number(&pair[..2]), number(&pair[2..])]);
        Plan {
            points,
            faces,
            pairs: pairs.collect(),
        }
    }

    fn test(&self, kind: Kind, [p, a, b, c]: [u16; 4]) -> Test {
        let at = |point: u16| self.points[usize::from(point)];
        Test {
            kind,
            p: at(p),
            a: at(a),
            b: at(b),
            c: at(c),
        }
    }

    fn vf_test(&self, (point, face): (u16, u16)) -> Test {
        let [a, b, c] = self.faces[usize::from(face)];
        self.test(Kind::Vf, [point, a, b, c])
    }

    fn ee_test(&self, [u, v, k, l]: [u16; 4]) -> Test {
        self.test(Kind::Ee, [l, k, u, v])
    }

    fn vf_names(&self, [one, other]: [u16; 2]) -> [(u16, u16); 6] {
        let [a, b, c] = self.faces[usize::from(one)];
        let [p, q, r] = self.faces[usize::from(other)];
        [(a, other), (b, other), (c, other), (p, one), (q, one), (r, one)]
    }

    fn ee_names(&self, [one, other]: [u16; 2]) -> [[u16; 4]; 9] {
        let [e, f, g] = edges(self.faces[usize::from(one)]);
        let [h, i, j] = edges(self.faces[usize::from(other)]);
        [
            against(e, h),
            against(e, i),
            against(e, j),
            against(f, h),
            against(f, i),
            against(f, j),
            against(g, h),
            against(g, i),
            against(g, j),
        ]
    }

    /// The tests of all pairs that share no point.
    pub fn tests(&self, kind: Kind) -> Vec<Test> {
        let mut tests = Vec::new();
        for &pair in &self.pairs {
            match kind {
                Kind::Vf => {
                    let names = self.vf_names(pair).into_iter();
                    let names = names.filter(|&name| !self.is_vf_shared(name));
                    tests.extend(names.map(|name| self.vf_test(name)));
                }
                Kind::Ee => {
                    let names = self.ee_names(pair).into_iter();
                    let names = names.filter(|&name| !is_ee_shared(name));
                    tests.extend(names.map(|name| self.ee_test(name)));
                }
            }
        }
        tests
    }

    fn is_vf_shared(&self, (point, face): (u16, u16)) -> bool {
        self.faces[usize::from(face)].contains(&point)
    }

    pub fn offers(&self) -> usize {
        self.pairs.len()
    }

    /// Offers all pairs.
    pub fn offer_all(&self, inspection: &mut Inspection, depth: u8) {
        for &pair in &self.pairs {
            self.offer(inspection, pair, depth);
        }
    }

    fn offer(&self, inspection: &mut Inspection, pair: [u16; 2], depth: u8) {
        let struck = |test: &Test| twin::struck_at(&twin::with_box_strikes, test, depth);
        let Inspection { vf, ee, counts } = inspection;
        for name in self.vf_names(pair) {
            let class = if self.is_vf_shared(name) {
                0
            } else if struck(&self.vf_test(name)) {
                1
            } else if vf.contains(&name) {
                2
            } else {
                vf.push(name);
                3
            };
            counts[0][class] += 1;
        }
        for name in self.ee_names(pair) {
            let class = if is_ee_shared(name) {
                0
            } else if struck(&self.ee_test(name)) {
                1
            } else if ee.contains(&name) {
                2
            } else {
                ee.push(name);
                3
            };
            counts[1][class] += 1;
        }
        assert!(vf.len() <= ROOM && ee.len() <= ROOM, "the lists have room");
    }
}

fn three(fields: &str) -> [i64; 3] {
    let mut fields = fields.split(' ');
    [(); 3].map(|()| {
        let field = fields.next().expect("three fields");
        field.parse().expect("a number")
    })
}

/// The lower number first.
fn edges([a, b, c]: [u16; 3]) -> [[u16; 2]; 3] {
    [[a, b], [b, c], [c, a]].map(|[p, q]| [p.min(q), p.max(q)])
}

/// The edge with the lower first number first.
fn against(one: [u16; 2], other: [u16; 2]) -> [u16; 4] {
    let [[u, v], [k, l]] = if other[0] < one[0] {
        [other, one]
    } else {
        [one, other]
    };
    [u, v, k, l]
}

fn is_ee_shared([u, v, k, l]: [u16; 4]) -> bool {
    u == k || u == l || v == k || v == l
}
