// Written from docs/RULES.md alone: an inspection and its report.

use crate::faults::Fault;
use crate::filters::{row_strikes, verdict_at_depth, Kind, Point, Test, Verdict};
use crate::reviewing::Mark;

pub const ROOM: usize = 512;
const MOST_OFFERS: usize = 1_000_000;

#[derive(Clone, Copy, Debug, PartialEq)]
pub enum Name {
    Vf {
        point: usize,
        face: usize,
    },
    /// The points u, v, k, l.
    Ee([usize; 4]),
}

/// The list and the counts of one kind.
#[derive(Clone, Default)]
pub struct Side {
    pub list: Vec<Name>,
    /// One for each entry of the list.
    pub marks: Vec<Mark>,
    kept: usize,
    struck: usize,
    shared: usize,
    repeated: usize,
}

pub struct Inspection {
    points: Vec<Point>,
    faces: Vec<[usize; 3]>,
    depth: u32,
    pub vf: Side,
    pub ee: Side,
    accepted: usize,
}

/// Lower numbers first: within each edge, and of the edges by their first numbers.
fn name_of_edges(first: [usize; 2], second: [usize; 2]) -> Name {
    let [u, v] = [first[0].min(first[1]), first[0].max(first[1])];
    let [k, l] = [second[0].min(second[1]), second[0].max(second[1])];
    if k < u {
        Name::Ee([k, l, u, v])
    } else {
        Name::Ee([u, v, k, l])
    }
}

fn edges([a, b, c]: [usize; 3]) -> [[usize; 2]; 3] {
    [[a, b], [b, c], [c, a]]
}

impl Inspection {
    pub fn open(points: Vec<Point>, faces: Vec<[usize; 3]>, depth: u32) -> Result<Self, Fault> {
        if depth > 6 {
            return Err(Fault::new(15, "opening", depth as usize, 0));
        }
        Ok(Inspection {
            points,
            faces,
            depth,
            vf: Side::default(),
            ee: Side::default(),
            accepted: 0,
        })
    }

    /// Offers two faces. A refused offer changes nothing.
    pub fn offer(&mut self, first: usize, second: usize) -> Result<(), Fault> {
        self.check(first, second)?;
        let mut vf = self.vf.clone();
        let mut ee = self.ee.clone();
        for name in self.fifteen(first, second) {
            match name {
                Name::Vf { .. } => self.class(name, &mut vf),
                Name::Ee(_) => self.class(name, &mut ee),
            }
        }
        if vf.list.len() > ROOM || ee.list.len() > ROOM {
            return Err(Fault::new(21, "offer", 0, 0));
        }
        self.vf = vf;
        self.ee = ee;
        self.accepted += 1;
        Ok(())
    }

    /// The tables are the sheet's own and its faces name its points, so 16 and 19 fit no offer.
    fn check(&self, first: usize, second: usize) -> Result<(), Fault> {
        for face in [first, second] {
            if face >= self.faces.len() {
                return Err(Fault::new(17, "offer", face, 0));
            }
        }
        if first == second {
            return Err(Fault::new(18, "offer", first, 0));
        }
        if self.accepted >= MOST_OFFERS {
            return Err(Fault::new(20, "offer", 0, 0));
        }
        Ok(())
    }

    /// The names of the fifteen tests, in their order.
    fn fifteen(&self, first: usize, second: usize) -> Vec<Name> {
        let mut names = Vec::new();
        for (from, face) in [(first, second), (second, first)] {
            for point in self.faces[from] {
                names.push(Name::Vf { point, face });
            }
        }
        for edge in edges(self.faces[first]) {
            for other in edges(self.faces[second]) {
                names.push(name_of_edges(edge, other));
            }
        }
        names
    }

    /// Classes the test by the first rule that fits.
    fn class(&self, name: Name, side: &mut Side) {
        if self.is_shared(name) {
            side.shared += 1;
        } else if verdict_at_depth(row_strikes, &self.test(name), self.depth) == Verdict::Struck {
            side.struck += 1;
        } else if side.list.contains(&name) {
            side.repeated += 1;
        } else {
            side.list.push(name);
            side.marks.push(Mark::Free);
            side.kept += 1;
        }
    }

    fn is_shared(&self, name: Name) -> bool {
        match name {
            Name::Vf { point, face } => self.faces[face].contains(&point),
            Name::Ee([u, v, k, l]) => u == k || u == l || v == k || v == l,
        }
    }

    fn test(&self, name: Name) -> Test {
        let (kind, numbers) = match name {
            Name::Vf { point, face } => {
                let [a, b, c] = self.faces[face];
                (Kind::Vf, [point, a, b, c])
            }
            Name::Ee(numbers) => (Kind::Ee, numbers),
        };
        let points = numbers.map(|number| self.points[number]);
        Test::new(kind, 0, points).expect("the sheet is within the bounds")
    }

    /// The first and the last subinterval that the filter passes.
    fn window(&self, name: Name) -> Option<(i128, i128)> {
        let test = self.test(name);
        let mut passed = Vec::new();
        for j in 0..1i128 << self.depth {
            if !row_strikes(&test.subinterval(self.depth, j)?) {
                passed.push(j);
            }
        }
        Some((*passed.first()?, *passed.last()?))
    }

    /// The first subinterval that the filter passes, asked from the front, and how many it is asked.
    fn earliest(&self, name: Name) -> (Option<i128>, i128) {
        let test = self.test(name);
        let all = 1i128 << self.depth;
        for j in 0..all {
            let part = test.subinterval(self.depth, j).expect("a sheet's test has parts");
            if !row_strikes(&part) {
                return (Some(j), j + 1);
            }
        }
        (None, all)
    }

    /// What is asked about each entry, a line for each.
    pub fn answers(&self) -> String {
        let mut lines = String::new();
        for (kind, side) in [("VF", &self.vf), ("EE", &self.ee)] {
            for &name in &side.list {
                let (part, put) = self.earliest(name);
                let part = part.map_or("-".to_string(), |part| part.to_string());
                let window = self.told_window(name);
                let name = numbers(name);
                lines += &format!("{kind} {name} window {window} earliest {part} put {put}\n");
            }
        }
        lines
    }

    pub fn report(&self) -> String {
        let mut report = String::new();
        for (kind, side) in [("VF", &self.vf), ("EE", &self.ee)] {
            for &name in &side.list {
                report += &format!("{kind} {} {}\n", numbers(name), self.told_window(name));
            }
            let [kept, struck] = [side.kept, side.struck];
            let [shared, repeated] = [side.shared, side.repeated];
            report += &format!(
                "{kind} kept {kept} struck {struck} shared {shared} repeated {repeated}\n"
            );
        }
        report
    }

    fn told_window(&self, name: Name) -> String {
        match self.window(name) {
            Some((first, last)) => format!("{first} {last}"),
            None => "- -".to_string(),
        }
    }
}

/// What a name is made of, with spaces between.
fn numbers(name: Name) -> String {
    match name {
        Name::Vf { point, face } => format!("{point} {face}"),
        Name::Ee([u, v, k, l]) => format!("{u} {v} {k} {l}"),
    }
}

#[cfg(test)]
mod worked_cases {
    use super::*;
    use crate::filters::Vector;

    fn moves(start: Vector, end: Vector) -> Point {
        Point { start, end }
    }

    /// Two faces; the first corner of the second goes through the first.
    fn two_faces(depth: u32) -> Inspection {
        let points = vec![
            moves([0, 0, 0], [0, 0, 0]),
            moves([4, 0, 0], [4, 0, 0]),
            moves([0, 4, 0], [0, 4, 0]),
            moves([1, 1, 1], [1, 1, -1]),
            moves([1, 1, 9], [1, 1, 9]),
            moves([2, 1, 9], [2, 1, 9]),
        ];
        Inspection::open(points, vec![[0, 1, 2], [3, 4, 5]], depth).unwrap()
    }

    fn refused(inspection: &mut Inspection, first: usize, second: usize) -> String {
        inspection.offer(first, second).unwrap_err().to_string()
    }

    #[test]
    fn fifteen_tests_in_their_order() {
        let inspection = two_faces(2);
        let mut names = Vec::new();
        for (point, face) in [(3, 0), (4, 0), (5, 0), (0, 1), (1, 1), (2, 1)] {
            names.push(Name::Vf { point, face });
        }
        for [u, v] in [[0, 1], [1, 2], [0, 2]] {
            for [k, l] in [[3, 4], [4, 5], [3, 5]] {
                names.push(Name::Ee([u, v, k, l]));
            }
        }
        assert_eq!(inspection.fifteen(1, 0)[..6], names[..6]);
        assert_eq!(inspection.fifteen(0, 1)[6..], names[6..]);
        assert_eq!(inspection.fifteen(0, 1)[..3], names[3..6]);
        // the edges of face 1 in the outer place, and the names none the less the same
        assert_eq!(inspection.fifteen(1, 0)[7], Name::Ee([1, 2, 3, 4]));
    }

    #[test]
    fn windows_at_the_depths() {
        for (depth, window) in [(0, "0 0"), (1, "0 1"), (2, "1 2"), (6, "31 32")] {
            let mut inspection = two_faces(depth);
            inspection.offer(0, 1).unwrap();
            let report = inspection.report();
            assert_eq!(report.lines().next(), Some(&*format!("VF 3 0 {window}")));
        }
        for (depth, earliest) in [(0, "0 put 1"), (1, "0 put 1"), (2, "1 put 2"), (6, "31 put 32")] {
            let mut inspection = two_faces(depth);
            inspection.offer(0, 1).unwrap();
            assert!(inspection.answers().ends_with(&format!(" earliest {earliest}\n")));
        }
        let too_deep = Inspection::open(vec![], vec![], 7).err().unwrap();
        assert_eq!(too_deep.to_string(), "fault 15 opening 7 0");
    }

    #[test]
    fn an_offer_in_either_order_repeats() {
        let mut inspection = two_faces(2);
        inspection.offer(0, 1).unwrap();
        inspection.offer(1, 0).unwrap();
        let report = "VF 3 0 1 2\n\
                      VF kept 1 struck 10 shared 0 repeated 1\n\
                      EE kept 0 struck 18 shared 0 repeated 0\n";
        assert_eq!(inspection.report(), report);
    }

    #[test]
    fn a_deeper_setting_may_leave_no_window() {
        let points = vec![
            moves([2, 0, 2], [-2, 0, 0]),
            moves([0, 0, 0], [0, 0, 0]),
            moves([1, 0, 0], [0, 0, 1]),
            moves([0, 1, 0], [0, 1, 0]),
            moves([9, 9, 9], [9, 9, 9]),
        ];
        let faces = vec![[1, 2, 3], [0, 3, 4]];
        let mut inspection = Inspection::open(points, faces, 0).unwrap();
        inspection.offer(0, 1).unwrap();
        assert!(inspection.report().contains("VF 0 0 0 0\n"));
        inspection.depth = 1;
        assert!(inspection.report().contains("VF 0 0 - -\n"));
        assert!(inspection.answers().contains("VF 0 0 window - - earliest - put 2\n"));
    }

    #[test]
    fn faces_with_a_common_edge_share() {
        let points = vec![moves([0; 3], [0; 3]); 4];
        let mut inspection = Inspection::open(points, vec![[0, 1, 2], [2, 1, 3]], 2).unwrap();
        inspection.offer(0, 1).unwrap();
        let [vf, ee] = [&inspection.vf, &inspection.ee];
        assert_eq!([vf.kept, vf.struck, vf.shared, vf.repeated], [2, 0, 4, 0]);
        assert_eq!([ee.kept, ee.struck, ee.shared, ee.repeated], [2, 0, 7, 0]);
        assert_eq!(ee.list, [Name::Ee([0, 1, 2, 3]), Name::Ee([0, 2, 1, 3])]);
    }

    #[test]
    fn refused_offers_change_nothing() {
        let mut inspection = two_faces(2);
        let before = inspection.report();
        assert_eq!(refused(&mut inspection, 2, 9), "fault 17 offer 2 0");
        assert_eq!(refused(&mut inspection, 0, 65535), "fault 17 offer 65535 0");
        assert_eq!(refused(&mut inspection, 9, 9), "fault 17 offer 9 0");
        assert_eq!(refused(&mut inspection, 1, 1), "fault 18 offer 1 0");
        inspection.accepted = MOST_OFFERS;
        assert_eq!(refused(&mut inspection, 0, 1), "fault 20 offer 0 0");
        assert_eq!(inspection.report(), before);
        inspection.accepted = MOST_OFFERS - 1;
        assert_eq!(inspection.offer(0, 1), Ok(()));
    }

    #[test]
    fn a_full_list_takes_no_new_entry() {
        // all points in one place, so nothing is struck: two faces give 6 and 9 new entries
        let points = vec![moves([0; 3], [0; 3]); 360];
        let faces = (0..120).map(|i| [3 * i, 3 * i + 1, 3 * i + 2]).collect();
        let mut inspection = Inspection::open(points, faces, 2).unwrap();
        for i in 0..56 {
            inspection.offer(2 * i, 2 * i + 1).unwrap();
        }
        let before = inspection.report();
        assert_eq!(
            [inspection.vf.list.len(), inspection.ee.list.len()],
            [336, 504]
        );
        assert_eq!(refused(&mut inspection, 112, 113), "fault 21 offer 0 0");
        assert_eq!(inspection.report(), before);
        assert_eq!(inspection.offer(1, 0), Ok(()));
        assert_eq!(inspection.ee.repeated, 9);
    }
}
