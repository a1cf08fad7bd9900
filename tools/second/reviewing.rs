// Written from docs/RULES.md alone: several people at one list, and the example `example_reviewers`.

use crate::faults::Fault;
use crate::filters::Kind;
use crate::inspection::{Inspection, Side};
use crate::{record, sheet};

const REVIEWERS: std::ops::RangeInclusive<usize> = 1..=8;

/// How an entry stands.
#[derive(Clone, Copy, Debug, PartialEq)]
pub enum Mark {
    Free,
    /// By the reviewer of this number.
    Taken(usize),
    Seen,
}

/// What a reviewer holds for an entry. A taking alone makes one, and nothing copies it. (Rust refuses no program that lets one go.)
#[must_use]
#[derive(Debug)]
pub struct Slip {
    kind: Kind,
    number: usize,
    reviewer: usize,
}

/// As what a slip is handed in.
#[derive(Clone, Copy)]
pub enum As {
    Free,
    Seen,
}

/// The fault of a call: its number, and the number that it tells of.
fn fault(which: u32, place: usize) -> Fault {
    Fault::new(which, "slip", place, 0)
}

impl Side {
    fn mark(&mut self, number: usize) -> Result<&mut Mark, Fault> {
        self.marks.get_mut(number).ok_or(fault(22, number))
    }
}

impl Inspection {
    fn side(&mut self, kind: Kind) -> &mut Side {
        match kind {
            Kind::Vf => &mut self.vf,
            Kind::Ee => &mut self.ee,
        }
    }

    pub fn take(&mut self, kind: Kind, number: usize, reviewer: usize) -> Result<Slip, Fault> {
        if !REVIEWERS.contains(&reviewer) {
            return Err(fault(26, reviewer));
        }
        let mark = self.side(kind).mark(number)?;
        if *mark != Mark::Free {
            return Err(fault(27, number));
        }
        *mark = Mark::Taken(reviewer);
        Ok(Slip {
            kind,
            number,
            reviewer,
        })
    }

    /// A slip that is not accepted stays with its reviewer.
    pub fn hand_in(&mut self, slip: Slip, way: As) -> Result<(), (Fault, Slip)> {
        let mark = match self.side(slip.kind).mark(slip.number) {
            Ok(mark) => mark,
            Err(fault) => return Err((fault, slip)),
        };
        if *mark != Mark::Taken(slip.reviewer) {
            return Err((fault(28, slip.number), slip));
        }
        *mark = match way {
            As::Free => Mark::Free,
            As::Seen => Mark::Seen,
        };
        Ok(())
    }

    /// How an entry stands; not by whom it is taken.
    pub fn ask(&mut self, kind: Kind, number: usize) -> Result<&'static str, Fault> {
        Ok(match self.side(kind).mark(number)? {
            Mark::Free => "free",
            Mark::Taken(_) => "taken",
            Mark::Seen => "seen",
        })
    }
}

impl Slip {
    /// Ends a slip that has outlived its lists.
    pub fn void(self) {}

    /// What its reviewer does with it.
    fn told(&self, deed: &str) -> String {
        told(self.reviewer, deed, self.kind, self.number)
    }
}

fn told(reviewer: usize, deed: &str, kind: Kind, number: usize) -> String {
    format!("{reviewer} {deed} {} {number}", word(kind))
}

fn word(kind: Kind) -> &'static str {
    match kind {
        Kind::Vf => "VF",
        Kind::Ee => "EE",
    }
}

const SHEET: &[u8] = b"v 0 0 0\nv 8 0 0\nv 0 8 0\nv 1 1 1\nv 2 1 1\nv 6 6 1\nf 1 2 3\nf 4 5 6\n";
const STEP: &[u8] = &[0, 0, 0, 4, 0xFE, 0xFF, 4, 0xFE, 0xFF, 4, 0xFE, 0xFF];
const DEPTH: u32 = 2;

struct Session {
    inspection: Inspection,
    /// Those that are out, the latest last.
    slips: Vec<Slip>,
    lines: String,
}

impl Session {
    fn open() -> Result<Session, Fault> {
        let sheet = sheet::read(SHEET)?;
        let points = record::lay(STEP, &sheet.points)?;
        let mut inspection = Inspection::open(points, sheet.faces, DEPTH)?;
        inspection.offer(0, 1)?;
        Ok(Session {
            inspection,
            slips: vec![],
            lines: String::new(),
        })
    }

    /// Tells of a deed, and of its fault if it is refused.
    fn tell(&mut self, deed: String, outcome: Result<(), Fault>) {
        self.lines += &match outcome {
            Ok(()) => format!("{deed}\n"),
            Err(fault) => format!("{deed}: {fault}\n"),
        };
    }

    fn take(&mut self, reviewer: usize, kind: Kind, number: usize) {
        let taken = self.inspection.take(kind, number, reviewer);
        let outcome = taken.map(|slip| self.slips.push(slip));
        self.tell(told(reviewer, "takes", kind, number), outcome);
    }

    /// Hands in the latest slip.
    fn hand_in(&mut self, way: As) {
        let slip = self.slips.pop().expect("a slip is out");
        let deed = slip.told(match way {
            As::Free => "frees",
            As::Seen => "has seen",
        });
        let returned = self.inspection.hand_in(slip, way);
        let outcome = returned.map_err(|(fault, slip)| {
            self.slips.push(slip);
            fault
        });
        self.tell(deed, outcome);
    }

    fn count_out(&self, kind: Kind) -> usize {
        self.slips.iter().filter(|slip| slip.kind == kind).count()
    }

    /// Closes the inspection, so the lists are gone, and voids what slips are out.
    fn close(self) -> String {
        drop(self.inspection);
        let mut lines = self.lines;
        for slip in self.slips {
            lines += &format!("{}\n", slip.told("voids"));
            slip.void();
        }
        lines
    }
}

/// What `example_reviewers` prints.
pub fn review() -> Result<String, Fault> {
    let mut session = Session::open()?;
    let [vf, ee] = [Kind::Vf, Kind::Ee].map(|kind| session.inspection.side(kind).list.len());
    let mut entries: Vec<_> = (0..vf).map(|number| (Kind::Vf, number)).collect();
    entries.extend((0..ee).map(|number| (Kind::Ee, number)));
    for &(kind, number) in &entries {
        session.take(1, kind, number);
        session.take(2, kind, number);
        session.hand_in(As::Free);
        session.take(2, kind, number);
        if (kind, number + 1) != (Kind::Ee, ee) {
            session.hand_in(As::Seen);
        }
    }
    for (kind, number) in entries {
        let stands = session.inspection.ask(kind, number)?;
        session.lines += &format!("{} {number} {stands}\n", word(kind));
    }
    let [vf, ee] = [Kind::Vf, Kind::Ee].map(|kind| session.count_out(kind));
    session.lines += &format!("slips out: VF {vf} EE {ee}\n");
    Ok(session.close())
}

#[cfg(test)]
mod worked_cases {
    use super::*;
    use crate::filters::Point;
    use Kind::{Ee, Vf};

    /// Faces in one place, so nothing is struck: each offer gives 6 VF and 9 EE entries.
    fn in_one_place(offers: usize) -> Inspection {
        let [start, end] = [[0; 3]; 2];
        let faces = (0..120).map(|i| [3 * i, 3 * i + 1, 3 * i + 2]).collect();
        let mut inspection = Inspection::open(vec![Point { start, end }; 360], faces, 2).unwrap();
        for i in 0..offers {
            inspection.offer(2 * i, 2 * i + 1).unwrap();
        }
        inspection
    }

    fn marks(inspection: &Inspection) -> [Vec<Mark>; 2] {
        [inspection.vf.marks.clone(), inspection.ee.marks.clone()]
    }

    /// A slip that is accepted is gone; of one that is not, the fault's line and the slip.
    fn hand_in(inspection: &mut Inspection, slip: Slip, way: As) -> Option<(String, Slip)> {
        let refused = inspection.hand_in(slip, way).err()?;
        Some((refused.0.to_string(), refused.1))
    }

    #[test]
    fn what_no_reviewer_can_take() {
        let mut inspection = in_one_place(1);
        let slip = inspection.take(Ee, 8, 1).unwrap();
        assert!(hand_in(&mut inspection, slip, As::Seen).is_none());
        let slip = inspection.take(Vf, 5, 8).unwrap();
        let before = marks(&inspection);
        for (kind, number, reviewer, line) in [
            (Vf, 0, 0, "fault 26 slip 0 0"),
            (Vf, 5, 9, "fault 26 slip 9 0"),
            (Ee, 9, 65535, "fault 26 slip 65535 0"),
            (Vf, 6, 8, "fault 22 slip 6 0"),
            (Ee, 9, 1, "fault 22 slip 9 0"),
            // taken by another, by the same reviewer, and seen
            (Vf, 5, 1, "fault 27 slip 5 0"),
            (Vf, 5, 8, "fault 27 slip 5 0"),
            (Ee, 8, 1, "fault 27 slip 8 0"),
        ] {
            let refused = inspection.take(kind, number, reviewer).unwrap_err();
            assert_eq!(refused.to_string(), line);
            assert_eq!(marks(&inspection), before);
        }
        assert!(hand_in(&mut inspection, slip, As::Free).is_none());
        assert!(inspection.take(Vf, 5, 1).is_ok());
    }

    #[test]
    fn how_entries_stand() {
        let mut inspection = in_one_place(1);
        assert_eq!(inspection.ask(Vf, 0), Ok("free"));
        for reviewer in [1, 8] {
            let slip = inspection.take(Vf, 0, reviewer).unwrap();
            assert_eq!(inspection.ask(Vf, 0), Ok("taken"));
            assert!(hand_in(&mut inspection, slip, As::Free).is_none());
        }
        let slip = inspection.take(Ee, 8, 1).unwrap();
        assert!(hand_in(&mut inspection, slip, As::Seen).is_none());
        assert_eq!(inspection.ask(Ee, 8), Ok("seen"));
        for (kind, number) in [(Vf, 6), (Ee, 9)] {
            let refused = inspection.ask(kind, number).unwrap_err().to_string();
            assert_eq!(refused, format!("fault 22 slip {number} 0"));
        }
    }

    #[test]
    fn slips_from_other_lists() {
        let mut other = in_one_place(2);
        let mut here = in_one_place(1);
        let slip = here.take(Vf, 1, 2).unwrap();
        let seen = here.take(Vf, 2, 1).unwrap();
        assert!(hand_in(&mut here, seen, As::Seen).is_none());
        let before = marks(&here);
        for (kind, number, line) in [
            (Vf, 6, "fault 22 slip 6 0"),
            (Ee, 9, "fault 22 slip 9 0"),
            // free here, taken by another, and seen
            (Vf, 0, "fault 28 slip 0 0"),
            (Vf, 1, "fault 28 slip 1 0"),
            (Vf, 2, "fault 28 slip 2 0"),
        ] {
            let strange = other.take(kind, number, 1).unwrap();
            let (told, strange) = hand_in(&mut here, strange, As::Free).unwrap();
            assert_eq!(told, line);
            assert_eq!(marks(&here), before);
            assert!(hand_in(&mut other, strange, As::Free).is_none());
            assert_eq!(other.ask(kind, number), Ok("free"));
        }
        // taken for one of these, so the slip from here comes too late
        let strange = other.take(Vf, 1, 2).unwrap();
        assert!(hand_in(&mut here, strange, As::Free).is_none());
        assert_eq!(hand_in(&mut here, slip, As::Seen).unwrap().0, "fault 28 slip 1 0");
        assert_eq!(here.ask(Vf, 1), Ok("free"));
    }

    #[test]
    fn offers_and_marks_leave_each_other_alone() {
        let plain = in_one_place(56);
        let mut marked = in_one_place(1);
        let mut expected = [vec![Mark::Free; 336], vec![Mark::Free; 504]];
        for (side, kind) in [Vf, Ee].into_iter().enumerate() {
            let seen = marked.take(kind, 0, 3).unwrap();
            assert!(hand_in(&mut marked, seen, As::Seen).is_none());
            marked.take(kind, 2, 4).unwrap().void();
            expected[side][0] = Mark::Seen;
            expected[side][2] = Mark::Taken(4);
        }
        for i in 1..56 {
            marked.offer(2 * i, 2 * i + 1).unwrap();
        }
        assert_eq!(marked.report(), plain.report());
        assert_eq!(marked.answers(), plain.answers());
        assert_eq!(marks(&marked), expected);
        assert!(marked.offer(112, 113).is_err());
        assert!(marked.offer(1, 0).is_ok());
        assert_eq!(marks(&marked), expected);
    }

    #[test]
    fn slips_and_taken_entries_agree() {
        let mut inspection = in_one_place(1);
        let mut slips: Vec<Slip> = vec![];
        for turn in 0..2000 {
            if turn % 3 == 0 && !slips.is_empty() {
                let slip = slips.swap_remove(turn % slips.len());
                let way = if turn % 200 == 0 { As::Seen } else { As::Free };
                assert!(hand_in(&mut inspection, slip, way).is_none());
            }
            let kind = if turn % 5 < 2 { Vf } else { Ee };
            slips.extend(inspection.take(kind, turn * 7 % 11, turn % 10));
            let mut left = marks(&inspection);
            for slip in &slips {
                let mark = &mut left[usize::from(slip.kind == Ee)][slip.number];
                assert_eq!(*mark, Mark::Taken(slip.reviewer));
                *mark = Mark::Free;
            }
            assert!(!left.iter().flatten().any(|mark| matches!(mark, Mark::Taken(_))));
        }
    }
}
