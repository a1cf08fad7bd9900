// Written from docs/RULES.md alone: the text of a sheet.

use crate::faults::Fault;
use crate::filters::{Vector, GREATEST_COORDINATE};

const MOST_BYTES: usize = 65536;
const MOST_POINTS: usize = 2048;
const MOST_FACES: usize = 4096;

#[derive(Debug, Default, PartialEq)]
pub struct Sheet {
    /// Where the points rest.
    pub points: Vec<Vector>,
    /// The numbers of the corners, from 0.
    pub faces: Vec<[usize; 3]>,
}

pub fn read(text: &[u8]) -> Result<Sheet, Fault> {
    if text.len() > MOST_BYTES {
        return Err(Fault::new(6, "sheet", 0, 0));
    }
    let mut sheet = Sheet::default();
    for (i, line) in text.split(|&byte| byte == b'\n').enumerate() {
        let number = i + 1;
        match line {
            [] | [b'#', ..] => {}
            [b'v', b' ', rest @ ..] => sheet.read_point(number, rest)?,
            [b'f', b' ', rest @ ..] => sheet.read_face(number, rest)?,
            _ => return Err(Fault::new(2, "line", number, 0)),
        }
    }
    Ok(sheet)
}

impl Sheet {
    fn read_point(&mut self, line: usize, rest: &[u8]) -> Result<(), Fault> {
        let mut point = [0; 3];
        for (axis, field) in three_fields(rest).into_iter().enumerate() {
            let coordinate = number(field).ok_or(Fault::new(1, "field", line, axis + 1))?;
            if coordinate.abs() > GREATEST_COORDINATE {
                return Err(Fault::new(3, "line", line, axis + 1));
            }
            point[axis] = coordinate;
        }
        if self.points.len() == MOST_POINTS {
            return Err(Fault::new(7, "sheet", line, 0));
        }
        self.points.push(point);
        Ok(())
    }

    /// From 0: 1 is the first point, and −1 the latest so far.
    fn point_meant(&self, written: i128) -> Option<usize> {
        let size = written.unsigned_abs() as usize;
        if size == 0 || size > self.points.len() {
            return None;
        }
        Some(match written < 0 {
            true => self.points.len() - size,
            false => size - 1,
        })
    }

    fn read_face(&mut self, line: usize, rest: &[u8]) -> Result<(), Fault> {
        let mut corners = Vec::new();
        for (i, field) in three_fields(rest).into_iter().enumerate() {
            let written = number(field).ok_or(Fault::new(1, "field", line, i + 1))?;
            let corner = self
                .point_meant(written)
                .ok_or(Fault::new(4, "line", line, i + 1))?;
            if corners.contains(&corner) {
                return Err(Fault::new(5, "line", line, i + 1));
            }
            corners.push(corner);
        }
        if self.faces.len() == MOST_FACES {
            return Err(Fault::new(7, "sheet", line, 0));
        }
        self.faces.push([corners[0], corners[1], corners[2]]);
        Ok(())
    }
}

/// Split at the first and the second space. A missing field is empty.
fn three_fields(rest: &[u8]) -> [&[u8]; 3] {
    let mut parts = rest.splitn(3, |&byte| byte == b' ');
    [(); 3].map(|()| parts.next().unwrap_or(b""))
}

/// An optional minus and one to five digits, and nothing else.
fn number(field: &[u8]) -> Option<i128> {
    let (sign, digits) = match field {
        [b'-', digits @ ..] => (-1, digits),
        digits => (1, digits),
    };
    if digits.is_empty() || digits.len() > 5 || !digits.iter().all(u8::is_ascii_digit) {
        return None;
    }
    let size = digits
        .iter()
        .fold(0, |sum, digit| 10 * sum + i128::from(digit - b'0'));
    Some(sign * size)
}

#[cfg(test)]
mod worked_cases {
    use super::*;

    /// The fault's line.
    fn fault(text: &str) -> String {
        read(text.as_bytes()).unwrap_err().to_string()
    }

    #[test]
    fn points_and_faces_are_read_in_order() {
        let text = b"# a comment\n\nv 0 -0 00001\nv -4096 4096 7\n#\nv 1 2 3\nf 3 1 2\nv 9 9 9";
        let sheet = read(text).unwrap();
        let points = vec![[0, 0, 1], [-4096, 4096, 7], [1, 2, 3], [9, 9, 9]];
        assert_eq!(sheet.points, points);
        assert_eq!(sheet.faces, [[2, 0, 1]]);
        assert_eq!(read(b"").unwrap(), Sheet::default());
    }

    #[test]
    fn the_first_fault_of_a_line_wins() {
        assert_eq!(fault("v 9999 x 1"), "fault 3 line 1 1");
        let two = "v 0 0 0\nv 1 1 1\n";
        assert_eq!(fault(&format!("{two}f 1 1 x")), "fault 5 line 3 2");
        assert_eq!(fault(&format!("{two}f 9 9 1")), "fault 4 line 3 1");
    }

    #[test]
    fn what_is_no_number() {
        for field in [
            "", "-", "+1", "1.0", "123456", "--1", "1-", "0x1", "1\r", "\t1",
        ] {
            assert_eq!(number(field.as_bytes()), None, "{field}");
        }
        assert_eq!(number(b"-99999"), Some(-99999));
        assert_eq!(fault("v 1 2"), "fault 1 field 1 3");
        assert_eq!(fault("v 1 2 3 4"), "fault 1 field 1 3");
        assert_eq!(fault("v 1 2 3 "), "fault 1 field 1 3");
        assert_eq!(fault("v  1 2 3"), "fault 1 field 1 1");
        assert_eq!(fault("v 1 2 3\r\n"), "fault 1 field 1 3");
        assert_eq!(fault("v "), "fault 1 field 1 1");
    }

    #[test]
    fn what_has_no_such_start() {
        for line in [
            "v", "vt 1 2", " ", "\r", "\t", "g 1", "V 1 2 3", " v 1 2 3", "v\t1 2 3",
        ] {
            assert_eq!(fault(&format!("#\n\n{line}\nv x")), "fault 2 line 3 0");
        }
    }

    #[test]
    fn a_face_names_points_above_it() {
        let three = "v 0 0 0\nv 1 1 1\nv 2 2 2\n";
        assert_eq!(
            fault(&format!("{three}f 1 2 4\nv 3 3 3")),
            "fault 4 line 4 3"
        );
        assert_eq!(fault(&format!("{three}f 1 0 2")), "fault 4 line 4 2");
        assert_eq!(fault(&format!("{three}f 1 2 01")), "fault 5 line 4 3");
    }

    #[test]
    fn numbers_that_count_back() {
        let three = "v 0 0 0\nv 1 1 1\nv 2 2 2\n";
        let read = |faces: &str| read(format!("{three}{faces}").as_bytes()).unwrap().faces;
        assert_eq!(read("f -3 -2 -1"), [[0, 1, 2]]);
        assert_eq!(read("f 3 -3 -00002\nv 3 3 3\nf -4 2 -1"), [[2, 0, 1], [0, 1, 3]]);
        assert_eq!(fault(&format!("{three}f 1 -3 2")), "fault 5 line 4 2");
        assert_eq!(fault(&format!("{three}f -1 2 3")), "fault 5 line 4 3");
        assert_eq!(fault(&format!("{three}f 1 -0 2")), "fault 4 line 4 2");
        assert_eq!(fault(&format!("{three}f -4 1 2\nv 3 3 3")), "fault 4 line 4 1");
    }

    #[test]
    fn the_limits_of_a_sheet() {
        assert_eq!(read(&[b'#'; MOST_BYTES]).unwrap(), Sheet::default());
        let too_long = [b'x'; MOST_BYTES + 1];
        assert_eq!(
            read(&too_long).unwrap_err().to_string(),
            "fault 6 sheet 0 0"
        );
        let mut text = "v 1 2 3\n".repeat(MOST_POINTS);
        assert_eq!(read(text.as_bytes()).unwrap().points.len(), MOST_POINTS);
        assert_eq!(fault(&format!("{text}v 1 2 3")), "fault 7 sheet 2049 0");
        assert_eq!(fault(&format!("{text}v 1 2 5000")), "fault 3 line 2049 3");
        text.push_str(&"f 1 2 3\n".repeat(MOST_FACES));
        assert_eq!(read(text.as_bytes()).unwrap().faces.len(), MOST_FACES);
        assert_eq!(fault(&format!("{text}f 1 2 3")), "fault 7 sheet 6145 0");
    }
}
