// Written from docs/RULES.md alone: the record of a step.

use crate::faults::Fault;
use crate::filters::{Point, Vector, GREATEST_COORDINATE};

/// The record of the step that the points make.
pub fn write(points: &[Point]) -> Vec<u8> {
    let mut record = Vec::new();
    for point in points {
        let mut map = 0;
        let mut fields = Vec::new();
        for axis in 0..3 {
            let step = point.end[axis] - point.start[axis];
            if step != 0 {
                map |= 1 << axis;
                fields.extend((step as i16).to_le_bytes());
            }
        }
        record.push(map);
        record.extend(fields);
    }
    record
}

/// The points that start as given and end where the record says.
pub fn lay(record: &[u8], starts: &[Vector]) -> Result<Vec<Point>, Fault> {
    let mut left = record;
    let mut points = Vec::new();
    for (number, &start) in starts.iter().enumerate() {
        let map = take(&mut left, 1).ok_or(Fault::new(8, "step", number, 0))?[0];
        if map > 7 {
            return Err(Fault::new(9, "step", number, 0));
        }
        let mut end = start;
        for axis in 0..3 {
            if map >> axis & 1 == 1 {
                end[axis] = read_end(&mut left, number, axis, start[axis])?;
            }
        }
        points.push(Point { start, end });
    }
    if !left.is_empty() {
        return Err(Fault::new(12, "step", 0, 0));
    }
    Ok(points)
}

/// Reads a field; answers the end that it gives.
fn read_end(left: &mut &[u8], number: usize, axis: usize, start: i128) -> Result<i128, Fault> {
    let fault = |which| Fault::new(which, "step", number, axis + 1);
    let bytes = take(left, 2).ok_or(fault(8))?;
    let step = i128::from(i16::from_le_bytes([bytes[0], bytes[1]]));
    if step == 0 {
        return Err(fault(10));
    }
    let end = start + step;
    if end.abs() > GREATEST_COORDINATE {
        return Err(fault(11));
    }
    Ok(end)
}

/// Takes the next bytes, where so many are left.
fn take<'a>(left: &mut &'a [u8], count: usize) -> Option<&'a [u8]> {
    if left.len() < count {
        return None;
    }
    let (taken, rest) = left.split_at(count);
    *left = rest;
    Some(taken)
}

#[cfg(test)]
mod worked_cases {
    use super::*;

    const STARTS: [Vector; 3] = [[0, 0, 0], [1, 1, 1], [0, 0, 7]];
    const ENDS: [Vector; 3] = [[0, 0, 0], [1, 1, -1], [300, -1, 7]];
    const RECORD: [u8; 9] = [0, 4, 0xFE, 0xFF, 3, 0x2C, 1, 0xFF, 0xFF];

    fn worked_points() -> Vec<Point> {
        let pair = |(start, end)| Point { start, end };
        STARTS.into_iter().zip(ENDS).map(pair).collect()
    }

    /// The fault's line.
    fn fault(record: &[u8]) -> String {
        lay(record, &STARTS).unwrap_err().to_string()
    }

    #[test]
    fn the_worked_record_is_written_and_read() {
        assert_eq!(write(&worked_points()), RECORD);
        assert_eq!(lay(&RECORD, &STARTS), Ok(worked_points()));
        assert_eq!(lay(&[], &[]), Ok(vec![]));
    }

    #[test]
    fn the_longest_move_fits_a_field() {
        for (start, end) in [([-4096; 3], [4096; 3]), ([4096; 3], [-4096; 3])] {
            let points = vec![Point { start, end }];
            assert_eq!(lay(&write(&points), &[start]), Ok(points));
        }
    }

    #[test]
    fn every_shorter_record_ends_early() {
        let places = [
            "0 0", "1 0", "1 3", "1 3", "2 0", "2 1", "2 1", "2 2", "2 2",
        ];
        for (length, place) in places.into_iter().enumerate() {
            assert_eq!(fault(&RECORD[..length]), format!("fault 8 step {place}"));
        }
    }

    #[test]
    fn the_first_fault_wins() {
        assert_eq!(fault(&[8]), "fault 9 step 0 0");
        assert_eq!(fault(&[0, 255, 0]), "fault 9 step 1 0");
        assert_eq!(fault(&[0, 2, 0, 0, 9]), "fault 10 step 1 2");
        assert_eq!(fault(&[0, 4, 0, 16]), "fault 11 step 1 3");
        assert_eq!(fault(&[0, 4, 0, 0x80]), "fault 11 step 1 3");
        assert_eq!(fault(&[1, 1, 16, 9]), "fault 11 step 0 1");
        assert_eq!(fault(&[0, 0, 0, 0]), "fault 12 step 0 0");
        let at_the_bound = lay(&[0, 4, 0xFF, 15, 0], &STARTS).unwrap();
        assert_eq!(at_the_bound[1].end, [1, 1, 4096]);
    }
}
