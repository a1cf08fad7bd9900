// Written from docs/RULES.md alone: faults and the line that tells one.

use std::fmt;

#[derive(Clone, Debug, PartialEq)]
pub struct Fault {
    number: u32,
    layer: &'static str,
    places: [usize; 2],
}

impl Fault {
    pub fn new(number: u32, layer: &'static str, first: usize, second: usize) -> Fault {
        Fault {
            number,
            layer,
            places: [first, second],
        }
    }
}

impl fmt::Display for Fault {
    fn fmt(&self, out: &mut fmt::Formatter) -> fmt::Result {
        let [first, second] = self.places;
        write!(out, "fault {} {} {first} {second}", self.number, self.layer)
    }
}
