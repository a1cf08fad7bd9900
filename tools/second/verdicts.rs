// Written from docs/RULES.md alone: the program `verdicts`.

mod filters;
mod numbers;

use filters::{box_strikes, plane_numbers, plane_strikes, row_strikes, slab_strikes};
use filters::{verdict_at_depth, Filter, Kind, Point, Test, Vector, Verdict};
use numbers::Numbers;

const TESTS: usize = 1000;
const DEPTHS: usize = 7;

const FILTERS: [(&str, Filter); 4] = [
    ("Box", box_strikes),
    ("Slab", slab_strikes),
    ("Plane", plane_strikes),
    ("row", row_strikes),
];

#[derive(Clone, Copy)]
enum Class {
    Uniform,
    Grazing,
    Coplanar,
    Far,
    Corners,
    Equal,
    Limits,
}

const CLASSES: [(&str, u32, Class); 7] = [
    ("uniform", 0, Class::Uniform),
    ("grazing", 0, Class::Grazing),
    ("coplanar", 0, Class::Coplanar),
    ("far", 0, Class::Far),
    ("corners", 0, Class::Corners),
    ("equal", 0, Class::Equal),
    ("limits", 6, Class::Limits),
];

/// The one sum of the whole run.
struct Checksum(u64);

impl Checksum {
    fn take_in(&mut self, value: u64) {
        self.0 = (self.0 ^ value).wrapping_mul(1099511628211);
    }
}

/// What the draw n becomes, for axis 0 (x), 1 (y) or 2 (z).
fn coordinate(class: Class, in_first_feature: bool, axis: usize, n: i128) -> i128 {
    let uniform = n % 8193 - 4096;
    let is_odd = n % 2 == 1;
    match class {
        Class::Uniform | Class::Equal => uniform,
        Class::Grazing if axis == 2 => n % 17 - 8,
        Class::Coplanar if axis == 2 => 0,
        Class::Grazing | Class::Coplanar => uniform,
        Class::Far if axis != 0 => uniform,
        Class::Far if in_first_feature => n % 4096 + 1,
        Class::Far => -(n % 4097),
        Class::Corners if is_odd => 4096,
        Class::Corners => -4096,
        Class::Limits if is_odd => 262144,
        Class::Limits => -262144,
    }
}

fn make_place(numbers: &mut Numbers, class: Class, in_first_feature: bool) -> Vector {
    let mut place = [0; 3];
    for axis in 0..3 {
        place[axis] = coordinate(class, in_first_feature, axis, numbers.draw());
    }
    place
}

fn make_test(numbers: &mut Numbers, class: Class, scale: u32, number: usize) -> Test {
    let kind = if number % 2 == 0 { Kind::Vf } else { Kind::Ee };
    let nowhere = Point {
        start: [0; 3],
        end: [0; 3],
    };
    let mut points = [nowhere; 4];
    for i in 0..4 {
        let in_first_feature = i < kind.first_feature_size();
        points[i].start = make_place(numbers, class, in_first_feature);
        points[i].end = make_place(numbers, class, in_first_feature);
    }
    if let Class::Equal = class {
        points[2] = points[0];
    }
    Test::new(kind, scale, points).expect("within the bounds")
}

/// Takes in the four G and the 28 verdicts, and counts the struck.
fn ask_about(test: &Test, counts: &mut [[u32; DEPTHS]; 4], checksum: &mut Checksum) {
    for g in plane_numbers(test) {
        let g = i64::try_from(g).expect("64 bits hold each G");
        checksum.take_in(g as u64);
    }
    for (i, (_, filter)) in FILTERS.into_iter().enumerate() {
        for depth in 0..DEPTHS {
            let verdict = verdict_at_depth(filter, test, depth as u32);
            checksum.take_in(verdict as u64);
            if verdict == Verdict::Struck {
                counts[i][depth] += 1;
            }
        }
    }
}

fn print_class(name: &str, counts: &[[u32; DEPTHS]; 4], checksum: &Checksum) {
    for (i, (filter_name, _)) in FILTERS.into_iter().enumerate() {
        let numbers: Vec<String> = counts[i].iter().map(u32::to_string).collect();
        println!("{name} {filter_name} {}", numbers.join(" "));
    }
    println!("{name} checksum {}", checksum.0);
}

fn main() {
    // the one state of the whole run
    let mut numbers = Numbers(1);
    let mut checksum = Checksum(14695981039346656037);
    for (name, scale, class) in CLASSES {
        let mut counts = [[0; DEPTHS]; 4];
        for number in 0..TESTS {
            let test = make_test(&mut numbers, class, scale, number);
            ask_about(&test, &mut counts, &mut checksum);
        }
        print_class(name, &counts, &checksum);
    }
}
