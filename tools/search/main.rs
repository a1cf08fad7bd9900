// main [ROUNDS]: how long the search for near faces takes, beside CGAL's and brute force, in turns in this one process.
//
// Each makes the swept boxes of the faces and lists the pairs in ascending order; all must list the same pairs. Times are
// processor time, the median of the rounds, in milliseconds. The search is called with a text that is read first, and the time
// of that reading, taken in the same rounds, is taken off.

mod brute;
mod sheets;

use sheets::{Face, Node, Pair, Point, Sheet, SweptBox};

/// Of the search, where there is a fault.
const FAULT: usize = usize::MAX;

#[link(name = "near_search", kind = "static")]
unsafe extern "C" {
    // entry.txt: a slice is a place and a length
    fn near_find(
        text: *const u8,
        text_len: usize,
        spare_points: *mut Point,
        spare_point_places: usize,
        spare_faces: *mut Face,
        spare_face_places: usize,
        points: *const Point,
        point_count: usize,
        faces: *const Face,
        face_count: usize,
        nodes: *mut Node,
        node_places: usize,
        pairs: *mut Pair,
        pair_places: usize,
    ) -> usize;

    fn near_read(
        text: *const u8,
        text_len: usize,
        spare_points: *mut Point,
        spare_point_places: usize,
        spare_faces: *mut Face,
        spare_face_places: usize,
    ) -> usize;
}

#[link(name = "cgal_near", kind = "static")]
#[link(name = "stdc++")]
unsafe extern "C" {
    fn cgal_near(
        points: *const Point,
        faces: *const Face,
        count: usize,
        cutoff: isize,
        found: *mut *const Pair,
    ) -> usize;
}

unsafe extern "C" {
    /// Microseconds of this process.
    fn clock() -> i64;
}

#[derive(Clone, Copy)]
enum Contender {
    /// The proved search. The reading of a text is part of its call, since a draft comes from nowhere else.
    Search,
    /// That reading alone.
    Reading,
    /// With the number of boxes below which it compares all.
    Cgal(isize),
    Brute(fn(&[SweptBox], &mut Vec<Pair>)),
}

const CONTENDERS: [(&str, Contender); 6] = [
    ("search", Contender::Search),
    ("reading", Contender::Reading),
    ("CGAL, cutoff 10 (its default)", Contender::Cgal(10)),
    ("CGAL, cutoff 50", Contender::Cgal(50)),
    (
        "brute force with &&",
        Contender::Brute(brute::stopping_early),
    ),
    ("brute force with &", Contender::Brute(brute::at_once)),
];

/// The tables that are lent to a contender, kept from round to round, so that their growth is not timed.
struct Tables {
    text: String,
    points: Vec<Point>,
    faces: Vec<Face>,
    nodes: Vec<Node>,
    pairs: Vec<Pair>,
    grown: Vec<Pair>,
}

impl Contender {
    fn find<'t>(self, sheet: &Sheet, tables: &'t mut Tables) -> &'t [Pair] {
        match self {
            Contender::Search => {
                let count = tables.search(sheet);
                assert_ne!(count, FAULT);
                &tables.pairs[..count]
            }
            Contender::Reading => {
                assert_eq!(tables.read(), sheet.faces.len());
                &[]
            }
            Contender::Cgal(cutoff) => {
                let Sheet { points, faces, .. } = sheet;
                let mut found = std::ptr::null();
                // SAFETY: each corner of a face is a point; what it found stays until it is called again
                unsafe {
                    let count = cgal_near(
                        points.as_ptr(),
                        faces.as_ptr(),
                        faces.len(),
                        cutoff,
                        &mut found,
                    );
                    if count == 0 {
                        &[]
                    } else {
                        std::slice::from_raw_parts(found, count)
                    }
                }
            }
            Contender::Brute(find) => {
                tables.grown.clear();
                find(&sheet.swept_boxes(), &mut tables.grown);
                &tables.grown
            }
        }
    }
}

impl Tables {
    /// For a sheet, with places for so many pairs. The text has as many points and faces as the sheet, and no more to do with it.
    fn new(sheet: &Sheet, pairs: usize) -> Tables {
        let (points, faces) = (sheet.points.len(), sheet.faces.len());
        Tables {
            text: "v 0 0 0\n".repeat(points) + &"f -1 -2 -3\n".repeat(faces),
            points: vec![Point::default(); points],
            faces: vec![Face::default(); faces],
            nodes: vec![Node::default(); 2 * faces - 1],
            pairs: vec![Pair::default(); pairs],
            grown: Vec::new(),
        }
    }

    fn search(&mut self, sheet: &Sheet) -> usize {
        // SAFETY: seven slices, with their lengths
        unsafe {
            near_find(
                self.text.as_ptr(),
                self.text.len(),
                self.points.as_mut_ptr(),
                self.points.len(),
                self.faces.as_mut_ptr(),
                self.faces.len(),
                sheet.points.as_ptr(),
                sheet.points.len(),
                sheet.faces.as_ptr(),
                sheet.faces.len(),
                self.nodes.as_mut_ptr(),
                self.nodes.len(),
                self.pairs.as_mut_ptr(),
                self.pairs.len(),
            )
        }
    }

    fn read(&mut self) -> usize {
        // SAFETY: three slices, with their lengths
        unsafe {
            near_read(
                self.text.as_ptr(),
                self.text.len(),
                self.points.as_mut_ptr(),
                self.points.len(),
                self.faces.as_mut_ptr(),
                self.faces.len(),
            )
        }
    }
}

/// One table that is a place too short is refused and stays as it was.
fn check_refusal(sheet: &Sheet, count: usize) {
    let mut tables = Tables::new(sheet, count - 1);
    assert_eq!(tables.search(sheet), FAULT);
    assert!(tables.pairs.iter().all(|&pair| pair == Pair::default()));
}

/// Smaller sheets, also with odd halves and with runs that are just full.
fn check_sizes(sheet: &Sheet) {
    for faces in (1..70).chain(500..530).chain(1020..1030).chain(2045..2052) {
        let part = Sheet {
            name: "",
            points: sheet.points.clone(),
            faces: sheet.faces[..faces].to_vec(),
        };
        let mut tables = Tables::new(&part, faces * (faces - 1) / 2);
        let wanted = Contender::Brute(brute::stopping_early)
            .find(&part, &mut tables)
            .to_vec();
        assert!(
            Contender::Search.find(&part, &mut tables) == wanted,
            "{faces} faces"
        );
        let rest = &tables.pairs[wanted.len()..];
        assert!(rest.iter().all(|&pair| pair == Pair::default()));
    }
}

fn median(mut times: Vec<f64>) -> f64 {
    times.sort_by(f64::total_cmp);
    times[times.len() / 2]
}

fn compare(sheet: &Sheet, rounds: usize) {
    let boxes = sheet.swept_boxes();
    let mut wanted = Vec::new();
    brute::stopping_early(&boxes, &mut wanted);
    println!(
        "{}: {} faces, {} pairs",
        sheet.name,
        boxes.len(),
        wanted.len()
    );
    let mut tables = Tables::new(sheet, wanted.len());
    check_refusal(sheet, wanted.len());
    let mut times = [const { Vec::new() }; CONTENDERS.len()];
    for _ in 0..rounds {
        for ((name, contender), times) in CONTENDERS.iter().zip(&mut times) {
            // SAFETY: it takes nothing
            let from = unsafe { clock() };
            let found = contender.find(sheet, &mut tables);
            let to = unsafe { clock() };
            let is_reading = matches!(contender, Contender::Reading);
            assert!(is_reading || found == wanted, "{name} lists other pairs");
            times.push((to - from) as f64 / 1000.0);
        }
    }
    let [with_reading, reading, others @ ..] = times.map(median);
    let search = with_reading - reading;
    println!("  {:30} {search:8.2} ms", "search");
    for ((name, _), time) in CONTENDERS[2..].iter().zip(others) {
        println!("  {name:30} {time:8.2} ms   the search takes {:.2} of it", search / time);
    }
}

fn main() {
    let rounds = std::env::args()
        .nth(1)
        .map_or(9, |rounds| rounds.parse().expect("ROUNDS is a number"));
    assert!(rounds > 0, "at least one round");
    check_sizes(&sheets::shared_soup("", 0));
    check_sizes(&sheets::grid("", 58.0, 63.0));
    compare(&sheets::grid("folded grid", 58.0, 63.0), rounds);
    compare(&sheets::grid("grid, nearly flat", 81.0, 85.0), rounds);
    compare(
        &sheets::shuffled(
            "folded grid, numbered at random",
            sheets::grid("", 57.0, 61.0),
        ),
        rounds,
    );
    compare(
        &sheets::shared_soup("small triangles over 2,048 points at random", 6),
        rounds,
    );
    compare(
        &sheets::shared_soup("triangles over any of 2,048 points at random", 0),
        rounds,
    );
}
