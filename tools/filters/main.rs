// main FOLDER [ROUNDS [TESTS]]: how long the filters take, beside a plain twin of them and a cubic in f64, in turns in this one process;
// and an offer of the plan in the folder.
//
// A contender puts all tests of a class to its filter in a round. The twin's verdicts must be the same. The delivered row, Slab and then
// Plane, has two twins: of that row, and of the row with Box before it. Times are nanoseconds a test, the median of the rounds; a ratio
// is the median of the ratios within a round, since a machine may change its speed. The filters are called with numbers, from which the
// tests are made first; the time of that, taken in the same rounds, is taken off.

mod cubic;
mod linked;
mod plans;
mod tests;
mod twin;
mod vectors;

use linked::Which;
use plans::{Files, Inspection, Plan};
use std::hint::black_box;
use std::path::Path;
use std::time::Instant;
use tests::{Class, Kind, Numbers, Test};

/// So often are the tests of a class put in one round.
const TIMES: usize = 8;

const CLASSES: [(&str, Class); 4] = [
    ("uniform", Class::Uniform),
    ("near", Class::Near),
    ("far", Class::Far),
    ("crossing", Class::Crossing),
];

fn nanoseconds(work: impl FnOnce()) -> f64 {
    let from = Instant::now();
    work();
    from.elapsed().as_nanos() as f64
}

fn median(times: &[f64]) -> f64 {
    let mut times = times.to_vec();
    times.sort_by(f64::total_cmp);
    times[times.len() / 2]
}

/// Times of two in the same rounds.
#[derive(Default)]
struct Times {
    here: Vec<f64>,
    twin: Vec<f64>,
}

impl Times {
    fn print(&self, name: &str, unit: f64, told: &str) {
        let rounds = self.here.iter().zip(&self.twin);
        let ratios: Vec<f64> = rounds.map(|(here, twin)| here / twin).collect();
        let [here, twin] = [&self.here, &self.twin].map(|times| median(times) / unit);
        let ratio = median(&ratios);
        println!("  {name:22}{here:8.1}{twin:8.1}{ratio:8.2}   {told}");
    }
}

/// The tests of a class, and how often they are put.
struct Race<'a> {
    kind: Kind,
    tests: &'a [Test],
    numbers: Vec<i64>,
    rounds: usize,
}

impl Race<'_> {
    fn unit(&self) -> f64 {
        (TIMES * self.tests.len()) as f64
    }

    /// The time of a filter here, which is put to the tests at a depth.
    fn put_here(&self, which: Which, depth: u8, verdicts: &mut [u8]) -> f64 {
        let mut put = |times| {
            nanoseconds(|| {
                linked::strike(which, self.kind, &self.numbers, depth, times, verdicts);
            })
        };
        let making = put(0);
        put(TIMES) - making
    }

    fn put(&self, strikes: impl Fn(&Test) -> bool, verdicts: &mut [u8]) -> f64 {
        nanoseconds(|| {
            for _ in 0..TIMES {
                for (test, verdict) in self.tests.iter().zip(verdicts.iter_mut()) {
                    *verdict = u8::from(strikes(test));
                }
            }
        })
    }

    /// A filter here beside its twin.
    fn run(&self, name: &str, which: Which, depth: u8, twin: impl Fn(&Test) -> bool) {
        let mut verdicts = vec![0; self.tests.len()];
        let mut twins = verdicts.clone();
        let mut times = Times::default();
        for round in 0..self.rounds {
            // the first of the two changes from round to round
            if round % 2 == 0 {
                times.here.push(self.put_here(which, depth, &mut verdicts));
                times.twin.push(self.put(&twin, &mut twins));
            } else {
                times.twin.push(self.put(&twin, &mut twins));
                times.here.push(self.put_here(which, depth, &mut verdicts));
            }
            assert!(verdicts == twins, "{name} has other verdicts than its twin");
        }
        let struck = verdicts.iter().filter(|&&verdict| verdict == 1).count();
        times.print(name, self.unit(), &format!("{struck} struck"));
    }

    /// The delivered row beside the cubic, which tells something else.
    fn run_cubic(&self) {
        let mut verdicts = vec![0; self.tests.len()];
        let mut touching = verdicts.clone();
        let mut times = Times::default();
        for _ in 0..self.rounds {
            times.here.push(self.put_here(Which::Row, 0, &mut verdicts));
            times.twin.push(self.put(cubic::touches, &mut touching));
        }
        let touching = touching.iter().filter(|&&touch| touch == 1).count();
        times.print("row, cubic in f64", self.unit(), &format!("{touching} touch"));
    }
}

fn compare_filters(class: &str, kind: Kind, tests: &[Test], rounds: usize) {
    let letters = match kind {
        Kind::Vf => "VF",
        Kind::Ee => "EE",
    };
    println!("{class}, {} tests {letters}", tests.len());
    let numbers = tests.iter().flat_map(Test::numbers).collect();
    let race = Race {
        kind,
        tests,
        numbers,
        rounds,
    };
    race.run("Box", Which::Box, 0, twin::box_strikes);
    race.run("Slab", Which::Slab, 0, twin::slab_strikes);
    race.run("Plane", Which::Plane, 0, twin::plane_strikes);
    race.run("row", Which::Row, 0, twin::row_strikes);
    race.run("row, with Box", Which::Row, 0, twin::with_box_strikes);
    for depth in [2, 6] {
        let name = format!("row, with Box, depth {depth}");
        race.run(&name, Which::Row, depth, |test| {
            twin::struck_at(&twin::with_box_strikes, test, depth)
        });
    }
    race.run_cubic();
}

/// So often are all pairs offered in one round; from the second time on, what was kept is repeated.
const OFFERINGS: usize = 40;

fn compare_offers(files: &Files, plan: &Plan, depth: u8, rounds: usize) {
    let mut times = Times::default();
    let mut told = String::new();
    for round in 0..rounds {
        let mut counts = [[0; 4]; 2];
        let mut offer_here = |times| nanoseconds(|| counts = linked::offer(files, depth, times));
        let mut inspection = Inspection::default();
        let mut offer_twin = || {
            nanoseconds(|| {
                for _ in 0..OFFERINGS {
                    plan.offer_all(&mut inspection, depth);
                }
                black_box(&inspection);
            })
        };
        if round % 2 == 0 {
            times.here.push(-offer_here(0) + offer_here(OFFERINGS));
            times.twin.push(offer_twin());
        } else {
            times.twin.push(offer_twin());
            times.here.push(-offer_here(0) + offer_here(OFFERINGS));
        }
        assert!(counts == inspection.counts, "other counts than the twin's");
        told = format!("{} and {} listed", inspection.vf.len(), inspection.ee.len());
    }
    let unit = (OFFERINGS * plan.offers()) as f64;
    times.print(&format!("offer, with Box, depth {depth}"), unit, &told);
}

fn main() {
    let mut arguments = std::env::args().skip(1);
    let folder = arguments.next().expect("main FOLDER [ROUNDS [TESTS]]");
    let mut number = |usual| {
        arguments
            .next()
            .map_or(usual, |word| word.parse().expect("a number"))
    };
    let (rounds, count) = (number(31), number(4096));
    assert!(rounds > 0 && count > 0, "at least one round and one test");
    let files = Files::read(Path::new(&folder)).expect("the plan can be read");
    let plan = Plan::of(&files);

    println!("{:24}{:>8}{:>8}{:>8}", "nanoseconds", "here", "other", "ratio");
    for (name, class) in CLASSES {
        for kind in [Kind::Vf, Kind::Ee] {
            let mut numbers = Numbers(1);
            let tests: Vec<Test> = (0..count).map(|_| numbers.test(class, kind)).collect();
            compare_filters(name, kind, &tests, rounds);
        }
    }
    // of the plan's tests, as many from all over it
    for kind in [Kind::Vf, Kind::Ee] {
        let tests = plan.tests(kind);
        let every = tests.len().div_ceil(count);
        let tests: Vec<Test> = tests.into_iter().step_by(every).collect();
        compare_filters("fold", kind, &tests, rounds);
    }
    println!("the plan's {} pairs, offered {OFFERINGS} times", plan.offers());
    for depth in [0, 2, 6] {
        compare_offers(&files, &plan, depth, rounds);
    }
}
