// random COUNT DIRECTORY [SEED]: makes the folders 000, 001 and so on, each with a random plan; every third is damaged.
// The same seed makes the same folders.

mod damage;
mod dice;
#[allow(dead_code)] // of these three, only the writing of a record is needed
mod faults;
#[allow(dead_code)]
mod filters;
mod numbers;
mod plans;
#[allow(dead_code)]
mod record;

use dice::Dice;
use numbers::Numbers;
use std::fs;
use std::path::Path;

const NAMES: [&str; 3] = ["sheet.obj", "step.bin", "pairs.bin"];

fn make_folder(dice: &mut Dice, number: usize, folder: &Path) -> std::io::Result<()> {
    let plan = plans::make(dice);
    let files = match number % 3 {
        2 => damage::damage(dice, number / 3, plan),
        _ => damage::whole(plan),
    };
    fs::create_dir_all(folder)?;
    for (name, bytes) in NAMES.into_iter().zip(files) {
        if let Some(bytes) = bytes {
            fs::write(folder.join(name), bytes)?;
        }
    }
    Ok(())
}

fn main() {
    let arguments: Vec<String> = std::env::args().skip(1).collect();
    let (Some(count), Some(directory)) = (arguments.first(), arguments.get(1)) else {
        eprintln!("usage: random COUNT DIRECTORY [SEED]");
        std::process::exit(1);
    };
    let count = count.parse().expect("the count is a number");
    let seed = arguments
        .get(2)
        .map_or(1, |seed| seed.parse().expect("the seed is a number"));
    let mut dice = Dice(Numbers(seed));
    for number in 0..count {
        let folder = Path::new(directory).join(format!("{number:03}"));
        make_folder(&mut dice, number, &folder).expect("the folder can be written");
    }
}
