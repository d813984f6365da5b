//! A million cases thrown at the calls for C of one node and of the desk's page, records, messages, frames and views
//! that are drawn, damaged or made up, and beside them the steps of the runs that they are drawn from. What the proved
//! code makes of each is compared, byte for byte, with what the oracle does. A run is one of a network on the proved
//! calls, some of its messages in frames, beside the oracle's nodes over sets; its order is one case more. After each
//! network a cluster in lent bytes runs beside the oracle's, with copies that state another n, f, number or stop than
//! they should. First of all, fresh records and clusters are made with every kind of n and f.
//!
//! `trial [THROWN [SEED]]`

mod case;
mod chance;
mod clusters;
mod frames;
mod limits;
mod messages;
mod pages;
mod records;
mod run;
mod stored;
mod tally;
mod throw;

use oracle::dice::Dice;
use snapshot::lent;
use std::env;
use std::process::ExitCode;
use throw::Trial;

const THROWN: usize = 1_000_000;

const USAGE: &str = "usage: trial [THROWN [SEED]]
  THROWN, a million if not given: records, messages, frames and views that are drawn from runs, damaged or made up;
  whole runs are made until there are so many";

fn main() -> ExitCode {
    let numbers: Option<Vec<u64>> = env::args().skip(1).map(|word| word.parse().ok()).collect();
    let (thrown, seed) = match numbers.as_deref() {
        Some([]) => (THROWN, 1),
        Some(&[thrown]) => (thrown as usize, 1),
        Some(&[thrown, seed]) => (thrown as usize, seed),
        _ => {
            eprintln!("{USAGE}");
            return ExitCode::FAILURE;
        }
    };
    if lent::node_size() != stored::SIZE {
        println!("a record has {} bytes, expected {}", lent::node_size(), stored::SIZE);
        return ExitCode::FAILURE;
    }
    let mut trial = Trial::new(Dice::new(seed));
    clusters::every_fresh(&mut trial);
    while trial.thrown < thrown {
        run::network(&mut trial);
        clusters::cluster(&mut trial);
    }
    print!("{}", trial.tally);
    trial.told.iter().for_each(|difference| println!("{difference}"));
    let missing = trial.tally.missing();
    missing.iter().for_each(|name| println!("never occurred: {name}"));
    println!("{} cases, {} of them thrown, {} differences", trial.cases, trial.thrown, trial.different);
    if trial.different == 0 && missing.is_empty() {
        ExitCode::SUCCESS
    } else {
        ExitCode::FAILURE
    }
}
