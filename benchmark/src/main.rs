//! The proved node and cluster beside plain ones: whether they do the same, and how fast each is.
mod check;
mod clock;
// The oracle's generator, of which one function is not needed here.
#[allow(dead_code)]
#[path = "../../oracle/src/dice.rs"]
mod dice;
mod machine;
mod measure;
mod network;
mod plain;
mod rows;
mod side;
mod times;
mod workload;

fn main() {
    let words: Vec<String> = std::env::args().skip(1).collect();
    match words.iter().map(String::as_str).collect::<Vec<_>>()[..] {
        [] => measure::all(1_000_000),
        ["--long"] => measure::all(10_000_000),
        ["--check"] => check::check(20),
        ["--replay", side, n, events] => measure::replay(side, n.parse().unwrap(), events.parse().unwrap()),
        ["--rows", file] => measure::rows(file),
        ["--table", ref files @ ..] => rows::table(files),
        _ => {
            eprintln!(
                "benchmark [--long | --check | --replay proved|plain NODES EVENTS | --rows FILE | --table FILE..]"
            );
            std::process::exit(2);
        }
    }
}
