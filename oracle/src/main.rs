//! The oracle as a program.

use oracle::session::Played;
use oracle::{feed, order, page, picture, random, session, stats, text};
use std::env;
use std::io::{self, BufWriter, Read, Write};
use std::process::{Command, ExitCode};

const USAGE: &str = "usage:
  oracle run                      < session   plays a session and prints its answers
  oracle check                    < session   plays a session and tries demand 3 on it
  oracle stats                    < session   counts what happens in a session
  oracle picture                  < session   prints a picture of a session, as SVG
  oracle page                     < session   plays a session and prints the page of its last scan that ended
  oracle random SEED EVENTS [N]               prints a random session
  oracle feed SIZE.. -- PROGRAM   < session   runs a program whose reads get pieces of these sizes, in turn";

fn main() -> ExitCode {
    let arguments: Vec<String> = env::args().skip(1).collect();
    let words: Vec<&str> = arguments.iter().map(String::as_str).collect();
    let result = match words[..] {
        ["run"] => run(),
        ["check"] => check(),
        ["stats"] => stats(),
        ["picture"] => picture(),
        ["page"] => page(),
        ["random", seed, events] => random_session(seed, events, None),
        ["random", seed, events, n] => random_session(seed, events, Some(n)),
        ["feed", ref sizes @ .., "--", program] => feed_program(sizes, program),
        _ => Err(io::Error::new(io::ErrorKind::InvalidInput, USAGE)),
    };
    match result {
        Ok(()) => ExitCode::SUCCESS,
        Err(error) => {
            eprintln!("{error}");
            ExitCode::FAILURE
        }
    }
}

fn run() -> io::Result<()> {
    let mut out = BufWriter::new(io::stdout().lock());
    session::play(io::stdin().lock(), |played, _| {
        let node = played.event.as_ref().map(|event| event.node());
        match text::answer(played.number, node, &played.outcome) {
            Some(answer) => writeln!(out, "{answer}"),
            None => Ok(()),
        }
    })?;
    out.flush()
}

/// A whole session: how many nodes, and its events.
fn whole() -> io::Result<(usize, Vec<Played>)> {
    let (mut n, mut all) = (0, vec![]);
    session::play(io::stdin().lock(), |played, cluster| {
        n = cluster.map_or(0, |cluster| cluster.n());
        all.push(played);
        Ok(())
    })?;
    Ok((n, all))
}

fn check() -> io::Result<()> {
    let (n, all) = whole()?;
    let passed = order::check(n, &all).map_err(io::Error::other)?;
    writeln!(io::stdout().lock(), "one order: {} of {} operations in the line", passed.in_line, passed.operations)
}

fn picture() -> io::Result<()> {
    let (n, all) = whole()?;
    let svg = picture::svg(n, &all).map_err(io::Error::other)?;
    io::stdout().lock().write_all(svg.as_bytes())
}

fn page() -> io::Result<()> {
    let view = session::last_scan(io::stdin().lock())?.ok_or_else(|| io::Error::other("no scan ended: no page"))?;
    io::stdout().lock().write_all(page::page(&view).as_bytes())
}

fn stats() -> io::Result<()> {
    let mut stats = stats::Stats::default();
    session::play(io::stdin().lock(), |played, cluster| {
        stats.see(&played, cluster);
        Ok(())
    })?;
    write!(io::stdout().lock(), "{stats}")
}

fn random_session(seed: &str, events: &str, n: Option<&str>) -> io::Result<()> {
    let bad = |_| io::Error::new(io::ErrorKind::InvalidInput, USAGE);
    let seed: u64 = seed.parse().map_err(bad)?;
    let events: usize = events.parse().map_err(bad)?;
    let n: Option<usize> = n.map(str::parse).transpose().map_err(bad)?;
    if n.is_some_and(|n| !(1..=5).contains(&n)) {
        return Err(io::Error::new(io::ErrorKind::InvalidInput, "N is 1 to 5"));
    }
    io::stdout().lock().write_all(&random::session(seed, events, n))
}

fn feed_program(sizes: &[&str], program: &str) -> io::Result<()> {
    let bad = || io::Error::new(io::ErrorKind::InvalidInput, USAGE);
    let sizes: Vec<usize> = sizes.iter().map(|size| size.parse()).collect::<Result<_, _>>().map_err(|_| bad())?;
    if sizes.is_empty() || sizes.contains(&0) {
        return Err(bad());
    }
    let mut text = vec![];
    io::stdin().lock().read_to_end(&mut text)?;
    let output = feed::feed(&text, &sizes, &mut Command::new(program))?;
    match output.status.success() {
        true => Ok(()),
        false => Err(io::Error::other(format!("{program}: {}", output.status))),
    }
}
