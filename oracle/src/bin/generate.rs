//! `generate --seed N --jobs K [--out FILE]` writes a batch of jobs and prints
//! the coverage table; a possible cell that was not reached fails.
//! `generate --exhaustive [--out FILE]` writes every small question instead.
//! `generate --from FILE` prints the table of a batch that is there.
//! `generate --drawn --seed N --jobs K` prints the tables of K rounds of
//! questions under drawn limits, and fails in the same way.

use oracle::arguments::Arguments;
use oracle::coverage::{Coverage, Limited};
use oracle::exhaustive;
use oracle::generate::Gen;
use oracle::jobs::{batch, put_job};
use oracle::rounds::Round;
use std::process::ExitCode;

fn jobs(args: &Arguments) -> Box<dyn Iterator<Item = Vec<u8>>> {
    if args.has("--exhaustive") {
        return Box::new(exhaustive::jobs().into_iter());
    }
    if let Some(file) = args.text("--from") {
        let bytes = std::fs::read(file).unwrap_or_else(|e| panic!("{file}: {e}"));
        let jobs = batch(&bytes).expect("a batch");
        return Box::new(
            jobs.into_iter()
                .map(<[u8]>::to_vec)
                .collect::<Vec<_>>()
                .into_iter(),
        );
    }
    let mut gen = Gen::new(args.number("--seed", 1));
    let count = args.number("--jobs", 1000);
    Box::new((0..count).map(move |_| gen.job()))
}

/// Fails where a possible cell was not reached, or another was.
fn code(missing: Vec<String>, unexpected: Vec<String>) -> ExitCode {
    if missing.is_empty() && unexpected.is_empty() {
        return ExitCode::SUCCESS;
    }
    println!("not reached: {missing:?}; not expected: {unexpected:?}");
    ExitCode::FAILURE
}

fn count_drawn(args: &Arguments) -> ExitCode {
    let mut gen = Gen::new(args.number("--seed", 1));
    let mut limited = Limited::default();
    for _ in 0..args.number("--jobs", 1000) {
        limited.count(&Round::drawn(&mut gen));
    }
    print!("{}", limited.table());
    code(limited.missing(), limited.unexpected())
}

fn main() -> ExitCode {
    let args = Arguments::read();
    if args.has("--drawn") {
        return count_drawn(&args);
    }
    let mut batch = Vec::new();
    let mut coverage = Coverage::default();
    for job in jobs(&args) {
        coverage.count_job(&job);
        if args.has("--out") {
            put_job(&mut batch, &job);
        }
    }
    if let Some(file) = args.text("--out") {
        std::fs::write(file, batch).expect("cannot write the batch");
    }
    print!("{}", coverage.table());
    let missing = match args.has("--exhaustive") {
        true => Vec::new(),
        false => coverage.missing(),
    };
    code(missing, coverage.unexpected())
}
