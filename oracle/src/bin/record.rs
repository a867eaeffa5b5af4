//! `record --seed N --pool K --questions Q --jobs FILE --lines FILE` writes a
//! sample of jobs as a batch, and their lines with a line `.` after each job.

use oracle::arguments::Arguments;
use oracle::coverage::Coverage;
use oracle::jobs::put_job;
use oracle::sample::sample;
use std::process::ExitCode;

fn main() -> ExitCode {
    let args = Arguments::read();
    let (records, uncaught) = sample(
        args.number("--seed", 1),
        args.number("--pool", 20_000) as usize,
        args.number("--questions", 5_000) as usize,
    );
    let (mut jobs, mut lines) = (Vec::new(), Vec::new());
    let mut coverage = Coverage::default();
    for r in &records {
        put_job(&mut jobs, &r.job);
        lines.extend_from_slice(&r.lines);
        lines.extend_from_slice(b".\n");
        coverage.count_job(&r.job);
    }
    print!("{}", coverage.table());
    println!(
        "{} bytes of jobs, {} bytes of lines",
        jobs.len(),
        lines.len()
    );
    println!("faults that no job of the pool catches: {uncaught:?}");
    for (name, bytes) in [("--jobs", jobs), ("--lines", lines)] {
        if let Some(file) = args.text(name) {
            std::fs::write(file, bytes).unwrap_or_else(|e| panic!("{file}: {e}"));
        }
    }
    let missing = coverage.missing();
    if missing.is_empty() {
        return ExitCode::SUCCESS;
    }
    println!("not reached: {missing:?}");
    ExitCode::FAILURE
}
