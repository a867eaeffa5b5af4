//! `oracle` answers the job on standard input.
//! `oracle --batch [FILE]` answers a batch, with a line `.` after each job.

use oracle::jobs::{batch, lines};
use std::io::{self, BufWriter, Read, Write};

fn read_input(file: Option<&String>) -> io::Result<Vec<u8>> {
    if let Some(name) = file {
        return std::fs::read(name);
    }
    let mut input = Vec::new();
    io::stdin().lock().read_to_end(&mut input)?;
    Ok(input)
}

fn answer_batch(input: &[u8]) -> io::Result<()> {
    let jobs = batch(input).map_err(io::Error::other)?;
    let mut out = BufWriter::new(io::stdout().lock());
    for job in jobs {
        out.write_all(&lines(job))?;
        out.write_all(b".\n")?;
    }
    out.flush()
}

fn main() -> io::Result<()> {
    let args: Vec<String> = std::env::args().skip(1).collect();
    match args.first().map(String::as_str) {
        None => io::stdout().write_all(&lines(&read_input(None)?)),
        Some("--batch") => answer_batch(&read_input(args.get(1))?),
        Some(other) => Err(io::Error::other(format!("unknown argument {other}"))),
    }
}
