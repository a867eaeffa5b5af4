//! Programs that are asked through pipes.

use crate::jobs::put_job;
use std::io::Write;
use std::process::{Command, Stdio};

/// What a program writes for an input.
pub fn ask(path: &str, input: &[u8]) -> Vec<u8> {
    let mut child = Command::new(path)
        .stdin(Stdio::piped())
        .stdout(Stdio::piped())
        .spawn()
        .unwrap_or_else(|e| panic!("{path}: {e}"));
    let mut pipe = child.stdin.take().expect("standard input");
    std::thread::scope(|scope| {
        // A program may stop reading a job that is too long.
        scope.spawn(move || {
            let _ = pipe.write_all(input);
        });
        child.wait_with_output().expect("output").stdout
    })
}

/// The lines of each job, from a program that reads one job.
pub fn each(path: &str, jobs: &[Vec<u8>]) -> Vec<Vec<u8>> {
    jobs.iter().map(|job| ask(path, job)).collect()
}

/// The lines of each job, from a program that reads a batch.
pub fn batch(path: &str, jobs: &[Vec<u8>]) -> Vec<Vec<u8>> {
    let mut input = Vec::new();
    jobs.iter().for_each(|job| put_job(&mut input, job));
    let output = ask(path, &input);
    let mut answers = vec![Vec::new(); jobs.len()];
    let mut at = 0;
    for line in output.split_inclusive(|byte| *byte == b'\n') {
        assert!(at < jobs.len(), "more answers than jobs");
        match line {
            b".\n" => at += 1,
            line => answers[at].extend_from_slice(line),
        }
    }
    assert_eq!(at, jobs.len(), "fewer answers than jobs");
    answers
}
