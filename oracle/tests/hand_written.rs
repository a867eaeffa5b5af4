//! What the repository's test programs read: the published functions, and the
//! model in mode 2, give the lines that are written there, and the model's
//! faults are seen by them.

use oracle::candidates::{Candidate, KeptModel, Model, Oracle};
use oracle::jobs::{batch, lines};
use oracle::model::faults::{beside_jobs, FAULTS};
use oracle::model::{self, Rules};
use oracle::rooms;

fn file(path: &str) -> Vec<u8> {
    let path = format!("{}/../crates/{path}", env!("CARGO_MANIFEST_DIR"));
    std::fs::read(&path).unwrap_or_else(|e| panic!("{path}: {e}"))
}

/// A part of the batch: its jobs, and the lines that stand there for them.
struct Part {
    name: String,
    jobs: Vec<Vec<u8>>,
    lines: Vec<u8>,
}

/// The parts in turn, as many jobs each as parts.txt says.
fn parts() -> Vec<Part> {
    let (input, output) = (file("batches/stdin"), file("batches/stdout"));
    let mut jobs = batch(&input).expect("a batch").into_iter();
    let mut written = output.split_inclusive(|byte| *byte == b'\n');
    let counts = String::from_utf8(file("batches/parts.txt")).expect("text");
    let mut part = |line: &str| {
        let mut words = line.split(' ');
        let name = words.next().expect("a name").to_string();
        let count: usize = words.next().and_then(|n| n.parse().ok()).expect("jobs");
        let jobs = (0..count).map(|_| jobs.next().expect("a job").to_vec());
        let jobs = jobs.collect();
        let mut lines = Vec::new();
        for _ in 0..count {
            let end = written.by_ref().take_while(|line| *line != b".\n");
            lines.extend(end.flatten().chain(b".\n"));
        }
        Part { name, jobs, lines }
    };
    let parts = counts.lines().map(&mut part).collect();
    assert!(jobs.next().is_none() && written.next().is_none(), "more");
    parts
}

/// A part's lines, as some rule gives them.
fn given(part: &Part, lines: &dyn Fn(&[u8]) -> Vec<u8>) -> Vec<u8> {
    let jobs = part.jobs.iter();
    jobs.flat_map(|job| [lines(job), b".\n".to_vec()].concat())
        .collect()
}

#[test]
fn batches_have_the_published_lines() {
    for part in parts() {
        assert!(given(&part, &lines) == part.lines, "{}", part.name);
    }
}

/// Has the program `rooms` the lines that a candidate gives?
fn rooms_have(candidate: &mut dyn Candidate) -> bool {
    let lines = rooms::lines(&file("rooms/stdin"), candidate).expect("calls");
    lines.as_bytes() == file("rooms/stdout")
}

#[test]
fn rooms_have_the_published_lines() {
    assert!(rooms_have(&mut Oracle));
}

/// Do the calls of `rooms` tell the model with this fault from the rule, plain
/// or with their schemas kept?
fn rooms_catch(fault: u32) -> bool {
    let rules = Rules { fault };
    !rooms_have(&mut Model(rules)) || !rooms_have(&mut KeptModel(rules))
}

#[test]
fn each_fault_is_seen() {
    let caught = |catches: &dyn Fn(u32) -> bool| -> Vec<u32> {
        let faults = FAULTS.iter().map(|(fault, _)| *fault);
        faults.filter(|fault| catches(*fault)).collect()
    };
    let mut seen = vec![("rooms".to_string(), caught(&rooms_catch))];
    for part in parts() {
        let catches = |fault| {
            let given = given(&part, &|job| model::lines(Rules { fault }, job));
            !beside_jobs(fault) && given != part.lines
        };
        let faults = caught(&catches);
        seen.push((part.name, faults));
    }
    for (name, faults) in &seen {
        println!("{name}: {} of {} faults", faults.len(), FAULTS.len());
    }
    let unseen = FAULTS
        .iter()
        .filter(|(fault, _)| !seen.iter().any(|(_, faults)| faults.contains(fault)));
    assert_eq!(unseen.collect::<Vec<_>>(), [] as [&(u32, &str); 0]);
}
