//! The noted jobs print what docs/DIFFERENCES.md says.

use oracle::jobs::lines;
use oracle::noted::{bytes, NOTED, NOTED_BESIDE};

#[test]
fn noted_jobs_print_their_lines() {
    for (job, line) in NOTED.iter().chain(NOTED_BESIDE) {
        let printed = lines(&bytes(job));
        assert_eq!(String::from_utf8_lossy(&printed), *line, "{job}");
    }
}

#[test]
fn the_notes_hold_the_jobs() {
    let notes = include_str!("../../docs/DIFFERENCES.md");
    for (job, line) in NOTED[1..].iter().chain(NOTED_BESIDE) {
        assert!(notes.contains(job), "{job}");
        assert!(notes.contains(line.trim_end()), "{line}");
    }
}
