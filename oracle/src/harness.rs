//! Comparing a candidate with the oracle: jobs by their lines, calls by their
//! answer, every byte of the result buffer and every byte of the workspace.

use crate::candidates::{leave, Candidate};
use crate::generate::Gen;
use crate::jobs::{print_outcomes, read_job};
use crate::limits::Limits;
use crate::questions::{lookup_part, operation::*, Call, Outcome, Part, SchemaCache};
use crate::rounds::Round;
use crate::trees::{Ask, Sch, Ty};

/// What stands in the buffers before a call.
pub const UNTOUCHED: u8 = 0xa5;

/// A result buffer and a workspace as they are lent to a call.
pub fn lent(call: &Call<'_>) -> (Vec<u8>, Vec<u8>) {
    (vec![UNTOUCHED; call.room], vec![UNTOUCHED; call.work])
}

/// Put one call to the candidate; none if all is as the oracle says.
pub fn check_call(
    candidate: &mut dyn Candidate,
    call: &Call<'_>,
    expected: &Outcome,
) -> Option<String> {
    let ((mut out, mut work), mut left) = (lent(call), lent(call));
    let wanted = leave(call, expected, &mut left.0, &mut left.1);
    let reply = candidate.call(call, &mut out, &mut work);
    if reply != wanted {
        return Some(format!("answer {reply:?}, expected {wanted:?}"));
    }
    if out != left.0 {
        return Some("the result buffer is not the answer and then as it was".into());
    }
    if work != left.1 {
        return Some("the workspace is not zero".into());
    }
    None
}

/// Put the second entry of lookup to the candidate.
pub fn check_part(candidate: &mut dyn Candidate, call: &Call<'_>, wanted: &Part) -> Option<String> {
    let reply = candidate.part(call)?;
    if reply != *wanted {
        return Some(format!("part {reply:?}, expected {wanted:?}"));
    }
    None
}

/// Put the lookups of a job to the second entry.
fn check_parts(candidate: &mut dyn Candidate, judged: &Judged) -> Option<String> {
    let job = read_job(&judged.job)?;
    let mut lookups = job.questions.iter().filter(|q| q.op == LOOKUP);
    lookups.find_map(|q| {
        let call = q.call(job.schema);
        let what = check_part(candidate, &call, &lookup_part(&call))?;
        Some(format!("{what} in {call:02x?}"))
    })
}

impl Gen {
    /// Calls with rooms of any size: some of a job's questions, and in some
    /// cases blocks that are too large for a job.
    fn roomed_calls(&mut self, input: &[u8]) -> Vec<Round> {
        let mut rounds = Vec::new();
        if self.rng.below(200) == 0 {
            self.large_calls(&mut rounds);
        }
        let Some(job) = read_job(input).filter(|job| !job.questions.is_empty()) else {
            return rounds;
        };
        let cache = SchemaCache::of(Limits::STANDARD, job.schema);
        let mut calls = Vec::new();
        for _ in 0..if input.len() > 4000 { 3 } else { 1 } {
            let q = job.questions[self.rng.below(job.questions.len())];
            calls.push(self.roomed(q.owned(), &cache));
        }
        rounds.push(Round::of(&cache, calls));
        rounds
    }

    fn large_calls(&mut self, rounds: &mut Vec<Round>) {
        let (schema, list) = self.large_blocks();
        let ask = Ask {
            op: MAY_HAVE,
            mode: 0,
            attr: 1,
            t0: Ty::Ent(vec![2]).form(),
            t1: Vec::new(),
        };
        let cache = SchemaCache::of(Limits::STANDARD, &schema);
        rounds.push(Round::of(&cache, vec![self.roomed(ask.clone(), &cache)]));
        let ask = Ask {
            op: FOLD,
            mode: self.rng.from(1, 2) as u8,
            attr: 0,
            t0: list,
            ..ask
        };
        let schema = Sch::default().form();
        let cache = SchemaCache::of(Limits::STANDARD, &schema);
        rounds.push(Round::of(&cache, vec![self.roomed(ask, &cache)]));
    }
}

/// What one job and its roomed calls gave.
pub struct Judged {
    pub job: Vec<u8>,
    pub lines: Vec<u8>,
    /// None for a bad job.
    pub outcomes: Option<Vec<Outcome>>,
    pub rounds: Vec<Round>,
}

impl Judged {
    /// A job with the oracle's answers, and no roomed calls.
    pub fn of(job: Vec<u8>) -> Judged {
        let outcomes = read_job(&job).map(|j| j.outcomes());
        Judged {
            lines: print_outcomes(outcomes.as_deref()),
            job,
            outcomes,
            rounds: Vec::new(),
        }
    }
}

/// The next job with the oracle's answers, and forms that are measured.
pub fn judged(gen: &mut Gen) -> Judged {
    let job = gen.job();
    let mut rounds = gen.roomed_calls(&job);
    let cache = SchemaCache::of(Limits::STANDARD, &[]);
    rounds.push(Round::of(&cache, gen.measuring(cache.limits)));
    Judged {
        rounds,
        ..Judged::of(job)
    }
}

/// Put the questions of a job to the candidate as calls.
fn check_questions(candidate: &mut dyn Candidate, judged: &Judged) -> Option<String> {
    let job = read_job(&judged.job)?;
    let outcomes = judged.outcomes.as_ref()?;
    for (question, expected) in job.questions.iter().zip(outcomes) {
        let call = question.call(job.schema);
        if let Some(what) = check_call(candidate, &call, expected) {
            return Some(format!("{what} in {call:02x?}"));
        }
    }
    None
}

/// Compare a candidate on one job and its calls; the first difference.
pub fn difference(candidate: &mut dyn Candidate, judged: &Judged) -> Option<String> {
    match candidate.lines(&judged.job) {
        Some(lines) if lines != judged.lines => return Some(first_line(&lines, &judged.lines)),
        Some(_) => (),
        None => {
            if let Some(what) = check_questions(candidate, judged) {
                return Some(what);
            }
        }
    }
    let mut rounds = judged.rounds.iter();
    let roomed = rounds.find_map(|r| r.difference(candidate));
    roomed.or_else(|| check_parts(candidate, judged))
}

fn first_line(got: &[u8], wanted: &[u8]) -> String {
    let (got, wanted) = (
        String::from_utf8_lossy(got),
        String::from_utf8_lossy(wanted),
    );
    let mut pairs = got.lines().zip(wanted.lines());
    match pairs.find(|(a, b)| a != b) {
        Some((a, b)) => format!("line {a:?}, expected {b:?}"),
        None => format!("{} bytes of lines, expected {}", got.len(), wanted.len()),
    }
}
