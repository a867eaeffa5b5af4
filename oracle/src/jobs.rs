//! A job and its lines.

use crate::forms::Bytes;
use crate::limits::Limits;
use crate::questions::{answer_with, operation::*, Call, Outcome, SchemaCache};
use crate::trees::Ask;

pub const JOB_BYTES: usize = 32768;
pub const WORKSPACE: usize = 8192;
pub const RESULT: usize = 4096;

/// One question of a whole job.
#[derive(Clone, Copy, Debug)]
pub struct Question<'a> {
    pub op: u8,
    pub mode: u8,
    pub attr: u16,
    pub t0: &'a [u8],
    pub t1: &'a [u8],
}

/// A whole job.
pub struct Job<'a> {
    pub schema: &'a [u8],
    pub questions: Vec<Question<'a>>,
}

fn takes_mode(op: u8) -> bool {
    matches!(op, SUBTYPE | BOUND | FOLD)
}

fn takes_attr(op: u8) -> bool {
    matches!(op, LOOKUP | MAY_HAVE)
}

fn takes_second(op: u8) -> bool {
    matches!(
        op,
        SUBTYPE | BOUND | DISJOINT | CONSISTENT | CONFORMS | FULL
    )
}

/// Read a whole job.
pub fn read_job(input: &[u8]) -> Option<Job<'_>> {
    if input.len() > JOB_BYTES {
        return None;
    }
    let mut b = Bytes(input);
    let schema_length = b.u16()? as usize;
    let count = b.u16()? as usize;
    let mut entries = Bytes(b.take(8 * count)?);
    let schema = b.take(schema_length)?;
    let mut questions = Vec::with_capacity(count);
    for _ in 0..count {
        let (op, mode, attr) = (entries.u8()?, entries.u8()?, entries.u16()?);
        let (n0, n1) = (entries.u16()? as usize, entries.u16()? as usize);
        let untaken_is_zero = (takes_mode(op) || mode == 0)
            && (takes_attr(op) || attr == 0)
            && (takes_second(op) || n1 == 0);
        if op as usize >= COUNT || !untaken_is_zero {
            return None;
        }
        let (t0, t1) = (b.take(n0)?, b.take(n1)?);
        questions.push(Question {
            op,
            mode,
            attr,
            t0,
            t1,
        });
    }
    b.done()?;
    Some(Job { schema, questions })
}

impl<'a> Question<'a> {
    pub fn owned(&self) -> Ask {
        Ask {
            op: self.op,
            mode: self.mode,
            attr: self.attr,
            t0: self.t0.to_vec(),
            t1: self.t1.to_vec(),
        }
    }

    /// The call that the program makes.
    pub fn call(&self, schema: &'a [u8]) -> Call<'a> {
        Call {
            limits: Limits::STANDARD,
            op: self.op,
            mode: self.mode,
            attr: self.attr,
            schema,
            t0: self.t0,
            t1: self.t1,
            room: RESULT,
            work: WORKSPACE,
        }
    }
}

impl Job<'_> {
    /// The outcomes of all questions.
    pub fn outcomes(&self) -> Vec<Outcome> {
        let schema = SchemaCache::of(Limits::STANDARD, self.schema);
        self.questions
            .iter()
            .map(|q| answer_with(&q.call(self.schema), &schema))
            .collect()
    }
}

const DIGITS: &[u8; 16] = b"0123456789abcdef";

fn put_hex(out: &mut Vec<u8>, bytes: &[u8]) {
    for b in bytes {
        out.push(DIGITS[(b >> 4) as usize]);
        out.push(DIGITS[(b & 15) as usize]);
    }
}

/// Write the line of one outcome.
pub fn put_line(out: &mut Vec<u8>, index: usize, outcome: &Outcome) {
    let refusal = match outcome {
        Outcome::Refused(n) => *n,
        _ => 0,
    };
    out.extend_from_slice(format!("{index} {refusal} ").as_bytes());
    match outcome {
        Outcome::Refused(_) => out.push(b'-'),
        Outcome::Yes => out.extend_from_slice(b"yes"),
        Outcome::No => out.extend_from_slice(b"no"),
        Outcome::Nothing => out.extend_from_slice(b"none"),
        Outcome::Typed(written) => put_hex(out, &written.form),
        Outcome::Attribute(required, written) => {
            out.extend_from_slice(if *required { b"r:" } else { b"o:" });
            put_hex(out, &written.form);
        }
        Outcome::Named(form) => put_hex(out, form),
        // No question of a job comes to this.
        Outcome::Measured(length, levels) => {
            out.extend_from_slice(format!("m:{length}/{levels}").as_bytes());
        }
    }
    out.push(b'\n');
}

/// The lines of a job's outcomes; none for a bad job.
pub fn print_outcomes(outcomes: Option<&[Outcome]>) -> Vec<u8> {
    let Some(outcomes) = outcomes else {
        return b"- 16 -\n".to_vec();
    };
    let mut out = Vec::new();
    for (index, outcome) in outcomes.iter().enumerate() {
        put_line(&mut out, index, outcome);
    }
    out
}

/// All lines of a job.
pub fn lines(input: &[u8]) -> Vec<u8> {
    let outcomes = read_job(input).map(|job| job.outcomes());
    print_outcomes(outcomes.as_deref())
}

/// The jobs of a batch, each behind its u32 length.
pub fn batch(bytes: &[u8]) -> Result<Vec<&[u8]>, String> {
    let mut b = Bytes(bytes);
    let mut jobs = Vec::new();
    while !b.0.is_empty() {
        let at = bytes.len() - b.0.len();
        let length = b.u32().ok_or(format!("length cut off at byte {at}"))?;
        let job = b.take(length as usize);
        jobs.push(job.ok_or(format!("job cut off at byte {at}"))?);
    }
    Ok(jobs)
}

/// Put one job into a batch.
pub fn put_job(out: &mut Vec<u8>, job: &[u8]) {
    out.extend_from_slice(&(job.len() as u32).to_le_bytes());
    out.extend_from_slice(job);
}
