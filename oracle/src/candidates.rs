//! What is compared with the oracle: something that answers calls, as a program
//! or a library does, and the models that do so.

use crate::jobs::lines;
use crate::model::{self, Rules};
use crate::questions::{answer, lookup_part, operation::*, Call, Outcome, Part};

/// What a candidate's entry returns: lengths and levels, while the bytes are in
/// `out`.
#[derive(Clone, Copy, Debug, PartialEq, Eq)]
pub enum Reply {
    Refused(u8),
    Yes,
    No,
    Nothing,
    Typed(usize, usize),
    Attribute(bool, usize, usize),
    Named(usize),
    Measured(usize, usize),
}

/// A program or a library that answers as 01 says.
pub trait Candidate {
    /// One entry of the library. `out` has `call.room` bytes, `work` has
    /// `call.work`.
    fn call(&mut self, call: &Call<'_>, out: &mut [u8], work: &mut [u8]) -> Reply;

    /// The second entry of lookup, if the candidate has it.
    fn part(&mut self, _call: &Call<'_>) -> Option<Part> {
        None
    }

    /// The lines of a job, if the candidate prints them; else the job's
    /// questions are put to it as calls.
    fn lines(&mut self, _job: &[u8]) -> Option<Vec<u8>> {
        None
    }
}

/// Write as much as there is room for.
fn put(out: &mut [u8], form: &[u8]) -> usize {
    let n = out.len().min(form.len());
    out[..n].copy_from_slice(&form[..n]);
    form.len()
}

/// Write what an outcome leaves in the buffers of its call.
pub fn leave(call: &Call<'_>, outcome: &Outcome, out: &mut [u8], work: &mut [u8]) -> Reply {
    if matches!(call.op, LOOKUP | NAMES | FOLD) {
        work.fill(0);
    }
    match outcome {
        Outcome::Refused(n) => Reply::Refused(*n),
        Outcome::Yes => Reply::Yes,
        Outcome::No => Reply::No,
        Outcome::Nothing => Reply::Nothing,
        Outcome::Typed(w) => Reply::Typed(put(out, &w.form), w.levels),
        Outcome::Attribute(required, w) => Reply::Attribute(*required, put(out, &w.form), w.levels),
        Outcome::Named(form) => Reply::Named(put(out, form)),
        Outcome::Measured(length, levels) => Reply::Measured(*length, *levels),
    }
}

/// The oracle as a candidate.
pub struct Oracle;

impl Candidate for Oracle {
    fn call(&mut self, call: &Call<'_>, out: &mut [u8], work: &mut [u8]) -> Reply {
        leave(call, &answer(call), out, work)
    }

    fn part(&mut self, call: &Call<'_>) -> Option<Part> {
        Some(lookup_part(call))
    }

    fn lines(&mut self, job: &[u8]) -> Option<Vec<u8>> {
        Some(lines(job))
    }
}

/// The model as a candidate: it reads the schema in every call.
pub struct Model(pub Rules);

/// The model, asked with a schema that is checked before and kept.
pub struct KeptModel(pub Rules);

/// What an outcome leaves by some rules.
fn leave_by(
    rules: Rules,
    call: &Call<'_>,
    outcome: &Outcome,
    out: &mut [u8],
    work: &mut [u8],
) -> Reply {
    if !rules.spares_result(outcome) {
        out.fill(0);
    }
    if rules.clears_measuring(outcome) {
        work.fill(0);
    }
    let work = match rules.clears_work(outcome) {
        true => work,
        false => &mut [],
    };
    leave(call, outcome, out, work)
}

impl Candidate for Model {
    fn call(&mut self, call: &Call<'_>, out: &mut [u8], work: &mut [u8]) -> Reply {
        leave_by(self.0, call, &self.0.answer(call), out, work)
    }

    fn part(&mut self, call: &Call<'_>) -> Option<Part> {
        Some(self.0.part(call))
    }

    fn lines(&mut self, job: &[u8]) -> Option<Vec<u8>> {
        Some(model::lines(self.0, job))
    }
}

impl Candidate for KeptModel {
    fn call(&mut self, call: &Call<'_>, out: &mut [u8], work: &mut [u8]) -> Reply {
        let kept = self.0.keep(call.limits, call.schema);
        leave_by(self.0, call, &self.0.answer_kept(&kept, call), out, work)
    }

    fn part(&mut self, call: &Call<'_>) -> Option<Part> {
        let kept = self.0.keep(call.limits, call.schema);
        Some(self.0.part_kept(&kept, call))
    }
}
