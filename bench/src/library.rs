//! The static library, as the oracle's harness calls it.

use oracle::candidates::{Candidate, Reply};
use oracle::library::linked::{CHECKED, ENTRIES};
use oracle::library::{CheckedLibrary, Library};
use oracle::limits::Limits;
use oracle::questions::{operation::MEASURE_TYPE, Call, Outcome, Part, Written};

/// The second entry of lookup, beside the operations of a job.
pub const OWN: u8 = u8::MAX;

/// A call with nothing in it, in permissive mode: its result buffer holds any
/// answer under its limits, its workspace serves any step.
pub fn call_under(limits: Limits) -> Call<'static> {
    Call {
        limits,
        op: 0,
        mode: 1,
        attr: 0,
        schema: &[],
        t0: &[],
        t1: &[],
        room: limits.bytes,
        work: 2 * limits.bytes,
    }
}

/// The buffers of a call. Nothing clears them between calls but the library.
pub fn buffers(limits: Limits) -> (Vec<u8>, Vec<u8>) {
    let Call { room, work, .. } = call_under(limits);
    (vec![0; room], vec![0; work])
}

const THROUGH: CheckedLibrary = CheckedLibrary(ENTRIES, CHECKED);

/// The number that the check of a schema gave.
#[derive(Clone, Copy)]
pub struct Checked(u64);

impl Checked {
    pub fn of(limits: Limits, schema: &[u8]) -> Checked {
        Checked(THROUGH.check(limits, schema))
    }
}

/// What a call answers: lengths and levels, or a part of the type.
pub enum Answer {
    Reply(Reply),
    Part(Part),
}

/// An entry that checks the schema itself.
pub fn entry(call: &Call<'_>, out: &mut [u8], work: &mut [u8]) -> Answer {
    let mut library = Library(ENTRIES);
    match call.op {
        OWN => {
            let part = library.part(call);
            Answer::Part(part.expect("the library has the second entry"))
        }
        _ => Answer::Reply(library.call(call, out, work)),
    }
}

/// The same with a schema that was checked before.
pub fn through(check: Checked, call: &Call<'_>, out: &mut [u8], work: &mut [u8]) -> Answer {
    match call.op {
        OWN => Answer::Part(THROUGH.part_with(check.0, call)),
        _ => Answer::Reply(THROUGH.call_with(check.0, call, out, work)),
    }
}

/// A part tells no levels: it is measured.
fn levels_of(part: &[u8]) -> usize {
    let call = Call {
        op: MEASURE_TYPE,
        t0: part,
        ..call_under(Limits::LARGEST)
    };
    match Library(ENTRIES).call(&call, &mut [], &mut []) {
        Reply::Measured(_, levels) => levels,
        other => panic!("a part is a whole type: {other:?}"),
    }
}

/// An answer as the oracle says it.
pub fn outcome(answer: Answer, t: &[u8], out: &[u8]) -> Outcome {
    let written = |form: &[u8], levels| Written {
        form: form.to_vec(),
        levels,
    };
    match answer {
        Answer::Reply(Reply::Refused(n)) | Answer::Part(Part::Refused(n)) => Outcome::Refused(n),
        Answer::Reply(Reply::Yes) => Outcome::Yes,
        Answer::Reply(Reply::No) => Outcome::No,
        Answer::Reply(Reply::Nothing) | Answer::Part(Part::Nothing) => Outcome::Nothing,
        Answer::Reply(Reply::Typed(n, levels)) => Outcome::Typed(written(&out[..n], levels)),
        Answer::Reply(Reply::Attribute(r, n, levels)) => {
            Outcome::Attribute(r, written(&out[..n], levels))
        }
        Answer::Reply(Reply::Named(n)) => Outcome::Named(out[..n].to_vec()),
        Answer::Reply(Reply::Measured(n, levels)) => Outcome::Measured(n, levels),
        Answer::Part(Part::Attribute(r, at)) => {
            let part = &t[at];
            Outcome::Attribute(r, written(part, levels_of(part)))
        }
    }
}
