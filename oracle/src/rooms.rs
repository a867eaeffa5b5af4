//! Calls as the program `rooms` reads them, and the lines that it prints:
//! refusal or 0, answer, every byte of the result buffer and the workspace. A
//! type that is written or a form that is measured is told by its length and its
//! levels. For the second entry of lookup, where the part starts and ends, and
//! its bytes.

use crate::candidates::{leave, Candidate, Reply};
use crate::forms::Bytes;
use crate::full::as_conforms;
use crate::harness::{lent, Judged};
use crate::jobs::read_job;
use crate::limits::Limits;
use crate::loose::LOOSE;
use crate::questions::{answer, lookup_part, operation::*, Call, Outcome, Part};
use crate::rounds::Round;
use std::fmt::{self, Write};
use std::ops::Range;

/// The second entry of lookup, which is no operation of a job.
const OWN: u8 = 255;

/// More would make long lines.
const LARGEST: usize = 600;

/// How many calls there are, that measure, in mode 2, of operation 11, of these
/// not as operation 8, refused with 17, under other limits than the standard
/// ones, and refused with 20.
#[derive(Clone, Copy, Default)]
pub struct Tally {
    calls: usize,
    measures: usize,
    loose: usize,
    full: usize,
    not_full: usize,
    pub broken: usize,
    pub others: usize,
    pub unallowed: usize,
}

impl fmt::Display for Tally {
    fn fmt(&self, f: &mut fmt::Formatter<'_>) -> fmt::Result {
        write!(
            f,
            "{} calls, {} of them measure, {} in mode 2, {} of operation 11, {} of these not as operation 8, \
             {} refused with 17, {} under other limits than the standard ones, {} refused with 20",
            self.calls,
            self.measures,
            self.loose,
            self.full,
            self.not_full,
            self.broken,
            self.others,
            self.unallowed
        )
    }
}

/// Calls in bytes, with the line of each.
#[derive(Default)]
pub struct Lent {
    pub input: Vec<u8>,
    pub lines: Vec<String>,
    pub tally: Tally,
}

fn bracketed(bytes: &[u8]) -> String {
    let mut out = String::from(" [");
    bytes
        .iter()
        .for_each(|b| write!(out, "{b:02x}").expect("a string"));
    out.push(']');
    out
}

/// The line of a reply, and of what it left.
fn line(reply: Reply, out: &[u8], work: &[u8]) -> String {
    let said = match reply {
        Reply::Refused(n) => format!("{n} -"),
        Reply::Yes => "0 yes".into(),
        Reply::No => "0 no".into(),
        Reply::Nothing => "0 none".into(),
        Reply::Typed(n, levels) => format!("0 {n}/{levels}"),
        Reply::Attribute(true, n, levels) => format!("0 r:{n}/{levels}"),
        Reply::Attribute(false, n, levels) => format!("0 o:{n}/{levels}"),
        Reply::Named(n) => format!("0 {n}"),
        Reply::Measured(n, levels) => format!("0 m:{n}/{levels}"),
    };
    said + &bracketed(out) + &bracketed(work)
}

fn told_line(call: &Call<'_>, outcome: &Outcome) -> String {
    let (mut out, mut work) = lent(call);
    let reply = leave(call, outcome, &mut out, &mut work);
    line(reply, &out, &work)
}

fn part_line(form: &[u8], part: &Part) -> String {
    match part {
        Part::Refused(n) => format!("{n} - []"),
        Part::Nothing => "0 none []".into(),
        Part::Attribute(required, at) => {
            let flag = if *required { 'r' } else { 'o' };
            let Range { start, end } = at;
            let bytes = bracketed(&form[at.clone()]);
            format!("0 {flag}:{start}..{end}{bytes}")
        }
    }
}

/// The next call of the program's input: numbers, then bodies.
fn read_call<'a>(b: &mut Bytes<'a>) -> Option<Call<'a>> {
    let (op, mode, attr) = (b.u8()?, b.u8()?, b.u16()?);
    let (room, work) = (b.u16()? as usize, b.u16()? as usize);
    let (s, n0, n1) = (b.u16()? as usize, b.u16()? as usize, b.u16()? as usize);
    let limits = Limits {
        levels: b.u32()? as usize,
        bytes: b.u32()? as usize,
    };
    let (schema, t0, t1) = (b.take(s)?, b.take(n0)?, b.take(n1)?);
    Some(Call {
        limits,
        op,
        mode,
        attr,
        schema,
        t0,
        t1,
        room,
        work,
    })
}

/// The lines of the program's input, as a candidate answers its calls; none if
/// a call is cut short.
pub fn lines(input: &[u8], candidate: &mut dyn Candidate) -> Option<String> {
    let mut b = Bytes(input);
    let mut lines = String::new();
    while !b.0.is_empty() {
        let call = read_call(&mut b)?;
        let (mut out, mut work) = lent(&call);
        lines += &match call.op {
            OWN => part_line(call.t0, &candidate.part(&call)?),
            _ => line(candidate.call(&call, &mut out, &mut work), &out, &work),
        };
        lines.push('\n');
    }
    Some(lines)
}

/// Can the program be asked with these limits and bodies?
fn has_head(call: &Call<'_>) -> bool {
    let Limits { levels, bytes } = call.limits;
    let mut bodies = [call.schema, call.t0, call.t1].into_iter();
    levels.max(bytes) <= u32::MAX as usize && bodies.all(|b| b.len() <= u16::MAX as usize)
}

impl Lent {
    fn put(&mut self, op: u8, call: &Call<'_>, line: String) {
        let lengths = [call.schema.len(), call.t0.len(), call.t1.len()];
        let numbers = [call.attr as usize, call.room, call.work]
            .into_iter()
            .chain(lengths);
        let tally = &mut self.tally;
        tally.calls += 1;
        tally.measures += matches!(op, MEASURE_TYPE | MEASURE_VALUE) as usize;
        tally.loose += (call.mode == LOOSE) as usize;
        tally.others += (call.limits != Limits::STANDARD) as usize;
        tally.unallowed += !call.limits.allowed() as usize;
        self.input.extend([op, call.mode]);
        for number in numbers {
            let number = u16::try_from(number).expect("a u16");
            self.input.extend(number.to_le_bytes());
        }
        for limit in [call.limits.levels, call.limits.bytes] {
            let limit = u32::try_from(limit).expect("a u32");
            self.input.extend(limit.to_le_bytes());
        }
        self.input.extend([call.schema, call.t0, call.t1].concat());
        self.lines.push(line);
    }

    /// Count a call of operation 11, and one whose value is not text.
    fn count(&mut self, call: &Call<'_>, outcome: &Outcome) {
        let tally = &mut self.tally;
        tally.broken += (*outcome == Outcome::Refused(17)) as usize;
        if call.op == FULL {
            tally.full += 1;
            tally.not_full += (answer(&as_conforms(call)) != *outcome) as usize;
        }
    }

    /// The second entry of lookup.
    fn put_part(&mut self, call: &Call<'_>, part: &Part) {
        let call = Call {
            room: 0,
            work: 0,
            ..*call
        };
        self.put(OWN, &call, part_line(call.t0, part));
    }

    /// The calls with small buffers, and the lookups by both entries.
    pub fn put_round(&mut self, round: &Round) {
        for answered in &round.answered {
            let call = round.call(answered);
            if !has_head(&call) {
                continue;
            }
            if call.room <= LARGEST && call.work <= LARGEST {
                self.count(&call, &answered.outcome);
                self.put(call.op, &call, told_line(&call, &answered.outcome));
            }
            if let Some(part) = &answered.part {
                self.put_part(&call, part);
            }
        }
    }

    /// The same of a job, and its own lookups by the second entry.
    pub fn put_judged(&mut self, judged: &Judged) {
        judged.rounds.iter().for_each(|r| self.put_round(r));
        let Some(job) = read_job(&judged.job) else {
            return;
        };
        for q in job.questions.iter().filter(|q| q.op == LOOKUP) {
            let call = q.call(job.schema);
            self.put_part(&call, &lookup_part(&call));
        }
    }
}
