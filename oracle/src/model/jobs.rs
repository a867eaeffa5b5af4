//! The job and its lines.

use super::read::Reading;
use super::Rules;
use crate::limits::Limits;
use crate::questions::{operation::FULL, Call, Outcome, Written};

struct Entry {
    op: u8,
    mode: u8,
    attr: u16,
    lengths: (u16, u16),
}

impl Rules {
    fn entry_stands(self, e: &Entry) -> bool {
        let in_full = |fault| e.op == FULL && self.fault(fault);
        let mode = match e.op {
            0 | 1 | 9 => e.mode <= 2 || !self.fault(246),
            _ => e.mode == 0 || self.fault(200) || in_full(338),
        };
        let attr = matches!(e.op, 3 | 4) || e.attr == 0 || self.fault(201) || in_full(339);
        let two = matches!(e.op, 0 | 1 | 2 | 6 | 8 | FULL) && !in_full(340);
        let second = two || e.lengths.1 == 0 || self.fault(202);
        let known = e.op <= self.or(203, FULL, 12) && !in_full(337);
        known && mode && attr && second
    }

    /// The calls of a whole job.
    pub fn calls(self, input: &[u8]) -> Option<Vec<Call<'_>>> {
        if input.len() > self.or(204, 32768, 32769) {
            return None;
        }
        let mut r = Reading::new(self, input);
        let (schema, count) = (r.u16()? as usize, r.u16()?);
        let mut entries = Vec::new();
        for _ in 0..count {
            entries.push(Entry {
                op: r.byte()?,
                mode: r.byte()?,
                attr: r.u16()?,
                lengths: (r.u16()?, r.u16()?),
            });
        }
        let schema = r.run(schema)?;
        let mut calls = Vec::new();
        for e in entries {
            if !self.entry_stands(&e) {
                return None;
            }
            let (mut t0, mut t1) = (r.run(e.lengths.0 as usize)?, r.run(e.lengths.1 as usize)?);
            if self.fault(213) && !t1.is_empty() {
                (t0, t1) = (t1, t0);
            }
            calls.push(Call {
                limits: Limits::STANDARD,
                op: e.op,
                mode: e.mode,
                attr: e.attr,
                schema,
                t0,
                t1,
                room: 4096,
                work: 8192,
            });
        }
        (r.at_end() || self.fault(205)).then_some(calls)
    }

    fn hex(self, bytes: &[u8]) -> String {
        let digits = self.or(207, b"0123456789abcdef", b"0123456789ABCDEF");
        let digit = |n: u8| digits[n as usize] as char;
        bytes
            .iter()
            .flat_map(|b| [digit(b / 16), digit(b % 16)])
            .collect()
    }

    /// A line has a type's form alone.
    fn printed(self, written: &Written) -> String {
        let form = self.hex(&written.form);
        match self.fault(426) {
            true => format!("{form}/{}", written.levels),
            false => form,
        }
    }

    fn line(self, index: usize, outcome: &Outcome) -> String {
        let index = self.or(209, index, index + 1);
        match outcome {
            Outcome::Refused(n) => format!("{index} {n} -\n"),
            Outcome::Yes => format!("{index} 0 yes\n"),
            Outcome::No => format!("{index} 0 no\n"),
            Outcome::Nothing => format!("{index} 0 none\n"),
            Outcome::Typed(written) => format!("{index} 0 {}\n", self.printed(written)),
            Outcome::Attribute(required, written) => {
                let flag = self.or(208, ["o:", "r:"][*required as usize], "");
                format!("{index} 0 {flag}{}\n", self.printed(written))
            }
            Outcome::Named(form) if form.is_empty() && self.fault(206) => format!("{index} 0\n"),
            Outcome::Named(form) => format!("{index} 0 {}\n", self.hex(form)),
            Outcome::Measured(..) => unreachable!("no question of a job measures"),
        }
    }
}

/// All lines of a job.
pub fn lines(rules: Rules, input: &[u8]) -> Vec<u8> {
    let Some(calls) = rules.calls(input) else {
        return b"- 16 -\n".to_vec();
    };
    let schema = calls.first().map_or(&[] as &[u8], |c| c.schema);
    let kept = rules.keep(Limits::STANDARD, schema);
    let mut out = String::new();
    if calls.is_empty() && rules.fault(212) {
        return b"- 16 -\n".to_vec();
    }
    for (index, call) in calls.iter().enumerate() {
        let outcome = rules.answer_kept(&kept, call);
        out.push_str(&rules.line(index, &outcome));
        if rules.fault(211) && matches!(outcome, Outcome::Refused(_)) {
            break;
        }
    }
    if rules.fault(210) {
        out.pop();
    }
    out.into_bytes()
}
