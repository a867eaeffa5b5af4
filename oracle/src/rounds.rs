//! Questions on one schema under one record of limits, with rooms of any size
//! and the oracle's answers.

use crate::candidates::Candidate;
use crate::forms::{read_list, write_type};
use crate::generate::{Drawn, Gen};
use crate::harness::{check_call, check_part};
use crate::jobs::{Job, Question, RESULT, WORKSPACE};
use crate::limits::Limits;
use crate::questions::{
    answer_with, lookup_part_with, operation::*, Call, Outcome, Part, SchemaCache,
};
use crate::trees::Ask;

/// A question with the lengths of its result buffer and its workspace.
#[derive(Clone, Debug)]
pub struct Roomed {
    pub ask: Ask,
    pub room: usize,
    pub work: usize,
}

impl Roomed {
    pub fn call<'a>(&'a self, limits: Limits, schema: &'a [u8]) -> Call<'a> {
        Call {
            limits,
            op: self.ask.op,
            mode: self.ask.mode,
            attr: self.ask.attr,
            schema,
            t0: &self.ask.t0,
            t1: &self.ask.t1,
            room: self.room,
            work: self.work,
        }
    }
}

/// A question with the oracle's answers.
pub struct Answered {
    pub roomed: Roomed,
    pub outcome: Outcome,
    /// Of a lookup, by its second entry.
    pub part: Option<Part>,
    /// Did the model judge alone?
    pub left_out: bool,
}

pub struct Round {
    pub limits: Limits,
    pub schema: Vec<u8>,
    pub answered: Vec<Answered>,
}

fn answered(roomed: Roomed, cache: &SchemaCache<'_>) -> Answered {
    let call = roomed.call(cache.limits, cache.form);
    let before = cache.left_out.get();
    let outcome = answer_with(&call, cache);
    let part = (call.op == LOOKUP).then(|| lookup_part_with(&call, cache));
    Answered {
        left_out: cache.left_out.get() > before,
        outcome,
        part,
        roomed,
    }
}

impl Round {
    /// The oracle's answers to some calls on a schema.
    pub fn of(cache: &SchemaCache<'_>, calls: Vec<Roomed>) -> Round {
        let calls = calls.into_iter();
        Round {
            limits: cache.limits,
            schema: cache.form.to_vec(),
            answered: calls.map(|c| answered(c, cache)).collect(),
        }
    }

    /// The next questions under drawn limits.
    pub fn drawn(gen: &mut Gen) -> Round {
        let Drawn { limits, asked } = gen.drawn();
        let cache = SchemaCache::of(limits, &asked.schema);
        let asks = asked.asks.into_iter();
        let calls = asks.map(|ask| gen.roomed_or_wide(ask, &cache));
        let mut calls: Vec<Roomed> = calls.collect();
        calls.extend(gen.measuring(limits));
        Round::of(&cache, calls)
    }

    /// Every form measured as a type and as a value.
    pub fn of_forms<'f>(limits: Limits, forms: impl Iterator<Item = &'f Vec<u8>>) -> Round {
        let measured = |form: &'f Vec<u8>| {
            [MEASURE_TYPE, MEASURE_VALUE].map(|op| Roomed {
                ask: Ask {
                    op,
                    mode: 0,
                    attr: 0,
                    t0: form.clone(),
                    t1: Vec::new(),
                },
                room: 2,
                work: 2,
            })
        };
        let cache = SchemaCache::of(limits, &[]);
        Round::of(&cache, forms.flat_map(measured).collect())
    }

    /// The questions of a job under limits, with a program's rooms.
    pub fn of_job(limits: Limits, job: &Job<'_>) -> Round {
        let cache = SchemaCache::of(limits, job.schema);
        let roomed = |q: &Question<'_>| Roomed {
            ask: q.owned(),
            room: RESULT,
            work: WORKSPACE,
        };
        Round::of(&cache, job.questions.iter().map(roomed).collect())
    }

    pub fn call<'a>(&'a self, answered: &'a Answered) -> Call<'a> {
        answered.roomed.call(self.limits, &self.schema)
    }

    /// Compare a candidate on all calls; the first difference.
    pub fn difference(&self, candidate: &mut dyn Candidate) -> Option<String> {
        self.answered.iter().find_map(|answered| {
            let call = self.call(answered);
            let what = check_call(candidate, &call, &answered.outcome);
            let part = answered.part.as_ref();
            let what = what.or_else(|| check_part(candidate, &call, part?));
            Some(format!("{} in {call:02x?}", what?))
        })
    }
}

/// The length of a fold's first step, its first type.
fn first_step(call: &Call<'_>) -> Option<usize> {
    let types = read_list(call.limits, call.t0).filter(|_| call.op == FOLD)?;
    Some(write_type(types.first()?).len())
}

impl Gen {
    /// The question with rooms around the length of the answer, or of a fold's
    /// first step.
    pub fn roomed(&mut self, ask: Ask, cache: &SchemaCache<'_>) -> Roomed {
        let mut roomed = Roomed {
            ask,
            room: 65_536,
            work: 131_072,
        };
        let call = roomed.call(cache.limits, cache.form);
        let n = answer_with(&call, cache).bytes().map_or(0, <[u8]>::len);
        let most = cache.limits.nearest().bytes;
        let any = self.rng.below(40);
        let short = n.saturating_sub(1);
        let room = *self
            .rng
            .pick(&[n, n, short, n + 1, 0, most, most + 1, 9000, any]);
        let any = self.rng.below(80);
        let step = match self.rng.percent(70) {
            true => first_step(&call).unwrap_or(n),
            false => n,
        };
        let edges = [2 * step, 2 * step + 1, (2 * step).saturating_sub(1)];
        let wide = [
            0,
            2 * most - 1,
            2 * most,
            2 * most + 2,
            20_000,
            131_072,
            any,
        ];
        let work = match self.rng.percent(60) {
            true => *self.rng.pick(&edges),
            false => *self.rng.pick(&wide),
        };
        (roomed.room, roomed.work) = (room, work);
        roomed
    }

    /// The same, or with rooms for the largest form, or for more.
    fn roomed_or_wide(&mut self, ask: Ask, cache: &SchemaCache<'_>) -> Roomed {
        if self.rng.percent(40) {
            return self.roomed(ask, cache);
        }
        let room = cache.limits.nearest().bytes * self.rng.from(1, 2);
        Roomed {
            ask,
            room,
            work: 2 * room,
        }
    }

    /// Forms to be measured, drawn beside this generator's questions.
    pub fn measuring(&self, limits: Limits) -> Vec<Roomed> {
        let mut beside = self.beside(limits);
        let asks = beside.measures().into_iter();
        asks.map(|ask| Roomed {
            ask,
            room: beside.rng.below(9),
            work: beside.rng.below(9),
        })
        .collect()
    }
}
