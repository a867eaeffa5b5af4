//! Claims about limits: what they change, and what they do not.

use super::Tallies;
use crate::candidates::{Candidate, KeptModel, Model};
use crate::forms::{read_list, read_type};
use crate::generate::Gen;
use crate::harness::check_call;
use crate::limits::Limits;
use crate::model::Rules;
use crate::questions::{answer_with, Call, Outcome, SchemaCache, Written};
use crate::rounds::Round;

/// Try the claims about limits on the questions of one round.
pub fn try_limits(gen: &mut Gen, tallies: &mut Tallies) {
    let round = Round::drawn(gen);
    let (larger, outside) = (larger(gen, round.limits), outside(gen, round.limits));
    let cache = SchemaCache::of(larger, &round.schema);
    for answered in &round.answered {
        let call = round.call(answered);
        refused(tallies, outside, &call);
        if round.limits.allowed() {
            kept(tallies, &call, &answered.outcome, &cache);
            whole(tallies, &call, &answered.outcome);
        }
    }
}

/// Limits of which neither is below these.
fn larger(gen: &mut Gen, limits: Limits) -> Limits {
    let (least, most) = (limits.nearest(), Limits::LARGEST);
    Limits {
        levels: gen.rng.from(least.levels, most.levels),
        bytes: gen.rng.from(least.bytes, most.bytes),
    }
}

/// These limits with one of them, or both, outside its range.
fn outside(gen: &mut Gen, mut limits: Limits) -> Limits {
    let both = gen.rng.percent(20);
    if both || gen.rng.percent(50) {
        limits.levels = *gen.rng.pick(&[0, 33, 272, usize::MAX]);
    }
    if both || limits.allowed() {
        limits.bytes = *gen.rng.pick(&[0, 63, 8193, 65_600, usize::MAX]);
    }
    limits
}

fn forms<'a>(call: &Call<'a>) -> [&'a [u8]; 3] {
    [call.schema, call.t0, call.t1]
}

/// Outside the ranges the model answers 20, writes nothing and leaves a
/// workspace zero.
fn refused(tallies: &mut Tallies, limits: Limits, call: &Call<'_>) {
    let call = Call { limits, ..*call };
    let candidates: [&mut dyn Candidate; 2] =
        [&mut Model(Rules::SOUND), &mut KeptModel(Rules::SOUND)];
    for candidate in candidates {
        let what = check_call(candidate, &call, &Outcome::Refused(20));
        let name = "limits: outside their ranges a call is 20 and writes nothing";
        tallies.claim(name, what.is_none(), &forms(&call));
    }
}

/// What no limit refused stays under larger ones.
fn kept(tallies: &mut Tallies, call: &Call<'_>, outcome: &Outcome, cache: &SchemaCache<'_>) {
    if matches!(outcome, Outcome::Refused(2..=5 | 9 | 10)) {
        return;
    }
    let limits = cache.limits;
    let same = answer_with(&Call { limits, ..*call }, cache) == *outcome;
    let name = "limits: what they do not refuse is the same under larger ones";
    tallies.claim(name, same, &forms(call));
}

/// A type that is written is whole under the limits of its call; so is a list
/// of one.
fn whole(tallies: &mut Tallies, call: &Call<'_>, outcome: &Outcome) {
    let Some(Written { form, .. }) = outcome.written() else {
        return;
    };
    let list = crate::trees::list_form(std::slice::from_ref(form));
    let holds = read_type(call.limits, form).is_some() && read_list(call.limits, &list).is_some();
    let name = "limits: a type that is written is whole under them";
    tallies.claim(name, holds, &forms(call));
}
