//! Claims about levels: what is told of a type that is written, beside the types
//! that it is made from and beside what measuring tells.

use super::{Tallies, STANDARD};
use crate::generate::Gen;
use crate::levels::deepest_made_from;
use crate::limits::Limits;
use crate::model::Rules;
use crate::questions::{answer, answer_with, operation::*, Call, Outcome, SchemaCache, Written};
use crate::rounds::Round;
use crate::trees::{Attr, Ty, Val};

/// Try the claims about levels on the questions of one round, and on a pair of
/// types in every mode.
pub fn try_levels(gen: &mut Gen, tallies: &mut Tallies) {
    let round = Round::drawn(gen);
    let cache = SchemaCache::of(round.limits, &round.schema);
    for answered in &round.answered {
        let call = round.call(answered);
        told(tallies, &call, &answered.outcome, &cache);
        held(tallies, &call, &answered.outcome);
    }
    let (a, b) = gen.pair();
    pair(tallies, [&a, &b]);
    pair(tallies, [&in_action(&a), &in_action(&b)]);
}

fn in_action(ty: &Ty) -> Ty {
    let attr = Attr {
        name: 1,
        required: true,
        ty: ty.clone(),
    };
    Ty::Rec(
        false,
        vec![Attr {
            ty: Ty::Act(1, vec![attr.clone()]),
            ..attr
        }],
    )
}

/// The bound of two types in every mode.
fn pair(tallies: &mut Tallies, types: [&Ty; 2]) {
    let [a, b] = types.map(Ty::form);
    let cache = SchemaCache::of(STANDARD, &[0; 6]);
    for mode in 0..3 {
        let call = Call {
            mode,
            room: STANDARD.bytes,
            ..Call::plain(BOUND, cache.form, &a, &b)
        };
        told(tallies, &call, &answer_with(&call, &cache), &cache);
    }
}

fn bounded(op: u8, mode: u8) -> &'static str {
    match (op, mode) {
        (BOUND, 0) => "levels: a strict bound has no more than the deeper of its types",
        (BOUND, 1) => "levels: a permissive bound has no more than the deeper of its types",
        (BOUND, _) => "levels: a loose bound has no more than the deeper of its types",
        (FOLD, _) => "levels: a fold has no more than the deepest of its types, of nothing 1",
        (LOOKUP, _) => "levels: a lookup has no more than the deepest that it joins",
        _ => "levels: a conversion has no more than what is converted",
    }
}

/// What is told of a type that is written.
fn told(tallies: &mut Tallies, call: &Call<'_>, outcome: &Outcome, cache: &SchemaCache<'_>) {
    let Some(Written { form, levels }) = outcome.written() else {
        return;
    };
    let forms: [&[u8]; 3] = [call.schema, call.t0, call.t1];
    let mut claim = |name, holds| tallies.claim(name, holds, &forms);
    if let Some(deepest) = deepest_made_from(call, cache) {
        claim(bounded(call.op, call.mode), *levels <= deepest);
        if call.op == BOUND {
            let name = "levels: a bound has as many as the deeper of its types";
            claim(name, *levels == deepest);
        }
    }
    if call.op == LITERAL {
        let name = "levels: a literal of an action has those of its body, of an entity 1";
        claim(name, Some(*levels) == body_levels(call, cache));
    }
    let measured = measured(call.limits, MEASURE_TYPE, form);
    let name = "levels: measuring what was written tells the same two numbers";
    claim(name, measured == Outcome::Measured(form.len(), *levels));
}

/// The levels of the body that a uid has in the schema, of an entity 1.
fn body_levels(call: &Call<'_>, cache: &SchemaCache<'_>) -> Option<usize> {
    let value = Rules::SOUND.whole_value(call.limits, call.t0)?;
    let Val::Uid(ty, id) = value else { return None };
    let actions = &cache.tree().actions;
    match actions.iter().find(|a| (a.ty, a.id) == (ty, id)) {
        Some(action) => Some(action.body().levels()),
        None => Some(1),
    }
}

fn measured(limits: Limits, op: u8, form: &[u8]) -> Outcome {
    answer(&Call {
        limits,
        ..Call::plain(op, &[], form, &[])
    })
}

/// What is measured has a level less than a set of it.
fn held(tallies: &mut Tallies, call: &Call<'_>, outcome: &Outcome) {
    let Outcome::Measured(length, levels) = outcome else {
        return;
    };
    let [low, high] = (*length as u16).to_le_bytes();
    let head: &[u8] = match call.op {
        MEASURE_TYPE => &[7],
        _ => &[5, 1, 0, low, high],
    };
    let set = [head, call.t0].concat();
    let larger = Limits::LARGEST;
    if set.len() <= larger.bytes && *levels < larger.levels {
        let one_more = Outcome::Measured(set.len(), levels + 1);
        let holds = measured(larger, call.op, &set) == one_more;
        tallies.claim(
            "levels: a set has one more than its part",
            holds,
            &[call.t0],
        );
    }
}
