//! The binding against the published Rust, question by question of generated
//! jobs, and of their forms measured.

use oracle::generate::Gen;
use oracle::jobs::read_job;
use oracle::questions::{answer, operation::*, Call, Outcome, Written as Told};
use tirncheav::{Limits, Measured, Mode, Refusal, Schema, Written, FORM_BYTES, WORK_BYTES};

/// What an answer is, or its refusal.
fn told<T>(answer: Result<T, Refusal>, outcome: impl FnOnce(T) -> Outcome) -> Outcome {
    match answer {
        Ok(answer) => outcome(answer),
        Err(refusal) => Outcome::Refused(refusal.number()),
    }
}

fn owned(form: &[u8], levels: usize) -> Told {
    let form = form.to_vec();
    Told { form, levels }
}

fn yes(answer: bool) -> Outcome {
    match answer {
        true => Outcome::Yes,
        false => Outcome::No,
    }
}

fn wrote(written: Written<'_>) -> Outcome {
    Outcome::Typed(owned(written.form, written.levels))
}

fn measured(measured: Measured) -> Outcome {
    Outcome::Measured(measured.length, measured.levels)
}

/// The calls that take no schema.
fn alone(limits: Limits, call: &Call<'_>, out: &mut [u8]) -> Option<Outcome> {
    Some(match call.op {
        DISJOINT => told(tirncheav::are_types_disjoint(limits, call.t0, call.t1), yes),
        CONSISTENT => told(tirncheav::is_consistent_with(limits, call.t0, call.t1), yes),
        CONVERT => told(tirncheav::convert(limits, call.t0, out), wrote),
        MEASURE_TYPE => told(tirncheav::measure_type(limits, call.t0), measured),
        MEASURE_VALUE => told(tirncheav::measure_value(limits, call.t0), measured),
        _ => return None,
    })
}

fn under(schema: Schema<'_>, mode: Mode, call: &Call<'_>, out: &mut [u8]) -> Outcome {
    let mut work = [1; WORK_BYTES];
    let (t0, t1) = (call.t0, call.t1);
    let outcome = match call.op {
        SUBTYPE => return told(schema.is_subtype(mode, t0, t1), yes),
        BOUND => return told(schema.least_upper_bound(mode, t0, t1, out), wrote),
        MAY_HAVE => return told(schema.may_have_attr(call.attr, t0), yes),
        CONFORMS => return told(schema.typecheck_restricted_expr(t0, t1), yes),
        FULL => return told(schema.typecheck_restricted_expr_exact(t0, t1), yes),
        LITERAL => {
            let found = schema.euid_literal(t0, out);
            return told(found, |found| found.map_or(Outcome::Nothing, wrote));
        }
        NAMES => {
            let names = schema.all_attributes(t0, out, &mut work);
            told(names, |names| Outcome::Named(names.to_vec()))
        }
        FOLD => {
            let bound = schema.reduce_to_least_upper_bound(mode, t0, out, &mut work);
            told(bound, wrote)
        }
        _ => {
            let found = schema.lookup_attribute_type(call.attr, t0, out, &mut work);
            told(found, |found| {
                found.map_or(Outcome::Nothing, |a| {
                    Outcome::Attribute(a.required, owned(a.form, a.levels))
                })
            })
        }
    };
    assert!(
        work.iter().all(|byte| *byte == 0),
        "the workspace is all zero"
    );
    outcome
}

/// A mode that is no mode cannot be said in Rust: such questions are passed.
fn asked(call: &Call<'_>, out: &mut [u8]) -> Option<Outcome> {
    let mode = match (call.op, call.mode) {
        (SUBTYPE | BOUND | FOLD, 0) => Mode::Strict,
        (SUBTYPE | BOUND | FOLD, 1) => Mode::Permissive,
        (SUBTYPE | BOUND | FOLD, 2) => Mode::Loose,
        (SUBTYPE | BOUND | FOLD, _) => return None,
        _ => Mode::Strict,
    };
    let limits = match Limits::new(call.limits.levels, call.limits.bytes) {
        Ok(limits) => limits,
        Err(refusal) => return Some(Outcome::Refused(refusal.number())),
    };
    alone(limits, call, out).or_else(|| {
        Some(match Schema::check_under(limits, call.schema) {
            Ok(schema) => under(schema, mode, call, out),
            Err(refusal) => Outcome::Refused(refusal.number()),
        })
    })
}

/// Puts a call to the binding; false where it cannot be said in Rust.
fn compared(call: &Call<'_>) -> bool {
    let mut out = [7; FORM_BYTES];
    let Some(outcome) = asked(call, &mut out) else {
        return false;
    };
    assert_eq!(outcome, answer(call), "{call:?}");
    let filled = match &outcome {
        Outcome::Typed(told) | Outcome::Attribute(_, told) => told.form.len(),
        Outcome::Named(names) => names.len(),
        _ => 0,
    };
    assert!(out[filled..].iter().all(|byte| *byte == 7), "{call:?}");
    true
}

/// Limits beside the standard ones; the last two are outside their ranges.
const OTHERS: [(usize, usize); 7] = [
    (1, 64),
    (2, 64),
    (3, 100),
    (5, 8192),
    (32, 8192),
    (0, 4096),
    (16, 8193),
];

/// A call, and its two forms measured as types and as values.
fn with_measures<'a>(call: Call<'a>) -> [Call<'a>; 5] {
    let measure = |op, t0| Call { op, t0, ..call };
    [
        call,
        measure(MEASURE_TYPE, call.t0),
        measure(MEASURE_TYPE, call.t1),
        measure(MEASURE_VALUE, call.t0),
        measure(MEASURE_VALUE, call.t1),
    ]
}

#[test]
fn answers_are_the_published_ones() {
    let mut jobs = Gen::new(2026);
    let mut others = OTHERS.into_iter().cycle();
    let mut count = 0;
    for _ in 0..4000 {
        let bytes = jobs.job();
        let Some(job) = read_job(&bytes) else {
            continue;
        };
        for question in &job.questions {
            let call = Call {
                room: FORM_BYTES,
                work: WORK_BYTES,
                ..question.call(job.schema)
            };
            let (levels, bytes) = others.next().expect("a cycle");
            let limits = oracle::limits::Limits { levels, bytes };
            let calls = [call, Call { limits, ..call }].map(with_measures);
            let calls = calls.iter().flatten();
            count += calls.filter(|call| compared(call)).count();
        }
    }
    assert!(count > 250_000, "only {count} questions were compared");
}

#[test]
fn refusals_have_their_numbers() {
    for number in 0..=255 {
        let refusal = Refusal::from_number(number);
        assert_eq!(refusal.is_some(), matches!(number, 1..=15 | 17 | 20));
        assert!(refusal.is_none_or(|refusal| refusal.number() == number));
    }
}
