//! Limits: the examples of the request, the order of its question, and what is
//! kept with a schema.

use oracle::candidates::{Candidate, KeptModel, Model, Oracle};
use oracle::cedar_policy_core::ast::EntityType;
use oracle::deep::NESTED;
use oracle::forms::read_schema;
use oracle::generate::Gen;
use oracle::harness::check_call;
use oracle::limits::Limits;
use oracle::model::Rules;
use oracle::properties::{try_limits, Tallies};
use oracle::published::least_upper_bound;
use oracle::questions::{
    answer, lookup_part, operation::*, Call, Outcome, Part, SchemaCache, Written,
};
use oracle::rooms::{self, Lent};
use oracle::rounds::{Roomed, Round};
use oracle::trees::{ActionEntry, Ask, Attr, EntityEntry, Sch, Ty};
use oracle::types::{EntityLUB, EntityRecordKind, Type};
use oracle::ValidationMode;

const EMPTY: &[u8] = &[0; 6];
const ONE_LEVEL: Limits = limits(1, 4096);

const fn limits(levels: usize, bytes: usize) -> Limits {
    Limits { levels, bytes }
}

fn call<'a>(limits: Limits, op: u8, t0: &'a [u8], t1: &'a [u8]) -> Call<'a> {
    Call {
        limits,
        op,
        mode: 1,
        attr: 0,
        schema: EMPTY,
        t0,
        t1,
        room: 9000,
        work: 20_000,
    }
}

fn attr(ty: Ty) -> Vec<Attr> {
    vec![Attr {
        name: 1,
        required: true,
        ty,
    }]
}

/// R(1: Long).
fn r_long() -> Ty {
    Ty::Rec(false, attr(Ty::Atom(4)))
}

/// So many names.
fn union(names: u16) -> Ty {
    Ty::Ent((0..names).map(|n| 2 * n).collect())
}

/// Entity type 2 and action (1, 0) with a body each.
fn schema(entity: Vec<Attr>, action: Vec<Attr>) -> Vec<u8> {
    let entity = EntityEntry {
        name: 2,
        enumerated: false,
        open: false,
        attrs: entity,
    };
    let action = ActionEntry {
        ty: 1,
        id: 0,
        attrs: action,
    };
    let schema = Sch {
        entities: vec![entity],
        actions: vec![action],
        functions: Vec::new(),
    };
    schema.form()
}

#[test]
fn one_level() {
    let whole = |form: &[u8]| answer(&call(ONE_LEVEL, SUBTYPE, form, form));
    assert_eq!(whole(&[4]), Outcome::Yes);
    assert_eq!(whole(&Ty::Rec(false, Vec::new()).form()), Outcome::Yes);
    assert_eq!(whole(&[7, 4]), Outcome::Refused(3));
    assert_eq!(whole(&r_long().form()), Outcome::Refused(3));
    let long = attr(Ty::Atom(4));
    for (entity, action, outcome) in [
        (Vec::new(), Vec::new(), Outcome::Yes),
        (long.clone(), Vec::new(), Outcome::Refused(2)),
        (Vec::new(), long, Outcome::Refused(2)),
    ] {
        let schema = &schema(entity, action);
        let call = call(ONE_LEVEL, SUBTYPE, &[4], &[4]);
        assert_eq!(answer(&Call { schema, ..call }), outcome);
    }
}

#[test]
fn the_ends_of_the_ranges() {
    let asked = |levels, bytes| answer(&call(limits(levels, bytes), DISJOINT, &[4], &[4]));
    for (levels, bytes) in [(1, 64), (32, 64), (1, 8192), (32, 8192)] {
        assert_eq!(asked(levels, bytes), Outcome::No);
    }
    let unallowed = [(0, 64), (33, 64), (272, 64), (16, 63), (16, 8193)];
    for (levels, bytes) in unallowed.into_iter().chain([(16, 65_600), (0, 0)]) {
        assert_eq!(asked(levels, bytes), Outcome::Refused(20));
    }
}

/// Before the mode, the schema and every form, by every operation, plain and
/// kept, with nothing written.
#[test]
fn the_first_question() {
    let candidates: [&mut dyn Candidate; 3] = [
        &mut Oracle,
        &mut Model(Rules::SOUND),
        &mut KeptModel(Rules::SOUND),
    ];
    for candidate in candidates {
        for op in (0..COUNT as u8).chain([MEASURE_TYPE, MEASURE_VALUE]) {
            let call = Call {
                mode: 3,
                schema: &[13],
                ..call(limits(0, 64), op, &[13], &[13])
            };
            let what = check_call(candidate, &call, &Outcome::Refused(20));
            assert_eq!(what, None, "operation {op}");
            assert_eq!(candidate.part(&call), Some(Part::Refused(20)));
        }
    }
}

/// A broken schema that is kept answers in its turn.
#[test]
fn a_broken_schema() {
    let call = Call {
        mode: 3,
        schema: &[13],
        ..call(limits(2, 64), SUBTYPE, &[13], &[13])
    };
    let kept = Rules::SOUND.keep(call.limits, call.schema);
    assert_eq!(Rules::SOUND.answer_kept(&kept, &call), Outcome::Refused(1));
    let call = Call { mode: 0, ..call };
    assert_eq!(Rules::SOUND.answer_kept(&kept, &call), Outcome::Refused(2));
    assert_eq!(lookup_part(&call), Part::Refused(2));
}

/// The length and the levels of a type that is written.
fn written(outcome: &Outcome) -> Option<(usize, usize)> {
    let Written { form, levels } = outcome.written()?;
    Some((form.len(), *levels))
}

/// A bound of 4,101 bytes under the largest limits, and one of 8,193.
#[test]
fn a_bound_longer_than_the_standard() {
    let bound = |names: u16| {
        let (a, b) = (union(names).form(), Ty::Ent(vec![65_534]).form());
        answer(&call(Limits::LARGEST, BOUND, &a, &b))
    };
    assert_eq!(written(&bound(2048)), Some((4101, 1)));
    assert_eq!(written(&bound(4093)), Some((8191, 1)));
    assert_eq!(bound(4094), Outcome::Refused(10));
}

/// A body of 64 bytes is whole where a form has no more; its literal has a byte
/// more.
#[test]
fn a_literal_of_a_byte_more() {
    let asked = |bytes, ty| {
        let schema = &schema(Vec::new(), attr(ty));
        let call = call(limits(3, bytes), LITERAL, &[4, 1, 0, 0, 0], &[]);
        answer(&Call { schema, ..call })
    };
    assert_eq!(asked(64, union(26)), Outcome::Refused(10));
    assert_eq!(written(&asked(65, union(26))), Some((65, 2)));
    let longer = Ty::Set(Box::new(union(26)));
    assert_eq!(asked(64, longer), Outcome::Refused(2));
}

/// Consistency of records around records, more than the published test is
/// asked: the model judges alone, and is counted.
#[test]
fn too_deep_for_the_published_test() {
    for (records, left_out) in [(NESTED, false), (NESTED + 1, true), (31, true)] {
        let ty = (0..records).fold(Ty::Atom(4), |ty, _| Ty::Rec(true, attr(ty)));
        let ask = |op, mode| Roomed {
            ask: Ask {
                op,
                mode,
                attr: 0,
                t0: ty.form(),
                t1: ty.form(),
            },
            room: 8192,
            work: 0,
        };
        let cache = SchemaCache::of(Limits::LARGEST, EMPTY);
        let calls = vec![ask(CONSISTENT, 0), ask(SUBTYPE, 1), ask(SUBTYPE, 2)];
        for answered in Round::of(&cache, calls).answered {
            assert_eq!(answered.left_out, left_out);
            assert_eq!(answered.outcome, Outcome::Yes);
        }
        let strict = Round::of(&cache, vec![ask(SUBTYPE, 0)]).answered;
        assert!(!strict[0].left_out);
    }
}

/// A union that is made at once is the bound of its names.
#[test]
fn unions_at_once() {
    let schema = read_schema(Limits::STANDARD, EMPTY).expect("whole");
    let entity = |lub| Type::EntityOrRecord(EntityRecordKind::Entity(lub));
    let names = [0, 2, 3, 65_534].map(EntityType);
    let singles = names.map(|n| entity(EntityLUB::single_entity(n)));
    let bound = |all: Type, n: &Type| {
        let bound = least_upper_bound(&schema, &all, n, ValidationMode::Permissive);
        bound.expect("a bound")
    };
    let joined = singles[1..].iter().fold(singles[0].clone(), bound);
    assert_eq!(joined, entity(EntityLUB::of_names(names)));
}

/// What is put to the program `rooms` is read back, with its lines.
#[test]
fn calls_of_rooms() {
    let (mut gen, mut lent) = (Gen::new(6), Lent::default());
    (0..500).for_each(|_| lent.put_round(&Round::drawn(&mut gen)));
    let lines = rooms::lines(&lent.input, &mut Oracle).expect("calls");
    assert_eq!(lines.lines().collect::<Vec<_>>(), lent.lines);
    assert!(lent.tally.unallowed > 100 && lent.tally.others > 1000);
}

#[test]
fn claims_hold() {
    let (mut gen, mut tallies) = (Gen::new(4), Tallies::default());
    (0..5_000).for_each(|_| try_limits(&mut gen, &mut tallies));
    tallies.expect(3, 1000, &[]);
}
