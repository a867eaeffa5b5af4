//! Levels: what measuring tells of types and values, what is told of a type that
//! is written, the order of the questions, the lines of `rooms`, and the claims.

use oracle::candidates::{Candidate, KeptModel, Model, Oracle};
use oracle::exhaustive;
use oracle::generate::{union_of_length, Gen};
use oracle::harness::check_call;
use oracle::jobs::lines;
use oracle::limits::Limits;
use oracle::model::Rules;
use oracle::properties::{try_levels, Tallies};
use oracle::questions::{answer, operation::*, Call, Outcome, Written};
use oracle::rooms;
use oracle::rounds::Round;
use oracle::trees::{job_form, list_form, ActionEntry, Ask, Attr, EntityEntry, Sch, Ty, Val};

const EMPTY: &[u8] = &[0; 6];
const LONG: Ty = Ty::Atom(4);
const STRING: Ty = Ty::Atom(5);
const ANY_SET: Ty = Ty::Atom(6);
const ANY_ENTITY: Ty = Ty::Atom(9);

fn set(of: Ty) -> Ty {
    Ty::Set(Box::new(of))
}

fn sets(of: Ty, count: usize) -> Ty {
    (0..count).fold(of, |ty, _| set(ty))
}

fn attrs(types: &[(u16, Ty)]) -> Vec<Attr> {
    let attr = |(name, ty): &(u16, Ty)| Attr {
        name: *name,
        required: true,
        ty: ty.clone(),
    };
    types.iter().map(attr).collect()
}

fn record(types: &[(u16, Ty)]) -> Ty {
    Ty::Rec(false, attrs(types))
}

fn open(types: &[(u16, Ty)]) -> Ty {
    Ty::Rec(true, attrs(types))
}

fn action(name: u16, types: &[(u16, Ty)]) -> Ty {
    Ty::Act(name, attrs(types))
}

fn entity(name: u16) -> Ty {
    Ty::Ent(vec![name])
}

fn limits(levels: usize, bytes: usize) -> Limits {
    Limits { levels, bytes }
}

/// What an operation gives with room for all.
fn asked(op: u8, mode: u8, attr: u16, schema: &[u8], t0: &[u8], t1: &[u8]) -> Outcome {
    answer(&Call {
        mode,
        attr,
        room: 4096,
        work: 8192,
        ..Call::plain(op, schema, t0, t1)
    })
}

fn typed(ty: &Ty, levels: usize) -> Outcome {
    let form = ty.form();
    Outcome::Typed(Written { form, levels })
}

fn measured(limits: Limits, op: u8, form: &[u8]) -> Outcome {
    let call = Call::plain(op, EMPTY, form, &[]);
    answer(&Call { limits, ..call })
}

fn measures(op: u8, form: &[u8], levels: usize) {
    let told = Outcome::Measured(form.len(), levels);
    assert_eq!(
        measured(Limits::STANDARD, op, form),
        told,
        "{op} {form:02x?}"
    );
}

#[test]
fn types() {
    let of = |ty: Ty, levels| measures(MEASURE_TYPE, &ty.form(), levels);
    for kind in [0, 1, 2, 3, 4, 5, 6, 9] {
        of(Ty::Atom(kind), 1);
    }
    of(set(LONG), 2);
    of(sets(LONG, 15), 16);
    of(set(ANY_SET), 2);
    of(record(&[]), 1);
    of(open(&[]), 1);
    of(record(&[(1, LONG)]), 2);
    of(record(&[(1, LONG), (2, set(LONG)), (3, LONG)]), 3);
    of(record(&[(1, record(&[])), (2, LONG)]), 2);
    of(Ty::Ent(vec![2, 4, 6]), 1);
    of(Ty::Ext(7), 1);
    of(action(1, &[]), 1);
    of(action(1, &[(1, LONG)]), 2);
    of(set(action(1, &[(1, record(&[(1, LONG)]))])), 4);
}

#[test]
fn values() {
    let of = |value: Val, levels| measures(MEASURE_VALUE, &value.form(), levels);
    let long = Val::Long([255; 8]);
    of(Val::Bool(false), 1);
    of(Val::Bool(true), 1);
    of(long.clone(), 1);
    of(Val::Str("é".into()), 1);
    of(Val::Uid(2, 9), 1);
    of(Val::Set(Vec::new()), 1);
    of(Val::Rec(Vec::new()), 1);
    of(Val::Call(5, Vec::new()), 1);
    let one = |v: &Val| vec![v.clone()];
    of(Val::Set(one(&long)), 2);
    of(Val::Rec(vec![(1, long.clone())]), 2);
    of(Val::Call(5, one(&long)), 2);
    of(Val::Set(one(&Val::Set(Vec::new()))), 2);
    let deep = Val::Call(5, one(&Val::Rec(vec![(1, Val::Set(one(&long)))])));
    of(deep.clone(), 4);
    for parts in [[long.clone(), deep.clone()], [deep, long]] {
        of(Val::Set(parts.to_vec()), 5);
        of(Val::Call(9, parts.to_vec()), 5);
        of(Val::Rec((1..).zip(parts).collect()), 5);
    }
}

/// True in so many sets.
fn held(holders: usize) -> Vec<u8> {
    let value = (0..holders).fold(Val::Bool(true), |v, _| Val::Set(vec![v]));
    value.form()
}

/// As many levels as allowed, and one more.
#[test]
fn at_the_last_level() {
    for most in [1, 2, 16, 17, 32] {
        let told = |op, form: &[u8]| measured(limits(most, 8192), op, form);
        let [ty, over] = [most - 1, most].map(|n| sets(LONG, n).form());
        let whole = Outcome::Measured(ty.len(), most);
        assert_eq!(told(MEASURE_TYPE, &ty), whole);
        assert_eq!(told(MEASURE_TYPE, &over), Outcome::Refused(3));
        let [value, over] = [most - 1, most].map(held);
        let whole = Outcome::Measured(value.len(), most);
        assert_eq!(told(MEASURE_VALUE, &value), whole);
        assert_eq!(told(MEASURE_VALUE, &over), Outcome::Refused(5));
    }
}

/// As many bytes as allowed, and one more.
#[test]
fn at_the_last_byte() {
    for most in [64, 65, 4096, 8191, 8192] {
        let told = |op, form: &[u8]| measured(limits(2, most), op, form);
        let string = |n: usize| Val::Str(vec![b'a'; n - 3]).form();
        let whole = told(MEASURE_VALUE, &string(most));
        assert_eq!(whole, Outcome::Measured(most, 1));
        let over = told(MEASURE_VALUE, &string(most + 1));
        assert_eq!(over, Outcome::Refused(5));
        let union = |n| union_of_length(n, 0).form();
        let whole = told(MEASURE_TYPE, &union(most));
        assert_eq!(whole, Outcome::Measured(most, 2 - most % 2));
        assert_eq!(told(MEASURE_TYPE, &union(most + 1)), Outcome::Refused(3));
    }
}

/// 20, then 3 of a type, then 5 and 17 of a value, whatever the schema.
#[test]
fn questions() {
    let broken = Val::Str(vec![0xff]).form();
    let over = [broken.as_slice(), &[0]].concat();
    for (levels, bytes) in [(0, 64), (33, 64), (1, 63), (1, 8193)] {
        for form in [&[4], broken.as_slice(), &over, &[]] {
            for op in [MEASURE_TYPE, MEASURE_VALUE] {
                let told = measured(limits(levels, bytes), op, form);
                assert_eq!(told, Outcome::Refused(20));
            }
        }
    }
    let told = |op, form: &[u8]| measured(limits(1, 64), op, form);
    for form in [&[] as &[u8], &[13], &[4, 4], &[7, 4], &[7]] {
        assert_eq!(told(MEASURE_TYPE, form), Outcome::Refused(3));
    }
    for form in [&[] as &[u8], &[8], &[1, 1], &over] {
        assert_eq!(told(MEASURE_VALUE, form), Outcome::Refused(5));
    }
    assert_eq!(told(MEASURE_VALUE, &broken), Outcome::Refused(17));
    let below = Val::Set(vec![Val::Bool(true), Val::Str(vec![0xff])]).form();
    assert_eq!(told(MEASURE_VALUE, &below), Outcome::Refused(5));
    let two = measured(limits(2, 64), MEASURE_VALUE, &below);
    assert_eq!(two, Outcome::Refused(17));
    let unasked = answer(&Call::plain(MEASURE_TYPE, &[13], &[4], &[]));
    assert_eq!(unasked, Outcome::Measured(1, 1));
}

/// Exactly what is written: attributes that are dropped and elements without a
/// bound count for nothing.
#[test]
fn bounds() {
    let bound = |mode, a: &Ty, b: &Ty| asked(BOUND, mode, 0, EMPTY, &a.form(), &b.form());
    let deep = record(&[(1, sets(LONG, 2))]);
    assert_eq!(bound(1, &deep, &record(&[(1, LONG)])), typed(&open(&[]), 1));
    let kept = record(&[(1, LONG), (2, LONG)]);
    let both = record(&[(1, LONG), (2, set(LONG))]);
    assert_eq!(bound(1, &kept, &both), typed(&open(&[(1, LONG)]), 2));
    assert_eq!(bound(2, &set(LONG), &set(STRING)), typed(&ANY_SET, 1));
    let loose = bound(2, &sets(LONG, 3), &sets(STRING, 3));
    assert_eq!(loose, typed(&sets(ANY_SET, 2), 3));
    for mode in 0..3 {
        assert_eq!(bound(mode, &ANY_SET, &sets(LONG, 9)), typed(&ANY_SET, 1));
        let never = bound(mode, &Ty::Atom(0), &sets(LONG, 9));
        assert_eq!(never, typed(&sets(LONG, 9), 10));
    }
    let (one, three) = (action(1, &[(1, set(LONG))]), action(3, &[]));
    assert_eq!(bound(1, &one, &three), typed(&ANY_ENTITY, 1));
}

/// Actions of one name join strictly in every mode.
#[test]
fn bounds_inside_actions() {
    let held = |of: Ty| action(1, &[(1, of), (2, LONG)]);
    for mode in 0..3 {
        let bound = |a: Ty, b: Ty| asked(BOUND, mode, 0, EMPTY, &a.form(), &b.form());
        let told = bound(held(sets(LONG, 5)), held(ANY_SET));
        assert_eq!(told, typed(&held(ANY_SET), 2));
        let told = bound(held(set(Ty::Atom(1))), held(set(Ty::Atom(2))));
        assert_eq!(told, typed(&held(set(Ty::Atom(3))), 3));
    }
}

#[test]
fn folds() {
    let fold = |types: &[Ty]| {
        let forms: Vec<Vec<u8>> = types.iter().map(Ty::form).collect();
        asked(FOLD, 1, 0, EMPTY, &list_form(&forms), &[])
    };
    assert_eq!(fold(&[]), typed(&Ty::Atom(0), 1));
    assert_eq!(fold(&[sets(LONG, 4)]), typed(&sets(LONG, 4), 5));
    assert_eq!(fold(&[sets(LONG, 4), ANY_SET]), typed(&ANY_SET, 1));
    let records = [
        record(&[(1, set(LONG)), (2, LONG)]),
        record(&[(1, LONG), (2, LONG)]),
    ];
    assert_eq!(fold(&records), typed(&open(&[(2, LONG)]), 2));
}

/// Entity types 2 and 4, and action (1, 0).
fn schema() -> Vec<u8> {
    let entity = |name, ty: Ty| EntityEntry {
        name,
        enumerated: false,
        open: false,
        attrs: attrs(&[(1, ty), (2, LONG)]),
    };
    let action = ActionEntry {
        ty: 1,
        id: 0,
        attrs: attrs(&[(1, set(LONG))]),
    };
    let schema = Sch {
        entities: vec![entity(2, sets(LONG, 6)), entity(4, ANY_SET)],
        actions: vec![action],
        functions: Vec::new(),
    };
    schema.form()
}

#[test]
fn lookups() {
    let schema = schema();
    let lookup = |ty: &Ty| asked(LOOKUP, 0, 1, &schema, &ty.form(), &[]);
    let found = |ty: Ty, levels| {
        let form = ty.form();
        Outcome::Attribute(true, Written { form, levels })
    };
    assert_eq!(lookup(&entity(2)), found(sets(LONG, 6), 7));
    assert_eq!(lookup(&Ty::Ent(vec![2, 4])), found(ANY_SET, 1));
    let holder = [(1, set(LONG)), (2, sets(LONG, 3))];
    assert_eq!(lookup(&record(&holder)), found(set(LONG), 2));
    assert_eq!(lookup(&action(1, &holder)), found(set(LONG), 2));
}

/// A name list tells no levels.
#[test]
fn names() {
    let names = asked(NAMES, 0, 0, &schema(), &entity(2).form(), &[]);
    assert_eq!(names, Outcome::Named(vec![1, 0, 2, 0]));
}

/// An action becomes an entity.
#[test]
fn conversions() {
    let convert = |ty: &Ty| asked(CONVERT, 0, 0, EMPTY, &ty.form(), &[]);
    assert_eq!(convert(&sets(LONG, 3)), typed(&sets(LONG, 3), 4));
    let deep = action(1, &[(1, sets(LONG, 3))]);
    assert_eq!(convert(&deep), typed(&entity(1), 1));
    assert_eq!(convert(&set(deep)), typed(&set(entity(1)), 2));
}

#[test]
fn literals() {
    let schema = schema();
    let literal = |ty, id| asked(LITERAL, 0, 0, &schema, &Val::Uid(ty, id).form(), &[]);
    assert_eq!(literal(1, 0), typed(&action(1, &[(1, set(LONG))]), 3));
    assert_eq!(literal(2, 0), typed(&entity(2), 1));
}

/// The lines of a job have none.
#[test]
fn jobs() {
    let ask = |op, t0: Ty, t1: Vec<u8>| Ask {
        op,
        mode: 0,
        attr: 0,
        t0: t0.form(),
        t1,
    };
    let asks = [
        ask(BOUND, set(LONG), set(LONG).form()),
        ask(CONVERT, set(LONG), Vec::new()),
    ];
    assert_eq!(lines(&job_form(EMPTY, &asks)), b"0 0 0704\n1 0 0704\n");
    for op in [MEASURE_TYPE, MEASURE_VALUE] {
        let job = job_form(EMPTY, &[ask(op, LONG, Vec::new())]);
        assert_eq!(lines(&job), b"- 16 -\n");
    }
}

/// A call of `rooms` with three bytes of room and two of workspace.
fn roomed(op: u8, schema: &[u8], t0: &[u8], t1: &[u8]) -> Vec<u8> {
    let attribute = if op == LOOKUP { 1 } else { 0 };
    let mut input = vec![op, 0, attribute, 0, 3, 0, 2, 0];
    for body in [schema, t0, t1] {
        input.extend((body.len() as u16).to_le_bytes());
    }
    for limit in [16_u32, 4096] {
        input.extend(limit.to_le_bytes());
    }
    [&input, schema, t0, t1].concat()
}

#[test]
fn lines_of_rooms() {
    let entity = entity(4).form();
    let named = EntityEntry {
        name: 4,
        enumerated: false,
        open: false,
        attrs: attrs(&[(1, ANY_SET)]),
    };
    let schema = Sch {
        entities: vec![named],
        ..Sch::default()
    };
    let schema = schema.form();
    let input = [
        roomed(BOUND, EMPTY, &[7, 4], &[7, 0]),
        roomed(LOOKUP, &schema, &entity, &[]),
        roomed(NAMES, &schema, &entity, &[]),
        roomed(MEASURE_TYPE, &[], &[7, 7, 4], &[]),
        roomed(MEASURE_VALUE, &[], &[5, 1, 0, 1, 0, 1], &[]),
        roomed(MEASURE_VALUE, &[], &[3, 1, 0, 255], &[]),
    ];
    let lines = rooms::lines(&input.concat(), &mut Oracle).expect("calls");
    let wanted = [
        "0 2/2 [0704a5] [a5a5]",
        "0 r:1/1 [06a5a5] [0000]",
        "0 2 [0100a5] [0000]",
        "0 m:3/3 [a5a5a5] [a5a5]",
        "0 m:6/2 [a5a5a5] [a5a5]",
        "17 - [a5a5a5] [a5a5]",
    ];
    assert_eq!(lines.lines().collect::<Vec<_>>(), wanted);
}

fn candidates() -> [Box<dyn Candidate>; 3] {
    [
        Box::new(Oracle),
        Box::new(Model(Rules::SOUND)),
        Box::new(KeptModel(Rules::SOUND)),
    ]
}

/// Plain, kept, and by the oracle, nothing is written.
#[test]
fn buffers() {
    let call = Call {
        room: 9,
        work: 9,
        ..Call::plain(MEASURE_TYPE, EMPTY, &[7, 4], &[])
    };
    for mut candidate in candidates() {
        let told = Outcome::Measured(2, 2);
        assert_eq!(check_call(&mut *candidate, &call, &told), None);
        let other = Outcome::Measured(2, 1);
        assert!(check_call(&mut *candidate, &call, &other).is_some());
    }
}

/// Every body of the small questions and every small table, as a type and as a
/// value.
#[test]
fn small_forms() {
    let forms = exhaustive::measured(&exhaustive::jobs());
    for limits in [Limits::STANDARD, exhaustive::FEW[1]] {
        let round = Round::of_forms(limits, forms.iter());
        let outcomes = round.answered.iter().map(|a| &a.outcome);
        let told = outcomes.filter(|o| matches!(o, Outcome::Measured(..)));
        assert!(told.count() > 10_000);
        for mut candidate in candidates() {
            assert_eq!(round.difference(&mut *candidate), None);
        }
    }
}

/// The claim that fails, and must.
const FAILING: &str = "levels: a bound has as many as the deeper of its types";

#[test]
fn claims_hold() {
    let (mut gen, mut tallies) = (Gen::new(4), Tallies::default());
    (0..20_000).for_each(|_| try_levels(&mut gen, &mut tallies));
    tallies.expect(10, 1000, &[FAILING]);
}
