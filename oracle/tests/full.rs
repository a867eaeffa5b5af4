//! Operation 11: the settled example, counts at every level, where the walk
//! does not look, in jobs, and its claims.

use oracle::candidates::{Candidate, KeptModel, Model, Oracle};
use oracle::exhaustive;
use oracle::generate::Gen;
use oracle::harness::check_call;
use oracle::jobs::{lines, read_job};
use oracle::model::Rules;
use oracle::properties::{try_full, Tallies};
use oracle::questions::{answer, operation::*, Call, Outcome};
use oracle::trees::{job_form, Ask, Attr, FunctionEntry, Sch, Ty, Val};

const YES: Outcome = Outcome::Yes;
const NO: Outcome = Outcome::No;
const UNKNOWN: Outcome = Outcome::Refused(7);

fn hex(text: &str) -> Vec<u8> {
    let byte = |at: usize| u8::from_str_radix(&text[at..at + 2], 16).unwrap();
    (0..text.len()).step_by(2).map(byte).collect()
}

/// Extension 7 is returned by 2, of no argument, by 3, of a Bool, by 4, of an
/// extension 7 and a Bool, and by 5, of an extension 7; 6 returns none.
fn schema() -> Sch {
    let function = |name, returns, args: &[(u8, u16)]| FunctionEntry {
        name,
        returns,
        args: args.to_vec(),
    };
    Sch {
        functions: vec![
            function(2, Some(7), &[]),
            function(3, Some(7), &[(1, 0)]),
            function(4, Some(7), &[(4, 7), (1, 0)]),
            function(5, Some(7), &[(4, 7)]),
            function(6, None, &[]),
        ],
        ..Sch::default()
    }
}

/// A call; 9 is not in the schema.
fn f(name: u16, args: &[Val]) -> Val {
    Val::Call(name, args.to_vec())
}

const T: Val = Val::Bool(true);

fn ext() -> Ty {
    Ty::Ext(7)
}

fn attr(name: u16, required: bool, ty: Ty) -> Attr {
    Attr { name, required, ty }
}

/// What operations 8 and 11 give.
fn both(ty: &Ty, value: &Val) -> [Outcome; 2] {
    let (schema, ty, value) = (schema().form(), ty.form(), value.form());
    [CONFORMS, FULL].map(|op| answer(&Call::plain(op, &schema, &ty, &value)))
}

/// Operation 8 says yes.
fn conforming(value: Val) -> Outcome {
    let [conforms, full] = both(&ext(), &value);
    assert_eq!(conforms, YES, "{value:?}");
    full
}

/// A set of a call with an argument too many and an unknown call: the walk ends
/// at the first.
#[test]
fn settled() {
    let schema = hex("00000000010002000107000000");
    let (ty, value) = (
        hex("070c0700"),
        hex("0502000800050007020001000100010709000000"),
    );
    let asked = |op| answer(&Call::plain(op, &schema, &ty, &value));
    assert_eq!(asked(CONFORMS), UNKNOWN);
    assert_eq!(asked(FULL), NO);
}

#[test]
fn counts() {
    assert_eq!(conforming(f(2, &[])), YES);
    assert_eq!(conforming(f(2, &[T])), NO);
    assert_eq!(conforming(f(3, &[T])), YES);
    assert_eq!(conforming(f(3, &[])), NO);
    assert_eq!(conforming(f(3, &[T, T])), NO);
    let many = vec![T; 257];
    assert_eq!(conforming(f(3, &many)), NO);
    assert_eq!(conforming(f(2, &many[1..])), NO);
}

#[test]
fn counts_inside_arguments() {
    let four = |inner: Val| conforming(f(4, &[inner, T]));
    assert_eq!(four(f(2, &[])), YES);
    assert_eq!(four(f(2, &[T])), NO);
    assert_eq!(four(f(3, &[])), NO);
    assert_eq!(four(f(5, &[f(3, &[T])])), YES);
    assert_eq!(four(f(5, &[f(3, &[])])), NO);
    assert_eq!(four(f(5, &[f(2, &[T])])), NO);
    assert_eq!(four(f(5, &[])), NO);
    assert_eq!(conforming(f(4, &[f(2, &[])])), NO);
}

/// Sixteen levels: the innermost call is counted too.
#[test]
fn counts_at_the_last_level() {
    let nested = |inner: Val| (0..14).fold(inner, |v, _| f(5, &[v]));
    assert_eq!(conforming(nested(f(3, &[T]))), YES);
    assert_eq!(conforming(nested(f(2, &[T]))), NO);
    assert_eq!(conforming(f(5, &[nested(f(3, &[]))])), NO);
}

#[test]
fn unknown_functions() {
    assert_eq!(both(&ext(), &f(9, &[])), [UNKNOWN, UNKNOWN]);
    assert_eq!(both(&ext(), &f(5, &[f(9, &[])])), [NO, NO]);
    assert_eq!(both(&ext(), &f(5, &[f(9, &[]), T])), [NO, NO]);
    assert_eq!(both(&ext(), &f(6, &[])), [NO, NO]);
    let set = Ty::Set(Box::new(ext()));
    let of = |values: &[Val]| both(&set, &Val::Set(values.to_vec()));
    assert_eq!(of(&[f(9, &[]), f(2, &[T])]), [UNKNOWN, UNKNOWN]);
    assert_eq!(of(&[f(2, &[T]), f(9, &[])]), [UNKNOWN, NO]);
    assert_eq!(of(&[f(2, &[T]), T, f(9, &[])]), [NO, NO]);
    assert_eq!(of(&[f(2, &[]), f(9, &[])]), [UNKNOWN, UNKNOWN]);
    assert_eq!(
        of(&[f(2, &[]), f(5, &[f(3, &[])]), f(9, &[])]),
        [UNKNOWN, NO]
    );
}

#[test]
fn records() {
    let ty = Ty::Rec(false, vec![attr(1, true, ext()), attr(2, false, ext())]);
    let of = |pairs: &[(u16, Val)]| both(&ty, &Val::Rec(pairs.to_vec()));
    assert_eq!(of(&[(1, f(2, &[]))]), [YES, YES]);
    assert_eq!(of(&[(1, f(3, &[]))]), [YES, NO]);
    assert_eq!(of(&[(1, f(2, &[])), (2, f(2, &[T]))]), [YES, NO]);
    assert_eq!(of(&[(1, f(2, &[T])), (2, f(9, &[]))]), [UNKNOWN, NO]);
    assert_eq!(of(&[(2, f(9, &[]))]), [UNKNOWN, UNKNOWN]);
    assert_eq!(of(&[(2, f(2, &[T]))]), [NO, NO]);
}

#[test]
fn calls_that_no_walk_reaches() {
    let miscounted = f(3, &[]);
    let set = Val::Set(vec![miscounted.clone()]);
    assert_eq!(both(&Ty::Atom(6), &set), [YES, YES]);
    let open = Ty::Rec(true, vec![attr(1, false, ext())]);
    let of = |name| both(&open, &Val::Rec(vec![(name, miscounted.clone())]));
    assert_eq!(of(2), [YES, YES]);
    assert_eq!(of(1), [YES, NO]);
    assert_eq!(both(&Ty::Atom(4), &miscounted), [NO, NO]);
}

/// A call is refused by the order of its questions, as operation 8 is.
#[test]
fn refusals() {
    let schema = schema().form();
    for op in [CONFORMS, FULL] {
        let refused = |s: &[u8], t: &[u8], v: &[u8]| answer(&Call::plain(op, s, t, v));
        assert_eq!(refused(&[13], &[13], &[13]), Outcome::Refused(2));
        assert_eq!(refused(&schema, &[13], &[13]), Outcome::Refused(3));
        assert_eq!(refused(&schema, &[4], &[13]), Outcome::Refused(5));
    }
}

#[test]
fn jobs() {
    let (ty, value) = (ext().form(), f(2, &[T]).form());
    let ask = |op, mode, attr| Ask {
        op,
        mode,
        attr,
        t0: ty.clone(),
        t1: value.clone(),
    };
    let schema = schema().form();
    let job = |asks: &[Ask]| lines(&job_form(&schema, asks));
    assert_eq!(job(&[ask(8, 0, 0), ask(11, 0, 0)]), b"0 0 yes\n1 0 no\n");
    for bad in [ask(11, 1, 0), ask(11, 0, 1), ask(12, 0, 0), ask(255, 0, 0)] {
        assert_eq!(job(&[ask(11, 0, 0), bad]), b"- 16 -\n");
    }
}

/// Plain, kept, and by the oracle, nothing is written.
#[test]
fn candidates() {
    let (schema, ty, value) = (schema().form(), ext().form(), f(3, &[]).form());
    let call = Call {
        room: 9,
        work: 9,
        ..Call::plain(FULL, &schema, &ty, &value)
    };
    let candidates: [&mut dyn Candidate; 3] = [
        &mut Oracle,
        &mut Model(Rules::SOUND),
        &mut KeptModel(Rules::SOUND),
    ];
    for candidate in candidates {
        assert_eq!(check_call(candidate, &call, &NO), None);
    }
}

/// On every small question: 11 is 8, or it is no where 8 is yes or 7.
#[test]
fn small_questions() {
    let mut seen = [0; 3];
    for job in exhaustive::jobs() {
        let job = read_job(&job).expect("whole");
        for q in job.questions.iter().filter(|q| q.op == FULL) {
            let full = answer(&q.call(job.schema));
            let conforms = answer(&Call::plain(CONFORMS, job.schema, q.t0, q.t1));
            match (&conforms, &full) {
                (a, b) if a == b => seen[0] += 1,
                (&Outcome::Yes, &Outcome::No) => seen[1] += 1,
                (&Outcome::Refused(7), &Outcome::No) => seen[2] += 1,
                pair => panic!("{pair:?}: {:02x?} {:02x?}", q.t0, q.t1),
            }
        }
    }
    assert!(seen.iter().all(|n| *n > 1000), "{seen:?}");
}

/// The claim that fails, and must.
const FAILING: &str = "full: it is as operation 8, some count does not fit";

#[test]
fn claims_hold() {
    let (mut gen, mut tallies) = (Gen::new(4), Tallies::default());
    (0..20_000).for_each(|_| try_full(&mut gen, &mut tallies));
    tallies.expect(10, 1000, &[FAILING]);
}
