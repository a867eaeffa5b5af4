//! Text: the table of RFC 3629 beside `from_utf8`, strings in every place of a
//! value, the order of the questions, and the claims.

use oracle::candidates::{Candidate, KeptModel, Model, Oracle};
use oracle::exhaustive;
use oracle::generate::Gen;
use oracle::harness::check_call;
use oracle::jobs::{lines, read_job};
use oracle::limits::Limits;
use oracle::model::Rules;
use oracle::properties::{try_text, Tallies};
use oracle::questions::{answer, operation::*, Call, Outcome};
use oracle::trees::{job_form, Ask, Attr, FunctionEntry, Sch, Ty, Val};

const YES: Outcome = Outcome::Yes;
const NO: Outcome = Outcome::No;
const NOT_TEXT: Outcome = Outcome::Refused(17);

/// Extension 7 is returned by 2, of no argument, and by 3, of a String.
fn schema() -> Sch {
    let function = |name, args: &[(u8, u16)]| FunctionEntry {
        name,
        returns: Some(7),
        args: args.to_vec(),
    };
    Sch {
        functions: vec![function(2, &[]), function(3, &[(3, 0)])],
        ..Sch::default()
    }
}

fn string(bytes: &[u8]) -> Val {
    Val::Str(bytes.to_vec())
}

/// A surrogate.
fn broken() -> Val {
    string(&[0xed, 0xa0, 0x80])
}

fn text() -> Val {
    string("é".as_bytes())
}

fn set(of: Ty) -> Ty {
    Ty::Set(Box::new(of))
}

fn record(open: bool, attrs: &[(u16, Ty)]) -> Ty {
    let attr = |(name, ty): &(u16, Ty)| Attr {
        name: *name,
        required: true,
        ty: ty.clone(),
    };
    Ty::Rec(open, attrs.iter().map(attr).collect())
}

const STRING: Ty = Ty::Atom(5);
const LONG: Ty = Ty::Atom(4);
const ANY_SET: Ty = Ty::Atom(6);
const EXTENSION: Ty = Ty::Ext(7);

/// What operations 8 and 11 give.
fn both(ty: &Ty, value: &Val) -> [Outcome; 2] {
    let (schema, ty, value) = (schema().form(), ty.form(), value.form());
    [CONFORMS, FULL].map(|op| answer(&Call::plain(op, &schema, &ty, &value)))
}

/// Both refuse the value with its string broken, and not with text in its
/// place.
fn refused_by_text_alone(ty: &Ty, value: impl Fn(Val) -> Val) {
    assert_eq!(both(ty, &value(broken())), [NOT_TEXT, NOT_TEXT], "{ty:?}");
    assert!(!both(ty, &value(text())).contains(&NOT_TEXT), "{ty:?}");
}

#[test]
fn the_table_is_from_utf8() {
    let [mut taken, mut refused] = [0; 2];
    exhaustive::each_string(|s| {
        let text = Rules::SOUND.text(s);
        assert_eq!(text, std::str::from_utf8(s).is_ok(), "{s:02x?}");
        match text {
            true => taken += 1,
            false => refused += 1,
        }
    });
    assert!(taken > 2_000_000 && refused > 20_000_000);
}

#[test]
fn strings_themselves() {
    let string_is = |bytes: &[u8]| both(&STRING, &string(bytes))[0].clone();
    for taken in ["", "a", "\0", "\u{7ff}", "\u{d7ff}\u{e000}", "\u{10ffff}"] {
        assert_eq!(string_is(taken.as_bytes()), YES);
    }
    let refused: [&[u8]; 8] = [
        &[0x80],
        &[0xc1, 0xbf],
        &[0xe0, 0x9f, 0xbf],
        &[0xed, 0xbf, 0xbf],
        &[0xf0, 0x8f, 0xbf, 0xbf],
        &[0xf4, 0x90, 0x80, 0x80],
        &[0xff],
        &[0x61, 0xe2, 0x82],
    ];
    for bytes in refused {
        assert_eq!(string_is(bytes), NOT_TEXT);
    }
}

#[test]
fn where_the_walk_looks() {
    refused_by_text_alone(&STRING, |s| s);
    refused_by_text_alone(&set(STRING), |s| Val::Set(vec![text(), s]));
    let one = record(false, &[(1, STRING)]);
    refused_by_text_alone(&one, |s| Val::Rec(vec![(1, s)]));
    refused_by_text_alone(&EXTENSION, |s| Val::Call(3, vec![s]));
}

#[test]
fn where_it_does_not() {
    refused_by_text_alone(&LONG, |s| s);
    refused_by_text_alone(&LONG, |s| Val::Set(vec![s]));
    refused_by_text_alone(&ANY_SET, |s| Val::Set(vec![s]));
    refused_by_text_alone(&record(true, &[]), |s| Val::Rec(vec![(1, s)]));
    refused_by_text_alone(&record(false, &[]), |s| Val::Rec(vec![(1, s)]));
    refused_by_text_alone(&EXTENSION, |s| Val::Call(2, vec![s]));
    refused_by_text_alone(&EXTENSION, |s| Val::Call(9, vec![s]));
    let behind_no = |s| Val::Set(vec![Val::Bool(true), s]);
    refused_by_text_alone(&set(STRING), behind_no);
    let behind_unknown = |s| Val::Set(vec![Val::Call(9, Vec::new()), s]);
    refused_by_text_alone(&set(EXTENSION), behind_unknown);
}

/// At each of sixteen levels; below them the value is not whole.
#[test]
fn levels() {
    let held = |s: Val, holders: usize| (0..holders).fold(s, |v, _| Val::Set(vec![v]));
    for holders in 0..16 {
        refused_by_text_alone(&ANY_SET, |s| held(s, holders));
    }
    let unwhole = [Outcome::Refused(5), Outcome::Refused(5)];
    assert_eq!(both(&ANY_SET, &held(broken(), 16)), unwhole);
}

/// A character that begins in one string and ends in the next.
#[test]
fn strings_are_not_joined() {
    let halves = vec![string(&[0xc3]), string(&[0xa9])];
    assert_eq!(
        both(&ANY_SET, &Val::Set(halves.clone())),
        [NOT_TEXT, NOT_TEXT]
    );
    assert_eq!(
        both(&EXTENSION, &Val::Call(2, halves)),
        [NOT_TEXT, NOT_TEXT]
    );
}

/// Names, uids and Longs are no strings.
#[test]
fn other_bytes() {
    let value = Val::Rec(vec![(0xffff, Val::Uid(0xfffe, 0xffff))]);
    assert_eq!(both(&record(true, &[]), &value), [YES, YES]);
    assert_eq!(both(&LONG, &Val::Long([255; 8])), [YES, YES]);
}

/// 2, 3 and 5 come before 17, and 7 after it.
#[test]
fn order() {
    let schema = schema().form();
    let broken = broken().form();
    let over = [broken.as_slice(), &[0]].concat();
    for op in [CONFORMS, FULL] {
        let asked = |s: &[u8], t: &[u8], v: &[u8]| answer(&Call::plain(op, s, t, v));
        assert_eq!(asked(&[13], &[5], &broken), Outcome::Refused(2));
        assert_eq!(asked(&schema, &[13], &broken), Outcome::Refused(3));
        assert_eq!(asked(&schema, &[5], &over), Outcome::Refused(5));
        assert_eq!(asked(&schema, &[5], &broken), NOT_TEXT);
        let limits = Limits {
            levels: 0,
            ..Limits::STANDARD
        };
        let outside = Call {
            limits,
            ..Call::plain(op, &schema, &[5], &broken)
        };
        assert_eq!(answer(&outside), Outcome::Refused(20));
    }
    let unknown = Val::Call(9, Vec::new());
    assert_eq!(
        both(&EXTENSION, &unknown),
        [Outcome::Refused(7), Outcome::Refused(7)]
    );
}

/// A string is no uid, whatever its bytes.
#[test]
fn literals() {
    for value in [text(), broken(), Val::Set(vec![broken()])] {
        let (schema, form) = (schema().form(), value.form());
        let outcome = answer(&Call::plain(LITERAL, &schema, &form, &[]));
        assert_eq!(outcome, Outcome::Refused(5));
    }
}

#[test]
fn jobs() {
    let ask = |op, value: Val| Ask {
        op,
        mode: 0,
        attr: 0,
        t0: STRING.form(),
        t1: value.form(),
    };
    let asks = [
        ask(8, text()),
        ask(8, broken()),
        ask(11, broken()),
        ask(11, Val::Bool(true)),
    ];
    let printed = lines(&job_form(&schema().form(), &asks));
    assert_eq!(printed, b"0 0 yes\n1 17 -\n2 17 -\n3 0 no\n");
}

/// Plain, kept, and by the oracle, under limits too.
#[test]
fn candidates() {
    let limits = Limits {
        levels: 32,
        bytes: 8192,
    };
    let deep = (0..31).fold(broken(), |v, _| Val::Set(vec![v])).form();
    let long = Val::Str([vec![b'a'; 8188], vec![0xff]].concat()).form();
    let schema = schema().form();
    let candidates: [&mut dyn Candidate; 3] = [
        &mut Oracle,
        &mut Model(Rules::SOUND),
        &mut KeptModel(Rules::SOUND),
    ];
    for candidate in candidates {
        for value in [&deep, &long] {
            let call = Call {
                limits,
                room: 9,
                work: 9,
                ..Call::plain(FULL, &schema, &[6], value)
            };
            assert_eq!(check_call(candidate, &call, &NOT_TEXT), None);
        }
    }
}

/// On every small question: without 17 the answer is that of the value whose
/// strings are not examined, and 17 stands for a yes, a no and a 7.
#[test]
fn small_questions() {
    let unexamined = Rules { fault: 20 };
    let mut seen = [0; 4];
    for job in exhaustive::jobs() {
        let job = read_job(&job).expect("whole");
        for q in job
            .questions
            .iter()
            .filter(|q| matches!(q.op, CONFORMS | FULL))
        {
            let call = q.call(job.schema);
            let (outcome, otherwise) = (answer(&call), unexamined.answer(&call));
            match (outcome, otherwise) {
                (a, b) if a == b => seen[0] += 1,
                (NOT_TEXT, YES) => seen[1] += 1,
                (NOT_TEXT, NO) => seen[2] += 1,
                (NOT_TEXT, Outcome::Refused(7)) => seen[3] += 1,
                pair => panic!("{pair:?}: {:02x?} {:02x?}", q.t0, q.t1),
            }
        }
    }
    assert!(seen.iter().all(|n| *n > 100), "{seen:?}");
}

/// The claim that fails, and must.
const FAILING: &str = "text: strings that are UTF-8 joined are so each";

#[test]
fn claims_hold() {
    let (mut gen, mut tallies) = (Gen::new(4), Tallies::default());
    (0..20_000).for_each(|_| try_text(&mut gen, &mut tallies));
    tallies.expect(6, 1000, &[FAILING]);
}
