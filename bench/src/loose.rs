//! Loose mode beside permissive: where no untyped set arises the answers are
//! the same; where some arise, how the cost grows. The published Rust has no
//! such mode.

use crate::figure;
use crate::inputs::{atom, attributes, chain, record, set};
use crate::library::{self, Checked};
use crate::timing::{best, repeated, Timed};
use oracle::limits::Limits;
use oracle::questions::{answer, operation::*, Call, Outcome};
use oracle::trees::{list_form, Ty};

const SCHEMA: [u8; 6] = [0; 6];
const PERMISSIVE: u8 = 1;
const LOOSE: u8 = 2;

/// A bound of two types, or a fold of them in turn, under an empty schema.
struct Question {
    limits: Limits,
    what: String,
    op: u8,
    t0: Vec<u8>,
    t1: Vec<u8>,
}

impl Question {
    fn bound(what: &str, side: impl Fn(u8) -> Ty) -> Question {
        Question {
            limits: Limits::STANDARD,
            what: what.to_string(),
            op: BOUND,
            t0: side(0).form(),
            t1: side(1).form(),
        }
    }

    fn fold(what: &str, types: u8, side: impl Fn(u8) -> Ty) -> Question {
        let list: Vec<Vec<u8>> = (0..types).map(|i| side(i % 2).form()).collect();
        Question {
            limits: Limits::STANDARD,
            what: format!("{what}, fold of {types}"),
            op: FOLD,
            t0: list_form(&list),
            t1: Vec::new(),
        }
    }

    fn under_the_largest(self) -> Question {
        Question {
            limits: Limits::LARGEST,
            ..self
        }
    }

    fn bytes(&self) -> usize {
        self.t0.len() + self.t1.len()
    }

    fn call(&self, mode: u8) -> Call<'_> {
        Call {
            op: self.op,
            mode,
            schema: &SCHEMA,
            t0: &self.t0,
            t1: &self.t1,
            ..library::call_under(self.limits)
        }
    }

    /// The library's answer, which must be the oracle's.
    fn answer(&self, mode: u8) -> Outcome {
        let call = self.call(mode);
        let (mut out, mut work) = library::buffers(self.limits);
        let check = Checked::of(self.limits, &SCHEMA);
        let number = library::through(check, &call, &mut out, &mut work);
        let told = library::outcome(number, call.t0, &out);
        assert_eq!(told, answer(&call), "{}, mode {mode}", self.what);
        told
    }

    fn timed(&self, mode: u8) -> Timed<'_> {
        let check = Checked::of(self.limits, &SCHEMA);
        let (mut out, mut work) = library::buffers(self.limits);
        repeated(move || library::through(check, &self.call(mode), &mut out, &mut work))
    }
}

/// A set of a closed record of so many sets, the last of which is the same
/// again, so many levels of records in all.
fn nested(width: u16, records: usize, element: &dyn Fn(u16) -> Ty) -> Ty {
    let mut sets: Vec<Ty> = (0..width).map(|name| set(element(name))).collect();
    if records > 1 {
        sets[width as usize - 1] = nested(width, records - 1, element);
    }
    set(Ty::Rec(false, attributes(sets)))
}

/// Actions of one name, of so many attributes, that have a bound.
fn action(width: u16, side: u8) -> Ty {
    Ty::Act(3, attributes((0..width).map(|name| atom(name, side))))
}

/// Long with String.
fn unlike(side: u8) -> Ty {
    Ty::Atom(4 + side)
}

/// Actions of one name that have no bound, though only in the last attribute.
fn unlike_action(width: u16, side: u8) -> Ty {
    let alike = (1..width).map(|name| atom(name, side));
    Ty::Act(3, attributes(alike.chain([unlike(side)])))
}

fn entities(side: u8) -> Ty {
    let first = 2 + 2 * u16::from(side);
    Ty::Ent((0..200).map(|i| first + 4 * i).collect())
}

/// Questions without an untyped set in the answer.
fn alike() -> Vec<Question> {
    let turns = |width, records, s| nested(width, records, &|name| atom(name, s));
    vec![
        Question::bound("records of 200 attributes", |s| record(200, 2, s)),
        Question::bound("sets of Boolean constants", |s| set(atom(2, s))),
        Question::bound("sets of records of 200 sets", |s| turns(200, 1, s)),
        Question::bound("sets of 200 entity types", |s| set(entities(s))),
        Question::bound("14 sets of a record of 4", |s| chain(14, record(4, 2, s))),
        Question::bound("16 levels, sets and records of 4", |s| turns(4, 7, s)),
        Question::bound("16 levels, sets and records of 80", |s| turns(80, 7, s)),
        Question::bound("32 levels, sets and records of 77", |s| turns(77, 15, s))
            .under_the_largest(),
        Question::bound("sets of actions of 4 attributes", |s| set(action(4, s))),
        Question::bound("sets of actions of 200", |s| set(action(200, s))),
        Question::bound("records of 4 sets of actions of 50", |s| {
            Ty::Rec(false, attributes((0..4).map(|_| set(action(50, s)))))
        }),
        Question::fold("sets of records of 80", 8, |s| set(record(80, 2, s))),
        Question::fold("sets of records of 4", 64, |s| set(record(4, 2, s))),
    ]
}

/// Questions whose answer is an untyped set or has some.
fn untyped() -> Vec<Question> {
    let turn = |s| set(unlike(s));
    let mut all = vec![
        Question::bound("sets of Long and of String", turn),
        Question::bound("15 sets of Long and of String", |s| chain(15, unlike(s))),
        Question::fold("sets of Long and of String", 64, turn),
    ];
    for width in [85, 170, 340, 680] {
        let what = format!("sets of unlike actions of {width} attributes");
        all.push(Question::bound(&what, |s| set(unlike_action(width, s))));
    }
    for width in [73, 146, 292, 584] {
        let what = format!("records of {width} unlike sets");
        let side = |s| Ty::Rec(false, attributes((0..width).map(|_| set(unlike(s)))));
        all.push(Question::bound(&what, side));
    }
    for records in [1, 3, 7] {
        let side = |s| nested(80, records, &|_| unlike(s));
        let what = format!("{} levels, sets and records of 80", side(0).levels());
        all.push(Question::bound(&what, side));
    }
    let deepest = |s| nested(77, 15, &|_| unlike(s));
    all.push(Question::bound("32 levels, sets and records of 77", deepest).under_the_largest());
    for records in [1, 3, 6] {
        let side = |s| nested(16, records, &|_| unlike_action(4, s));
        let what = format!("{} levels, with sets of unlike actions", side(0).levels());
        all.push(Question::bound(&what, side));
    }
    all
}

fn print_alike() {
    println!("| Bound, no untyped set in it | bytes | permissive, ns | loose, ns | loose by permissive |");
    println!("|---|---|---|---|---|");
    for question in alike() {
        assert_eq!(question.answer(PERMISSIVE), question.answer(LOOSE));
        let ns = best(&mut [question.timed(PERMISSIVE), question.timed(LOOSE)]);
        println!(
            "| {} | {} | {} | {} | {:.2} |",
            question.what,
            question.bytes(),
            figure(ns[0]),
            figure(ns[1]),
            ns[1] / ns[0],
        );
    }
}

fn print_untyped() {
    println!("| Bound with untyped sets, loose | bytes | ns | ns a byte |");
    println!("|---|---|---|---|");
    for question in untyped() {
        assert_ne!(question.answer(PERMISSIVE), question.answer(LOOSE));
        let ns = best(&mut [question.timed(LOOSE)])[0];
        println!(
            "| {} | {} | {} | {:.2} |",
            question.what,
            question.bytes(),
            figure(ns),
            ns / question.bytes() as f64,
        );
    }
}

pub fn print() {
    print_alike();
    println!();
    print_untyped();
}
