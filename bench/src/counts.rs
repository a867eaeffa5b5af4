//! Full conformance beside conformance, on calls: one walk where every count is
//! the declared one; at another count full conformance ends. What the Rust asks
//! of a call's arguments is a stand-in here, so its times are left out.

use crate::cases::Case;
use crate::figure;
use crate::inputs::widest;
use crate::timing::best;
use oracle::limits::Limits;
use oracle::questions::{operation::*, Outcome};
use oracle::trees::{Attr, FunctionEntry, Sch, Ty, Val};

/// The input's name among the others.
pub const CALLS: &str = "calls";

/// What each function returns.
const EXTENSION: u16 = 7;

/// Functions of nothing, of a Long, of Booleans, of an extension and Booleans.
const OF_NOTHING: u16 = 2;
const OF_LONG: u16 = 4;
const OF_BOOLEANS: u16 = 6;
const OF_CALL: u16 = 8;

/// The kinds of a declared argument.
const BOOLEAN: (u8, u16) = (1, 0);
const LONG: (u8, u16) = (2, 0);
const CALL: (u8, u16) = (4, EXTENSION);

/// The functions, where Booleans are so many.
fn schema(booleans: usize) -> Sch {
    let many = vec![BOOLEAN; booleans];
    let declared = [
        (OF_NOTHING, vec![]),
        (OF_LONG, vec![LONG]),
        (OF_BOOLEANS, many.clone()),
        (OF_CALL, [vec![CALL], many].concat()),
    ];
    let functions = declared.map(|(name, args)| FunctionEntry {
        name,
        returns: Some(EXTENSION),
        args,
    });
    Sch {
        functions: functions.to_vec(),
        ..Sch::default()
    }
}

/// So many levels of calls, each with so many Booleans beside the one below.
fn nested(booleans: usize, levels: usize, last: &Val) -> Val {
    if levels == last.levels() {
        return last.clone();
    }
    let below = nested(booleans, levels - 1, last);
    let beside = vec![Val::Bool(true); booleans];
    Val::Call(OF_CALL, [vec![below], beside].concat())
}

fn of_nothing() -> Val {
    Val::Call(OF_NOTHING, vec![])
}

fn of_long() -> Val {
    Val::Call(OF_LONG, vec![Val::Long([7; 8])])
}

/// A call with an argument too many.
fn too_many() -> Val {
    Val::Call(OF_NOTHING, vec![Val::Bool(true)])
}

/// A value of calls, its type, and how many Booleans their functions take.
struct Calls {
    what: String,
    booleans: usize,
    ty: Ty,
    value: Val,
}

impl Calls {
    /// As many levels as the limits allow, as many Booleans as there is room for.
    fn deepest(limits: Limits, last: &Val) -> Calls {
        let levels = limits.levels;
        let value = |booleans| nested(usize::from(booleans), levels, last);
        let booleans = widest(limits.bytes, |booleans| value(booleans).form());
        Calls {
            what: format!("{levels} levels of calls, {booleans} Booleans in each"),
            booleans: booleans.into(),
            ty: Ty::Ext(EXTENSION),
            value: value(booleans),
        }
    }

    fn set(what: &str, members: Vec<Val>) -> Calls {
        Calls {
            what: format!("a set of {} calls{what}", members.len()),
            booleans: 0,
            ty: Ty::Set(Box::new(Ty::Ext(EXTENSION))),
            value: Val::Set(members),
        }
    }

    fn record(calls: u16) -> Calls {
        let attribute = |name| Attr {
            name,
            required: true,
            ty: Ty::Ext(EXTENSION),
        };
        Calls {
            what: format!("a record of {calls} calls"),
            booleans: 0,
            ty: Ty::Rec(false, (0..calls).map(attribute).collect()),
            value: Val::Rec((0..calls).map(|name| (name, of_long())).collect()),
        }
    }

    fn case(&self, limits: Limits, operation: &'static str, op: u8) -> Case {
        Case {
            limits,
            operation,
            input: CALLS.to_string(),
            op,
            attr: 0,
            schema: schema(self.booleans).form(),
            t0: self.ty.form(),
            t1: self.value.form(),
        }
    }

    fn both(&self, limits: Limits) -> [Case; 2] {
        [
            self.case(limits, "typecheck_restricted_expr", CONFORMS),
            self.case(limits, "typecheck_restricted_expr_exact", FULL),
        ]
    }
}

/// Both conformances of calls as deep and as wide as the limits allow.
pub fn deepest(limits: Limits) -> [Case; 2] {
    Calls::deepest(limits, &of_nothing()).both(limits)
}

/// A set of as many calls as there is room for, one of them exchanged.
fn with_one(what: &str, at: usize) -> Calls {
    let mut members = vec![of_long(); 227];
    members[at] = too_many();
    Calls::set(what, members)
}

fn all() -> Vec<Calls> {
    let limits = Limits::STANDARD;
    let mut wrong = Calls::deepest(limits, &too_many());
    wrong.what += ", an argument too many in the last";
    vec![
        Calls {
            what: "a call of 1,363 Booleans".to_string(),
            booleans: 1363,
            ty: Ty::Ext(EXTENSION),
            value: Val::Call(OF_BOOLEANS, vec![Val::Bool(true); 1363]),
        },
        Calls {
            what: format!("{} levels of calls", limits.levels),
            booleans: 0,
            ty: Ty::Ext(EXTENSION),
            value: nested(0, limits.levels, &of_nothing()),
        },
        Calls::deepest(limits, &of_nothing()),
        Calls::set("", vec![of_long(); 227]),
        Calls::record(200),
        wrong,
        with_one(", an argument too many in the last", 226),
        with_one(", an argument too many in the first", 0),
    ]
}

fn word(case: &Case) -> &'static str {
    match oracle::questions::answer(&case.call()) {
        Outcome::Yes => "yes",
        Outcome::No => "no",
        other => panic!("neither yes nor no: {other:?}"),
    }
}

pub fn print() {
    println!("| Calls | bytes | conformance | ns | full conformance | ns | full by plain |");
    println!("|---|---|---|---|---|---|---|");
    for calls in all() {
        let [plain, full] = calls.both(Limits::STANDARD);
        plain.same_answer();
        full.same_answer();
        let ns = best(&mut [plain.checked(), full.checked()]);
        println!(
            "| {} | {} | {} | {} | {} | {} | {:.2} |",
            calls.what,
            plain.t1.len(),
            word(&plain),
            figure(ns[0]),
            word(&full),
            figure(ns[1]),
            ns[1] / ns[0],
        );
    }
}
