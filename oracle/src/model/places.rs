//! The strings of a value, and what each of them is to the walk.

use super::conformance::function;
use super::relations::find;
use super::{Counts, Rules, Walk};
use crate::trees::{FunctionEntry, Sch, Ty, Val};

/// What the walk makes of a part of a value.
#[derive(Clone, Copy, Debug, PartialEq, Eq)]
pub enum Place {
    /// The walk looks at it, if it comes so far.
    Walked,
    /// It stands in an untyped set.
    Untyped,
    /// In a pair that its record type does not list.
    Unlisted,
    /// Behind the arguments that its function declares.
    Undeclared,
    /// Among the arguments of an unknown function.
    OfUnknown,
    /// In a value of another kind than is asked for, or in a call that returns
    /// another extension.
    OfAnother,
}

use Place::{OfAnother, OfUnknown, Undeclared, Unlisted, Untyped, Walked};

/// What is asked of a part.
#[derive(Clone, Copy)]
enum Asked<'t> {
    Type(&'t Ty),
    Argument((u8, u16)),
    Nothing,
}

impl Asked<'_> {
    /// The extension that a call must return here, if a call is asked for.
    fn extension(self) -> Option<u16> {
        match self {
            Asked::Type(Ty::Ext(extension)) => Some(*extension),
            Asked::Argument((4, extension)) => Some(extension),
            _ => None,
        }
    }

    /// Is a closed record asked for?
    fn closed(self) -> bool {
        matches!(self, Asked::Type(Ty::Rec(false, _)))
    }
}

/// Where a part stands.
#[derive(Clone, Copy)]
pub struct At<'t> {
    asked: Asked<'t>,
    pub place: Place,
    /// The value itself stands at 1.
    pub level: usize,
    pub in_set: bool,
    pub in_record: bool,
    pub in_call: bool,
}

impl<'t> At<'t> {
    /// The value itself.
    fn top(ty: &'t Ty) -> At<'t> {
        At {
            asked: Asked::Type(ty),
            place: Walked,
            level: 1,
            in_set: false,
            in_record: false,
            in_call: false,
        }
    }

    /// A part of a value that stands here.
    fn below(self, value: &Val, asked: Asked<'t>, place: Place) -> At<'t> {
        At {
            asked,
            place: match self.place {
                Walked => place,
                outer => outer,
            },
            level: self.level + 1,
            in_set: self.in_set || matches!(value, Val::Set(_)),
            in_record: self.in_record || matches!(value, Val::Rec(_)),
            in_call: self.in_call || matches!(value, Val::Call(..)),
        }
    }

    /// Is a String asked for here?
    pub fn string_asked(&self) -> bool {
        let asked = self.asked;
        matches!(asked, Asked::Type(Ty::Atom(5)) | Asked::Argument((3, _)))
    }

    /// Is something else asked for here than a String?
    pub fn kind_differs(&self) -> bool {
        self.place == Walked && !self.string_asked()
    }
}

/// A string of a value.
pub struct Found<'t, 'v> {
    pub bytes: &'v [u8],
    pub at: At<'t>,
    /// Does the walk end before it?
    pub ended: bool,
}

/// The strings of a value that a type is asked of, in turn.
pub fn strings<'t, 'v>(
    counts: Counts,
    schema: &'t Sch,
    ty: &'t Ty,
    value: &'v Val,
) -> Vec<Found<'t, 'v>> {
    let mut finder = Finder {
        counts,
        schema,
        ended: false,
        found: Vec::new(),
    };
    finder.visit(At::top(ty), value);
    finder.found
}

struct Finder<'t, 'v> {
    counts: Counts,
    schema: &'t Sch,
    ended: bool,
    found: Vec<Found<'t, 'v>>,
}

type Part<'t, 'v> = (Asked<'t>, Place, &'v Val);

impl<'t, 'v> Finder<'t, 'v> {
    fn visit(&mut self, at: At<'t>, value: &'v Val) {
        if let Val::Str(bytes) = value {
            let ended = self.ended;
            self.found.push(Found { bytes, at, ended });
        }
        for (asked, place, part) in self.parts(at.asked, value) {
            let below = at.below(value, asked, place);
            let walked = at.place == Walked;
            self.ended |= walked && matches!(place, OfUnknown | OfAnother);
            self.visit(below, part);
            self.ended |= walked && place == Unlisted && at.asked.closed();
        }
        if at.place == Walked && !self.ended {
            self.ended = self.walk(at.asked, value) != Walk::Yes;
        }
    }

    fn walk(&self, asked: Asked<'t>, value: &Val) -> Walk {
        let rules = Rules::SOUND;
        match asked {
            Asked::Type(ty) => rules.conforms(self.counts, self.schema, ty, value),
            Asked::Argument(a) => rules.argument_fits(self.counts, self.schema, a, value),
            Asked::Nothing => Walk::Yes,
        }
    }

    /// The parts of a value, and what the walk makes of each where it looks at
    /// the value.
    fn parts(&self, asked: Asked<'t>, value: &'v Val) -> Vec<Part<'t, 'v>> {
        match (asked, value) {
            (Asked::Type(Ty::Atom(6)), Val::Set(_)) => all(Untyped, value),
            (Asked::Type(Ty::Set(element)), Val::Set(values)) => {
                let member = |v| (Asked::Type(element), Walked, v);
                values.iter().map(member).collect()
            }
            (Asked::Type(Ty::Rec(_, attrs)), Val::Rec(pairs)) => {
                let pair = |(name, v): &'v (u16, Val)| match find(attrs, *name) {
                    Some(a) => (Asked::Type(&a.ty), Walked, v),
                    None => (Asked::Nothing, Unlisted, v),
                };
                pairs.iter().map(pair).collect()
            }
            (asked, Val::Call(name, args)) if asked.extension().is_some() => {
                match function(self.schema, *name) {
                    None => all(OfUnknown, value),
                    Some(f) if f.returns != asked.extension() => all(OfAnother, value),
                    Some(f) => arguments(f, args),
                }
            }
            _ => all(OfAnother, value),
        }
    }
}

/// All parts at one place, with nothing asked of them.
fn all<'t, 'v>(place: Place, value: &'v Val) -> Vec<Part<'t, 'v>> {
    let part = |v| (Asked::Nothing, place, v);
    value.parts().map(part).collect()
}

fn arguments<'t, 'v>(f: &FunctionEntry, args: &'v [Val]) -> Vec<Part<'t, 'v>> {
    let argument = |(at, v)| match f.args.get(at) {
        Some(declared) => (Asked::Argument(*declared), Walked, v),
        None => (Asked::Nothing, Undeclared, v),
    };
    args.iter().enumerate().map(argument).collect()
}
