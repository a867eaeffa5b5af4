//! The levels of a form: how deep its deepest part stands, the form itself at 1.

use super::Rules;
use crate::trees::{Attr, Ty, Val};

/// What is seen of a form by itself: the parts that count, how far below it they
/// stand, and how many levels it has below it where none counts.
struct Seen<'t, T> {
    parts: Vec<&'t T>,
    step: usize,
    bare: usize,
    /// Are the levels of its parts added up?
    summed: bool,
}

/// The level of the deepest part of a form that stands at one.
fn deepest<'t, T>(level: usize, form: &'t T, see: &dyn Fn(&'t T) -> Seen<'t, T>) -> usize {
    let seen = see(form);
    let parts = seen.parts.into_iter();
    let parts = parts.map(|part| deepest(level + seen.step, part, see));
    match seen.summed {
        true => level + parts.map(|part| part - level).sum::<usize>(),
        false => parts.max().unwrap_or(level + seen.bare),
    }
}

/// A type of one level.
static LONE: Ty = Ty::Atom(0);

impl Rules {
    /// The levels of a type.
    pub fn type_levels(self, ty: &Ty) -> usize {
        deepest(1, ty, &|ty| self.see_type(ty))
    }

    fn see_type(self, ty: &Ty) -> Seen<'_, Ty> {
        let same = match ty {
            Ty::Set(element) => self.fault(435) && matches!(**element, Ty::Set(_)),
            Ty::Act(..) => self.fault(439),
            _ => false,
        };
        let bare = match ty {
            Ty::Rec(_, attrs) => self.fault(430) && attrs.is_empty(),
            Ty::Act(_, attrs) => self.fault(431) && attrs.is_empty(),
            Ty::Ent(_) => self.fault(432),
            Ty::Ext(_) => self.fault(433),
            Ty::Atom(kind) => self.fault(434) && *kind == 6,
            Ty::Set(_) => false,
        };
        Seen {
            parts: self.counted_below(ty),
            step: !same as usize,
            bare: bare as usize,
            summed: self.fault(444),
        }
    }

    /// The parts of a type that count.
    fn counted_below(self, ty: &Ty) -> Vec<&Ty> {
        match ty {
            Ty::Set(element) if !self.fault(436) => vec![&**element],
            Ty::Rec(_, attrs) if !self.fault(437) => self.counted_attrs(attrs),
            Ty::Act(_, attrs) if !self.fault(438) => self.counted_attrs(attrs),
            _ => Vec::new(),
        }
    }

    fn counted_attrs(self, attrs: &[Attr]) -> Vec<&Ty> {
        if matches!(self.fault, 538 | 539) {
            return self.looked_at(attrs);
        }
        let counts = |a: &&Attr| match self.fault {
            442 => a.required,
            443 => !a.required,
            _ => true,
        };
        let counted = attrs.iter().filter(counts).map(|a| &a.ty);
        self.first_or_last(440, 441, counted.collect())
    }

    /// The attributes, those that a fault passes over as lone ones: a form has no
    /// more levels than bytes, so such a body is taken to be no deeper than those
    /// before it.
    fn looked_at(self, attrs: &[Attr]) -> Vec<&Ty> {
        let lengths: Vec<usize> = attrs.iter().map(|a| a.ty.form().len()).collect();
        let mut most = 1;
        let mut looked_at = Vec::new();
        for (at, a) in attrs.iter().enumerate() {
            let rest: usize = lengths[at..].iter().sum();
            let looks = match self.fault {
                538 => lengths[at] > most + 1,
                _ => attrs.len() - at + most < rest,
            };
            most = most.max(if looks { a.ty.levels() } else { 1 });
            looked_at.push(if looks { &a.ty } else { &LONE });
        }
        looked_at
    }

    /// All parts, or the first or the last alone by a fault each.
    fn first_or_last<T>(self, first: u32, last: u32, mut parts: Vec<T>) -> Vec<T> {
        if self.fault(first) {
            parts.truncate(1);
        }
        if self.fault(last) {
            parts = parts.split_off(parts.len().saturating_sub(1));
        }
        parts
    }

    /// The levels of a value.
    pub fn value_levels(self, value: &Val) -> usize {
        deepest(1, value, &|value| self.see_value(value))
    }

    fn see_value(self, value: &Val) -> Seen<'_, Val> {
        let [unseen, same, empty] = match value {
            Val::Set(_) => [487, 490, 494],
            Val::Rec(_) => [488, 491, 495],
            Val::Call(..) => [489, 492, 496],
            Val::Str(_) => [0, 0, 497],
            Val::Uid(..) => [0, 0, 498],
            Val::Bool(_) | Val::Long(_) => [0; 3],
        };
        let on = |fault: u32| fault != 0 && self.fault(fault);
        let parts: Vec<&Val> = match on(unseen) {
            true => Vec::new(),
            false => value.parts().collect(),
        };
        let run = matches!(value, Val::Set(_)) && parts.iter().any(|v| matches!(v, Val::Set(_)));
        let step = match value {
            Val::Call(..) if self.fault(493) => 2,
            _ if on(same) || (run && self.fault(502)) => 0,
            _ => 1,
        };
        Seen {
            step,
            bare: (on(empty) && value.parts().next().is_none()) as usize,
            parts: self.first_or_last(499, 500, parts),
            summed: self.fault(501),
        }
    }
}
