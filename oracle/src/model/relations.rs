//! Disjoint, subtype and consistency.

use super::{Mode, Rules};
use crate::trees::{Attr, Ty};

/// The attribute of that name.
pub fn find(attrs: &[Attr], name: u16) -> Option<&Attr> {
    attrs.iter().find(|a| a.name == name)
}

fn same_names(a: &[Attr], b: &[Attr]) -> bool {
    a.iter().map(|x| x.name).eq(b.iter().map(|x| x.name))
}

impl Rules {
    fn entity_names(self, ty: &Ty) -> Option<Vec<u16>> {
        match ty {
            Ty::Ent(names) => Some(names.clone()),
            Ty::Act(name, _) if !self.fault(50) => Some(vec![*name]),
            _ => None,
        }
    }

    pub fn disjoint(self, a: &Ty, b: &Ty) -> bool {
        match (self.entity_names(a), self.entity_names(b)) {
            (Some(a), Some(b)) => match self.fault(51) {
                true => a.first() != b.first(),
                false => !a.iter().any(|n| b.contains(n)),
            },
            _ => self.fault(52) && std::mem::discriminant(a) != std::mem::discriminant(b),
        }
    }

    pub fn subtype(self, mode: Mode, a: &Ty, b: &Ty) -> bool {
        let strict = mode == Mode::Strict;
        match (a, b) {
            (Ty::Atom(0), Ty::Rec(..)) => !self.fault(53),
            (Ty::Atom(0), _) => true,
            (Ty::Atom(1 | 2), Ty::Atom(3)) => !self.fault(54),
            (Ty::Atom(6), Ty::Set(_)) => self.fault(55),
            (Ty::Set(_), Ty::Atom(6)) => !self.fault(56),
            (Ty::Set(a), Ty::Set(b)) => self.or(57, self.subtype(mode, a, b), a == b),
            (Ty::Rec(oa, a), Ty::Rec(ob, b)) => self.subrecord(mode, (*oa, a), (*ob, b)),
            (Ty::Ent(a), Ty::Ent(b)) => {
                let equal = self.or(58, strict, false) || self.fault(59);
                match equal || self.fault_in_loose(243, mode) {
                    true => a == b,
                    false => a.iter().all(|n| b.contains(n)),
                }
            }
            (Ty::Ent(_) | Ty::Act(..), Ty::Atom(9)) if self.fault_in_loose(244, mode) => false,
            (Ty::Ent(_), Ty::Atom(9)) => !strict || self.fault(60),
            (Ty::Act(..), Ty::Atom(9)) => !strict && !self.fault(61),
            (Ty::Act(m, a), Ty::Act(n, b)) => m == n && (a == b || self.fault(62)),
            (Ty::Ext(a), Ty::Ext(b)) => a == b || self.fault(63),
            _ => a == b,
        }
    }

    fn subrecord(self, mode: Mode, a: (bool, &[Attr]), b: (bool, &[Attr])) -> bool {
        if a.0 && !b.0 && !self.fault(64) {
            return false;
        }
        let wide = mode != Mode::Strict || self.fault(65);
        let narrow = self.fault(66) || self.fault_in_loose(241, mode);
        let wide = b.0 && wide && !narrow;
        if !wide && !same_names(a.1, b.1) && !self.fault(67) {
            return false;
        }
        b.1.iter().all(|upper| match find(a.1, upper.name) {
            Some(lower) => self.subattribute(mode, lower, upper),
            None => self.fault(68) && !upper.required,
        })
    }

    fn subattribute(self, mode: Mode, a: &Attr, b: &Attr) -> bool {
        let equal = (mode == Mode::Strict && !self.fault(69)) || self.fault(70);
        let equal = equal || self.fault_in_loose(242, mode);
        let flags = if equal {
            a.required == b.required
        } else {
            a.required || !b.required || self.fault(71)
        };
        flags && self.subtype(mode, &a.ty, &b.ty)
    }

    /// Is the type plain throughout?
    pub fn plain(self, ty: &Ty) -> bool {
        match ty {
            Ty::Atom(kind) => (3..=6).contains(kind) || (self.fault(72) && *kind == 9),
            Ty::Set(element) => self.plain(element) || self.fault(73),
            Ty::Rec(_, attrs) => attrs.iter().all(|a| self.plain(&a.ty)) || self.fault(74),
            Ty::Ent(names) => names.len() == 1 || self.fault(75),
            Ty::Act(..) => self.fault(76),
            Ty::Ext(_) => true,
        }
    }

    /// The Rust's test of consistency, case by case. The second type is plain.
    pub fn consistent(self, a: &Ty, plain: &Ty) -> bool {
        let alike = match (a, plain) {
            (Ty::Atom(1 | 2), Ty::Atom(3)) => !self.fault(77),
            (Ty::Atom(9), Ty::Ent(_)) => !self.fault(78),
            (Ty::Atom(6), Ty::Set(_)) => self.fault(79),
            (Ty::Set(_), Ty::Atom(6)) => !self.fault(80),
            (Ty::Set(a), Ty::Set(b)) => self.consistent(a, b),
            (Ty::Ent(names), Ty::Ent(one)) => match self.fault(81) {
                true => names == one,
                false => one.first().is_some_and(|n| names.contains(n)),
            },
            (Ty::Act(name, _), Ty::Ent(one)) => one == &[*name] && !self.fault(82),
            (Ty::Rec(oa, a), Ty::Rec(ob, b)) => {
                self.answered(b, a, *oa, 83) && self.answered(a, b, *ob, 84)
            }
            (Ty::Atom(a), Ty::Atom(b)) => a == b,
            (Ty::Ext(a), Ty::Ext(b)) => a == b,
            _ => false,
        };
        alike && self.shared_consistent(a, plain)
    }

    /// Shared attributes of two records are consistent.
    fn shared_consistent(self, a: &Ty, plain: &Ty) -> bool {
        let (Ty::Rec(_, a), Ty::Rec(_, b)) = (a, plain) else {
            return true;
        };
        a.iter().all(|x| match find(b, x.name) {
            Some(y) => {
                let flags = !self.fault(85) || x.required == y.required;
                flags && self.consistent(&x.ty, &y.ty)
            }
            None => true,
        })
    }

    /// Is each required attribute of `a` listed in `b`, or `b` open?
    fn answered(self, a: &[Attr], b: &[Attr], open: bool, fault: u32) -> bool {
        let open = open && !self.fault(fault);
        a.iter()
            .all(|x| !x.required || open || find(b, x.name).is_some())
    }
}
