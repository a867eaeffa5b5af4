//! The bound of two types, and the fold.

use super::relations::find;
use super::{Mode, Rules};
use crate::limits::Limits;
use crate::trees::{Attr, Ty};

impl Rules {
    pub fn bound(self, mode: Mode, a: &Ty, b: &Ty) -> Result<Ty, u8> {
        if self.subtype(mode, a, b) {
            return Ok(self.or(90, b, a).clone());
        }
        if self.subtype(mode, b, a) && !self.fault(91) {
            return Ok(a.clone());
        }
        match (a, b) {
            (Ty::Atom(1 | 2), Ty::Atom(1 | 2)) if !self.fault(92) => Ok(Ty::Atom(3)),
            (Ty::Set(x), Ty::Set(y)) => self.bound_sets(mode, x, y),
            (Ty::Rec(oa, x), Ty::Rec(ob, y)) => self.bound_records(mode, (*oa, x), (*ob, y)),
            (Ty::Act(m, x), Ty::Act(n, y)) if m == n => self.bound_actions(mode, *m, x, y),
            _ if is_entity(a) && is_entity(b) => self.bound_entities(mode, a, b),
            (Ty::Rec(..), e) | (e, Ty::Rec(..)) if is_entity(e) => Err(self.or(93, 14, 13)),
            _ if self.fault_in_loose(234, mode) && (is_set(a) || is_set(b)) => Ok(Ty::Atom(6)),
            _ => Err(15),
        }
    }

    /// Sets by element; in mode 2, where the elements have no bound, 06.
    fn bound_sets(self, mode: Mode, x: &Ty, y: &Ty) -> Result<Ty, u8> {
        match self.bound(self.or(232, mode, mode.tightened()), x, y) {
            Ok(element) => {
                let set = Ty::Set(Box::new(element));
                let over = |set: &Ty| set.form().len() > Limits::STANDARD.bytes;
                let long = self.fault_in_loose(222, mode) && over(&set);
                Ok(if long { Ty::Atom(6) } else { set })
            }
            Err(reason) if self.leaves_untyped(mode, reason) => Ok(Ty::Atom(6)),
            Err(_) if self.fault(95) => Err(15),
            Err(reason) => Err(reason),
        }
    }

    /// Is the bound of sets 06 where that is why their elements have none?
    fn leaves_untyped(self, mode: Mode, reason: u8) -> bool {
        match mode {
            Mode::Loose => reason == 15 || !self.fault(237),
            Mode::Permissive => self.fault(94) || self.fault(220),
            Mode::Strict => self.fault(94) || self.fault(221),
        }
    }

    fn bound_records(self, mode: Mode, a: (bool, &[Attr]), b: (bool, &[Attr])) -> Result<Ty, u8> {
        let open = self.or(96, a.0 || b.0, a.0 && b.0);
        if mode == Mode::Strict || self.fault_in_loose(240, mode) {
            let attrs = self.join_strictly(mode, a.1, b.1)?;
            return Ok(Ty::Rec(open && !self.fault(97), attrs));
        }
        let attrs = self.join_shared(mode, a.1, b.1)?;
        let kept = match self.fault_in_loose(236, mode) {
            true => self.join_shared(Mode::Permissive, a.1, b.1)?.len(),
            false => attrs.len(),
        };
        let lost = kept < a.1.len() || kept < b.1.len();
        let lost = match self.fault(98) {
            true => kept < a.1.len() && kept < b.1.len(),
            false => lost && !self.fault(99),
        };
        Ok(Ty::Rec(open || lost, attrs))
    }

    /// The same names, each with a bound and equal flags.
    fn join_strictly(self, mode: Mode, a: &[Attr], b: &[Attr]) -> Result<Vec<Attr>, u8> {
        let names = |attrs: &[Attr]| attrs.iter().map(|x| x.name).collect::<Vec<u16>>();
        if names(a) != names(b) {
            return Err(self.or(100, 12, 15));
        }
        let mut joined = Vec::new();
        for (x, y) in a.iter().zip(b) {
            if self.fault(101) && x.required != y.required {
                return Err(11);
            }
            let ty = self.bound(self.or(102, mode, Mode::Permissive), &x.ty, &y.ty)?;
            if x.required != y.required && !self.fault(103) {
                return Err(self.or(104, 11, 12));
            }
            joined.push(Attr {
                name: x.name,
                required: x.required && y.required,
                ty,
            });
        }
        Ok(joined)
    }

    /// The shared names whose types have a bound.
    fn join_shared(self, mode: Mode, a: &[Attr], b: &[Attr]) -> Result<Vec<Attr>, u8> {
        let mut joined = Vec::new();
        for x in a {
            let Some(y) = find(b, x.name) else { continue };
            let ty = match self.bound(self.or(233, mode, mode.tightened()), &x.ty, &y.ty) {
                Ok(ty) => ty,
                Err(reason) if self.fault(105) => return Err(reason),
                Err(_) => continue,
            };
            let both = x.required && y.required;
            let both = both && !(self.fault_in_loose(235, mode) && self.unlike(x, y));
            joined.push(Attr {
                name: x.name,
                required: self.or(106, both, x.required || y.required),
                ty,
            });
        }
        Ok(joined)
    }

    /// Have the types of two attributes no bound in mode 1?
    fn unlike(self, x: &Attr, y: &Attr) -> bool {
        self.bound(Mode::Permissive, &x.ty, &y.ty).is_err()
    }

    /// Actions of one name join as in mode 0 in every mode.
    fn bound_actions(self, mode: Mode, name: u16, x: &[Attr], y: &[Attr]) -> Result<Ty, u8> {
        if self.fault(107) && mode != Mode::Strict {
            return Ok(Ty::Atom(9));
        }
        if self.fault(108) && mode != Mode::Strict {
            return Ok(Ty::Act(name, self.join_shared(mode, x, y)?));
        }
        let (rules, inner) = match mode {
            Mode::Loose if self.fault(225) => (self, Mode::Loose),
            Mode::Loose if self.fault(226) => (self, Mode::Permissive),
            Mode::Loose if self.fault(227) => (Rules { fault: 221 }, Mode::Strict),
            _ => (self, self.or(109, Mode::Strict, mode)),
        };
        Ok(Ty::Act(name, rules.join_strictly(inner, x, y)?))
    }

    fn bound_entities(self, mode: Mode, a: &Ty, b: &Ty) -> Result<Ty, u8> {
        if mode == Mode::Strict || self.fault_in_loose(239, mode) {
            return Err(self.or(110, 13, 15));
        }
        match (a, b) {
            (Ty::Ent(x), Ty::Ent(y)) => match self.fault(111) {
                true => Ok(Ty::Atom(9)),
                false => Ok(Ty::Ent(union(x, y))),
            },
            (Ty::Act(..), Ty::Act(..)) if self.fault(112) => Err(13),
            (Ty::Ent(x), Ty::Act(n, _)) | (Ty::Act(n, _), Ty::Ent(x)) if self.fault(113) => {
                Ok(Ty::Ent(union(x, &[*n])))
            }
            _ => Ok(Ty::Atom(9)),
        }
    }

    /// The fold from Never; each step's bound is within `limit` or 9.
    pub fn fold(self, mode: Mode, types: &[Ty], limit: usize) -> Result<Ty, u8> {
        let mode = self.or(245, mode, mode.tightened());
        let mut order: Vec<&Ty> = types.iter().collect();
        if self.fault(114) {
            order.reverse();
        }
        if self.fault(115) {
            order.truncate(2);
        }
        let mut last = Ty::Atom(0);
        for (step, ty) in order.iter().enumerate() {
            if self.fault(293) && last.form().len() > Limits::STANDARD.bytes {
                last = Ty::Atom(0);
            }
            let bound = self.bound(mode, &last, ty)?;
            let loosened = bound == Ty::Atom(6) && last != bound && **ty != bound;
            let next = loosened && self.fault_in_loose(248, mode);
            if next && ty.form().len() > limit {
                return Err(9);
            }
            last = bound;
            let asked = !self.fault(116) && !(self.fault(117) && step == 0);
            if asked && self.capped(287, last.form().len()) > limit {
                if !self.fault_in_loose(223, mode) || !is_set(&last) {
                    return Err(9);
                }
                last = Ty::Atom(6);
            }
        }
        Ok(last)
    }
}

fn is_entity(ty: &Ty) -> bool {
    matches!(ty, Ty::Atom(9) | Ty::Ent(_) | Ty::Act(..))
}

fn is_set(ty: &Ty) -> bool {
    matches!(ty, Ty::Atom(6) | Ty::Set(_))
}

fn union(a: &[u16], b: &[u16]) -> Vec<u16> {
    let mut all: Vec<u16> = a.iter().chain(b).copied().collect();
    all.sort_unstable();
    all.dedup();
    all
}
