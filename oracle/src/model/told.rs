//! The levels that answers tell: those of what is written.

use super::relations::find;
use super::{Mode, Rules};
use crate::limits::Limits;
use crate::questions::Outcome;
use crate::trees::{Attr, Sch, Ty};

/// The most levels that a fault knows.
const SIXTEEN: usize = Limits::STANDARD.levels;

impl Rules {
    /// So many levels, up to 16 where a fault is on.
    pub fn up_to_sixteen(self, fault: u32, levels: usize) -> usize {
        self.or(fault, levels, levels.min(SIXTEEN))
    }

    /// What is told of a form that has so many levels.
    pub fn told(self, limits: Limits, levels: usize) -> usize {
        match self.fault {
            427 => levels.saturating_sub(1),
            428 if levels == 1 => 2,
            429 => levels + 1,
            447 => limits.levels,
            _ => levels,
        }
    }

    /// The outcome with so many levels told, where a fault is on.
    pub fn retold(self, fault: u32, levels: usize, mut outcome: Outcome) -> Outcome {
        match &mut outcome {
            Outcome::Typed(w) | Outcome::Attribute(_, w) if self.fault(fault) => w.levels = levels,
            _ => (),
        }
        outcome
    }

    /// Of a bound.
    pub fn bound_levels(self, mode: Mode, types: [&Ty; 2], bound: &Ty) -> usize {
        let [a, b] = types;
        let [first, second, own] = [a, b, bound].map(|ty| self.type_levels(ty));
        let in_mode = |mode| {
            let other = self.bound(mode, a, b);
            other.map_or(own, |ty| self.type_levels(&ty))
        };
        match (self.fault, bound) {
            (448, _) => first.max(second),
            (449, _) => first,
            (450, _) => second,
            (451, _) => first.min(second),
            (452..=456, _) => self.with_dropped(a, b, bound),
            (457, bound) if bound == b => first,
            (457, bound) if bound == a => second,
            (458, _) if mode == Mode::Loose => in_mode(Mode::Permissive),
            (459, _) if mode == Mode::Permissive => in_mode(Mode::Loose),
            (460, Ty::Rec(_, attrs)) if !attrs.is_empty() => own - 1,
            (461, Ty::Act(..)) if a != b => 1,
            _ => own,
        }
    }

    /// The levels of a bound with those of what a fault counts though it is not
    /// written.
    fn with_dropped(self, a: &Ty, b: &Ty, bound: &Ty) -> usize {
        let deeper = a.levels().max(b.levels());
        match (a, b, bound) {
            (Ty::Set(_), Ty::Set(_), Ty::Atom(6)) if self.fault(454) => deeper,
            (Ty::Set(_), Ty::Atom(6), _) | (Ty::Atom(6), Ty::Set(_), _) if self.fault(455) => {
                deeper
            }
            (Ty::Act(..), _, Ty::Atom(9)) | (_, Ty::Act(..), Ty::Atom(9)) if self.fault(456) => {
                deeper
            }
            (Ty::Set(x), Ty::Set(y), Ty::Set(z)) => 1 + self.with_dropped(x, y, z),
            (Ty::Rec(_, x), Ty::Rec(_, y), Ty::Rec(_, z)) => 1 + self.attrs_with_dropped([x, y], z),
            _ => bound.levels(),
        }
    }

    fn attrs_with_dropped(self, types: [&[Attr]; 2], joined: &[Attr]) -> usize {
        let both = |name| types.map(|attrs| find(attrs, name));
        let kept = joined.iter().map(|c| match both(c.name) {
            [Some(a), Some(b)] => self.with_dropped(&a.ty, &b.ty, &c.ty),
            _ => c.ty.levels(),
        });
        let counts = |a: &&Attr| {
            let shared = both(a.name).iter().all(Option::is_some);
            let counted = self.fault(if shared { 453 } else { 452 });
            counted && find(joined, a.name).is_none()
        };
        let dropped = types.into_iter().flatten().filter(counts);
        let dropped = dropped.map(|a| a.ty.levels());
        kept.chain(dropped).max().unwrap_or(0)
    }

    /// Of a fold.
    pub fn fold_levels(self, mode: Mode, types: &[Ty], bound: &Ty) -> usize {
        let own = self.type_levels(bound);
        let levels = types.iter().map(|ty| self.type_levels(ty));
        let levels: Vec<usize> = levels.collect();
        let step = |n: usize| match self.fold(mode, &types[..n], usize::MAX) {
            Ok(step) => self.type_levels(&step),
            Err(_) => own,
        };
        let told = match self.fault {
            462 if types.is_empty() => Some(0),
            463 => levels.iter().copied().max(),
            464 => levels.first().copied(),
            465 => levels.last().copied(),
            466 => (1..=types.len()).map(step).max(),
            467 if types.len() > 1 => Some(step(types.len() - 1)),
            _ => None,
        };
        told.unwrap_or(own)
    }

    /// Of a lookup on a type.
    pub fn lookup_levels(self, schema: &Sch, ty: &Ty, attr: u16, found: &Ty) -> usize {
        let own = self.type_levels(found);
        let Ty::Ent(names) = ty else {
            return match self.fault {
                468 => self.type_levels(ty),
                472 => own + 1,
                _ => own,
            };
        };
        let entities = schema.entities.iter();
        let entities = entities.filter(|e| names.contains(&e.name));
        let bodies = entities.clone().map(|e| self.type_levels(&e.body()));
        let mut joined = entities
            .filter_map(|e| find(&e.attrs, attr))
            .map(|a| self.type_levels(&a.ty));
        let told = match self.fault {
            468 => bodies.max(),
            469 => joined.next(),
            470 => joined.next_back(),
            471 => joined.max(),
            _ => None,
        };
        told.unwrap_or(own)
    }

    /// Of a conversion.
    pub fn converted_levels(self, ty: &Ty, converted: &Ty) -> usize {
        let action = matches!(ty, Ty::Act(..));
        match self.fault(473) || self.fault(if action { 474 } else { 475 }) {
            true => self.type_levels(ty),
            false => self.type_levels(converted),
        }
    }

    /// Of a literal.
    pub fn literal_levels(self, schema: &Sch, literal: &Ty) -> usize {
        let own = self.type_levels(literal);
        let action = match literal {
            Ty::Act(name, _) => Some(*name),
            _ => None,
        };
        let told = match (self.fault, action) {
            (476, Some(_)) => Some(own.saturating_sub(1).max(1)),
            (477, Some(_)) => Some(1),
            (478, None) => {
                let mut entities = schema.entities.iter();
                let entry = entities.find(|e| *literal == Ty::Ent(vec![e.name]));
                entry.map(|e| self.type_levels(&e.body()))
            }
            (479, Some(_)) => Some(own + 1),
            (480, Some(name)) => {
                let first = schema.actions.iter().find(|a| a.ty == name);
                first.map(|a| self.type_levels(&a.body()))
            }
            (481, _) => self.deepest_body(schema),
            _ => None,
        };
        told.unwrap_or(own)
    }

    /// The levels of the deepest body of a schema.
    pub fn deepest_body(self, schema: &Sch) -> Option<usize> {
        let entities = schema.entities.iter().map(|e| e.body());
        let bodies = entities.chain(schema.actions.iter().map(|a| a.body()));
        bodies.map(|body| self.type_levels(&body)).max()
    }

    /// Of a name list, which tells none.
    pub fn name_levels(self, ty: &Ty) -> Option<usize> {
        match self.fault {
            482 => Some(1),
            483 => Some(self.type_levels(ty)),
            _ => None,
        }
    }
}
