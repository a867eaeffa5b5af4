//! Lookup, may-have and names.

use super::relations::find;
use super::{Mode, Rules};
use crate::trees::{Attr, EntityEntry, Sch, Ty};

/// What the fold of one attribute over an entity's types comes to.
pub enum Folded {
    Absent,
    TooLong,
    Found(bool, Ty),
}

impl Rules {
    fn entry(self, schema: &Sch, name: u16) -> Option<&EntityEntry> {
        schema.entities.iter().find(|e| e.name == name)
    }

    fn entity_attr(self, schema: &Sch, name: u16, attr: u16) -> Option<&Attr> {
        let entry = self.entry(schema, name)?;
        if self.fault(120) && entry.enumerated {
            return None;
        }
        let found = find(&entry.attrs, attr)?;
        (!self.ends_early(300, [found.ty.levels()])).then_some(found)
    }

    /// One attribute folded over the types, ascending, until it is absent or
    /// has no bound.
    fn fold_attr(self, mode: Mode, schema: &Sch, names: &[u16], attr: u16, limit: usize) -> Folded {
        let mut found: Option<(bool, Ty)> = None;
        let mut too_long = false;
        let mut order = names.to_vec();
        if self.fault(139) {
            order.reverse();
        }
        for name in &order {
            if self.fault(121) && self.entry(schema, *name).is_none() {
                continue;
            }
            let Some(next) = self.entity_attr(schema, *name, attr) else {
                return Folded::Absent;
            };
            let Some((required, ty)) = found else {
                found = Some((next.required, next.ty.clone()));
                continue;
            };
            let Ok(step) = self.bound(self.or(122, mode, Mode::Strict), &ty, &next.ty) else {
                return self.or(123, Folded::Absent, Folded::Found(required, ty));
            };
            too_long |= self.capped(287, step.form().len()) > limit;
            if too_long && !self.fault(124) {
                return self.or(125, Folded::TooLong, Folded::Absent);
            }
            let both = required && next.required;
            found = Some((self.or(126, both, next.required), step));
        }
        match found {
            _ if too_long => Folded::TooLong,
            Some((required, ty)) => Folded::Found(required, ty),
            None => Folded::Absent,
        }
    }

    pub fn lookup(self, schema: &Sch, ty: &Ty, attr: u16, limit: usize) -> Folded {
        match ty {
            Ty::Act(..) if self.fault(127) => Folded::Absent,
            Ty::Rec(_, attrs) | Ty::Act(_, attrs) => match find(attrs, attr) {
                Some(a) => Folded::Found(self.or(128, a.required, true), a.ty.clone()),
                None => Folded::Absent,
            },
            Ty::Ent(names) => {
                let mode = self.or(228, Mode::Permissive, Mode::Loose);
                self.fold_attr(mode, schema, names, attr, limit)
            }
            _ => Folded::Absent,
        }
    }

    pub fn may_have(self, schema: &Sch, ty: &Ty, attr: u16) -> bool {
        match ty {
            Ty::Atom(0) => !self.fault(129),
            Ty::Atom(9) => !self.fault(130),
            Ty::Rec(open, attrs) => (*open && !self.fault(131)) || find(attrs, attr).is_some(),
            Ty::Act(_, attrs) => find(attrs, attr).is_some() && !self.fault(132),
            Ty::Ent(names) => {
                let has = |n: &u16| match self.entry(schema, *n) {
                    Some(e) => (e.open && !self.fault(133)) || find(&e.attrs, attr).is_some(),
                    None => !self.fault(134),
                };
                match self.fault(135) {
                    true => names.iter().all(has),
                    false => names.iter().any(has),
                }
            }
            _ => false,
        }
    }

    /// The names, ascending; none where a step is over the size.
    pub fn names(self, schema: &Sch, ty: &Ty, limit: usize) -> Option<Vec<u16>> {
        let listed = |attrs: &[Attr]| attrs.iter().map(|a| a.name).collect::<Vec<u16>>();
        match ty {
            Ty::Rec(_, attrs) | Ty::Act(_, attrs) => Some(listed(attrs)),
            Ty::Ent(types) => {
                let first = types.first().and_then(|n| self.entry(schema, *n));
                let candidates = first.map(|e| listed(&e.attrs)).unwrap_or_default();
                let mode = self.or(229, Mode::Permissive, Mode::Loose);
                let mut names = Vec::new();
                for attr in candidates {
                    match self.fold_attr(mode, schema, types, attr, limit) {
                        Folded::TooLong if self.fault(136) => (),
                        Folded::TooLong => return None,
                        Folded::Found(required, _) if self.fault(137) && !required => (),
                        Folded::Found(..) => names.push(attr),
                        Folded::Absent if self.fault(138) => names.push(attr),
                        Folded::Absent => (),
                    }
                }
                Some(names)
            }
            _ => Some(Vec::new()),
        }
    }
}
