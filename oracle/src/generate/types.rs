//! Types, and types related to them.

use super::{Gen, ACTION_TYPES, ATTRS, ENTITIES, EXTENSIONS};
use crate::trees::{Attr, Ty};

impl Gen {
    /// A type of at most `levels` levels, and no more than the limits have.
    pub fn ty(&mut self, levels: usize) -> Ty {
        let levels = levels.min(self.limits.levels);
        let composite = if levels > 1 { 100 } else { 55 };
        match self.rng.below(composite) {
            n @ 0..=27 => Ty::Atom((n / 4) as u8),
            28..=31 => Ty::Atom(9),
            32..=46 => Ty::Ent(self.entity_names()),
            47..=54 => Ty::Ext(*self.rng.pick(EXTENSIONS)),
            55..=66 => Ty::Set(Box::new(self.ty(levels - 1))),
            67 if self.rng.percent(20) => Ty::Rec(self.rng.percent(30), self.wide_attrs()),
            67..=89 => {
                let open = self.rng.percent(30);
                Ty::Rec(open, self.attrs(levels - 1))
            }
            _ => Ty::Act(self.action_name(), self.attrs(levels - 1)),
        }
    }

    /// Mostly odd, as an action's name should be.
    fn action_name(&mut self) -> u16 {
        match self.rng.percent(10) {
            true => *self.rng.pick(ENTITIES),
            false => *self.rng.pick(ACTION_TYPES),
        }
    }

    /// One to four names, ascending; in some cases an action type among them.
    pub fn entity_names(&mut self) -> Vec<u16> {
        let mut names = vec![*self.rng.pick(ENTITIES)];
        let percent = *self.rng.pick(&[40, 40, 40, 80]);
        while self.rng.percent(percent) {
            names.push(*self.rng.pick(ENTITIES));
        }
        if self.rng.percent(8) {
            names.push(*self.rng.pick(ACTION_TYPES));
        }
        names.sort_unstable();
        names.dedup();
        names
    }

    /// Attributes with ascending names; none where no level is left for them.
    pub fn attrs(&mut self, levels: usize) -> Vec<Attr> {
        let levels = levels.min(self.limits.levels - 1);
        if levels == 0 {
            return Vec::new();
        }
        let percent = *self.rng.pick(&[5, 20, 35, 35, 70]);
        let mut attrs = Vec::new();
        for name in ATTRS {
            if self.rng.percent(percent) {
                attrs.push(Attr {
                    name: *name,
                    required: self.rng.percent(65),
                    ty: self.ty(levels.min(3)),
                });
            }
        }
        attrs
    }

    /// Twenty to sixty attributes, so that lengths and counts pass one byte.
    pub fn wide_attrs(&mut self) -> Vec<Attr> {
        let step = self.rng.from(1, 9);
        let mut attrs = Vec::new();
        let mut name = self.rng.below(300);
        for _ in 0..self.rng.from(20, 60) {
            attrs.push(Attr {
                name: name as u16,
                required: self.rng.percent(65),
                ty: self.ty(1),
            });
            name += self.rng.from(1, step);
        }
        attrs
    }

    /// Two related types below the same holders, about as many as there are
    /// levels, but for a flag here and there.
    fn deep_pair(&mut self) -> (Ty, Ty) {
        let (mut a, mut b) = self.pair_from(2);
        let most = self.limits.levels;
        for _ in 0..self.rng.from(most.saturating_sub(6), most) {
            (a, b) = self.held(a, b);
        }
        (a, b)
    }

    /// Both below a set, an attribute or an action's attribute, with a flag
    /// turned here and there.
    pub fn held(&mut self, a: Ty, b: Ty) -> (Ty, Ty) {
        let (name, required) = (*self.rng.pick(ATTRS), self.rng.percent(60));
        let flipped = required != self.rng.percent(2);
        let attr = |required, ty: Ty| vec![Attr { name, required, ty }];
        match self.rng.below(12) {
            0..=5 => (Ty::Set(Box::new(a)), Ty::Set(Box::new(b))),
            6..=9 => {
                let open = self.rng.percent(20);
                let other = open != self.rng.percent(3);
                let (lower, upper) = (attr(required, a), attr(flipped, b));
                (Ty::Rec(open, lower), Ty::Rec(other, upper))
            }
            _ => {
                let (lower, upper) = (attr(required, a), attr(flipped, b));
                (Ty::Act(3, lower), Ty::Act(3, upper))
            }
        }
    }

    /// Two types that are often in relation.
    pub fn pair(&mut self) -> (Ty, Ty) {
        match self.rng.below(100) {
            0..=7 => self.deep_pair(),
            8..=27 => self.unlike_sets(),
            _ => self.pair_from(4),
        }
    }

    fn pair_from(&mut self, levels: usize) -> (Ty, Ty) {
        let base = self.ty(levels);
        let (mut a, mut b) = (base.clone(), base);
        for _ in 0..self.rng.below(3) {
            a = self.mutated(&a);
        }
        for _ in 0..self.rng.below(3) {
            b = self.mutated(&b);
        }
        if self.rng.percent(5) {
            b = self.ty(3);
        }
        (a, b)
    }

    /// A type of three levels less than the most to two more.
    pub fn deep_type(&mut self) -> Ty {
        let most = self.limits.levels;
        let ty = self.ty(2);
        let levels = self.rng.from(most.saturating_sub(3), most + 2);
        self.below_holders(ty, levels)
    }

    /// The type below so many holders that it has so many levels.
    pub fn below_holders(&mut self, mut ty: Ty, levels: usize) -> Ty {
        while ty.levels() < levels {
            ty = match self.rng.below(10) {
                0..=4 => Ty::Set(Box::new(ty)),
                5..=8 => Ty::Rec(self.rng.percent(30), self.around(ty)),
                _ => Ty::Act(self.action_name(), self.around(ty)),
            };
        }
        ty
    }

    /// A list of attributes that holds the type.
    fn around(&mut self, ty: Ty) -> Vec<Attr> {
        let mut attrs = match self.rng.percent(20) {
            true => self.attrs(1),
            false => Vec::new(),
        };
        let name = *self.rng.pick(ATTRS);
        attrs.retain(|a| a.name != name);
        attrs.push(Attr {
            name,
            required: self.rng.percent(60),
            ty,
        });
        attrs.sort_by_key(|a| a.name);
        attrs
    }

    /// The type with one place changed.
    pub fn mutated(&mut self, ty: &Ty) -> Ty {
        let mut ty = ty.clone();
        self.mutate(&mut ty);
        ty
    }

    fn mutate(&mut self, ty: &mut Ty) {
        if self.rng.percent(4) {
            *ty = self.ty(2);
            return;
        }
        match ty {
            Ty::Atom(kind) => *ty = self.mutated_atom(*kind),
            Ty::Set(element) => match self.rng.below(12) {
                0 => *ty = Ty::Atom(6),
                1 => *ty = (**element).clone(),
                _ => self.mutate(element),
            },
            Ty::Rec(open, attrs) => match self.rng.below(10) {
                0..=1 => *open = !*open,
                _ => self.mutate_attrs(attrs),
            },
            Ty::Ent(names) => *ty = self.mutated_entity(names.clone()),
            Ty::Act(name, attrs) => match self.rng.below(10) {
                0..=1 => *name = self.action_name(),
                2 => *ty = Ty::Atom(9),
                3 => *ty = Ty::Ent(vec![*name]),
                _ => self.mutate_attrs(attrs),
            },
            Ty::Ext(name) => *name = *self.rng.pick(EXTENSIONS),
        }
    }

    fn mutated_atom(&mut self, kind: u8) -> Ty {
        match kind {
            0..=3 => Ty::Atom(self.rng.below(4) as u8),
            6 => Ty::Set(Box::new(self.ty(2))),
            9 => Ty::Ent(self.entity_names()),
            _ => self.ty(1),
        }
    }

    fn mutated_entity(&mut self, mut names: Vec<u16>) -> Ty {
        match self.rng.below(10) {
            0 => return Ty::Atom(9),
            1 => return Ty::Act(names[0], Vec::new()),
            2..=4 if names.len() > 1 => {
                names.remove(self.rng.below(names.len()));
            }
            _ => names.push(*self.rng.pick(ENTITIES)),
        }
        names.sort_unstable();
        names.dedup();
        Ty::Ent(names)
    }

    fn mutate_attrs(&mut self, attrs: &mut Vec<Attr>) {
        if attrs.is_empty() || self.rng.percent(12) {
            let fresh = self.ty(2);
            *attrs = {
                let mut more = self.around(fresh);
                more.retain(|m| attrs.iter().all(|a| a.name != m.name));
                attrs.append(&mut more);
                attrs.sort_by_key(|a| a.name);
                std::mem::take(attrs)
            };
            return;
        }
        let at = self.rng.below(attrs.len());
        match self.rng.below(10) {
            0 => {
                attrs.remove(at);
            }
            1..=3 => attrs[at].required = !attrs[at].required,
            _ => self.mutate(&mut attrs[at].ty),
        }
    }
}
