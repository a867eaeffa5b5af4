//! Sets whose elements have no bound, in types and lists around them.

use super::{Gen, ATTRS, ENTITIES};
use crate::trees::{Attr, Ty};

fn set(element: Ty) -> Ty {
    Ty::Set(Box::new(element))
}

impl Gen {
    /// Two sets of unlike elements, below up to three holders.
    pub fn unlike_sets(&mut self) -> (Ty, Ty) {
        let (a, b) = self.unlike();
        let (mut a, mut b) = (set(a), set(b));
        for _ in 0..*self.rng.pick(&[0, 0, 0, 1, 1, 1, 2, 3]) {
            (a, b) = self.held(a, b);
        }
        match self.rng.below(10) {
            0 => a = self.mutated(&a),
            1 => b = self.mutated(&b),
            _ => (),
        }
        (a, b)
    }

    /// Two types that mostly have no bound.
    fn unlike(&mut self) -> (Ty, Ty) {
        match self.rng.below(20) {
            0..=7 => (self.ty(1), self.ty(1)),
            8..=9 => (self.ty(3), self.ty(3)),
            10..=11 => {
                let record = Ty::Rec(self.rng.percent(30), self.attrs(1));
                let entity = match self.rng.percent(30) {
                    true => Ty::Act(3, self.attrs(1)),
                    false => Ty::Ent(self.entity_names()),
                };
                (record, entity)
            }
            12..=17 => self.unlike_actions(),
            18 => (set(self.ty(2)), self.ty(1)),
            _ => {
                let (a, b) = self.unlike();
                (set(a), set(b))
            }
        }
    }

    /// Two actions of one name, unlike in one attribute: its name, its flag,
    /// its type.
    fn unlike_actions(&mut self) -> (Ty, Ty) {
        let (name, at) = (*self.rng.pick(&[1, 3, 65535]), *self.rng.pick(ATTRS));
        let entity = |gen: &mut Gen| Ty::Ent(vec![*gen.rng.pick(ENTITIES)]);
        let mut x = self.ty(1);
        let mut y = x.clone();
        let (mut flag, mut other) = (true, at);
        match self.rng.below(6) {
            0 => other = *self.rng.pick(ATTRS),
            1 => flag = false,
            2 => (x, y) = (entity(self), entity(self)),
            3 => (x, y) = (set(self.ty(1)), set(self.ty(1))),
            4 => (x, y) = (set(entity(self)), set(entity(self))),
            _ => y = self.ty(1),
        }
        let attr = |name, required, ty| Attr { name, required, ty };
        let mut attrs = self.attrs(1);
        attrs.retain(|a| a.name != at && a.name != other);
        let action = |own: Attr| {
            let mut attrs = attrs.clone();
            attrs.push(own);
            attrs.sort_by_key(|a| a.name);
            Ty::Act(name, attrs)
        };
        (action(attr(at, true, x)), action(attr(other, flag, y)))
    }

    /// So many types around two that hold unlike sets.
    pub fn unlike_list(&mut self, n: usize) -> Vec<Ty> {
        let (a, b) = self.unlike_sets();
        let mut types = Vec::new();
        for _ in 0..n {
            types.push(match self.rng.below(16) {
                0..=5 => a.clone(),
                6..=11 => b.clone(),
                12 => self.mutated(&a),
                13 => self.mutated(&b),
                14 => Ty::Atom(0),
                _ => Ty::Atom(6),
            });
        }
        types
    }
}
