//! Forms with one byte or one rule broken.

use super::schemas::disturb;
use super::{Asked, Gen};
use crate::trees::{Ask, Attr, Ty, Val};

impl Gen {
    /// The bytes with one place damaged.
    pub fn damaged(&mut self, form: &[u8]) -> Vec<u8> {
        let mut form = form.to_vec();
        let at = self.rng.below(form.len().max(1));
        if form.is_empty() {
            form.push(self.rng.below(14) as u8);
            return form;
        }
        match self.rng.below(12) {
            0 => form.truncate(at),
            1 => form.push(*self.rng.pick(&[0, 4, 255])),
            2 => {
                form.remove(at);
            }
            3 => form.insert(at, self.rng.below(14) as u8),
            4 => form[at] = form[at].wrapping_add(1),
            5 => form[at] = form[at].wrapping_sub(1),
            6 => form[at] = self.rng.below(256) as u8,
            7 => form[at] ^= 1 << self.rng.below(8),
            8 => form[at] = 255,
            _ => form[at] = self.rng.below(14) as u8,
        }
        form
    }

    /// Break one rule of a type's form at some place.
    pub fn spoil_type(&mut self, ty: &mut Ty) {
        match ty {
            Ty::Atom(_) => *ty = self.spoiled_leaf(),
            Ty::Set(element) => self.spoil_type(element),
            Ty::Rec(_, attrs) | Ty::Act(_, attrs) if attrs.is_empty() => {
                *ty = self.spoiled_leaf();
            }
            Ty::Rec(_, attrs) | Ty::Act(_, attrs) => match self.rng.percent(60) {
                true => disturb(self, attrs),
                false => {
                    let at = self.rng.below(attrs.len());
                    self.spoil_type(&mut attrs[at].ty);
                }
            },
            Ty::Ent(names) => match self.rng.percent(20) {
                true => names.clear(),
                false => disturb(self, names),
            },
            Ty::Ext(_) => *ty = self.spoiled_leaf(),
        }
    }

    fn spoiled_leaf(&mut self) -> Ty {
        let attr = |name| Attr {
            name,
            required: true,
            ty: Ty::Atom(4),
        };
        match self.rng.below(6) {
            0 => Ty::Ent(Vec::new()),
            1 => Ty::Ent(vec![4, 2]),
            2 => Ty::Ent(vec![2, 2]),
            3 => Ty::Rec(false, vec![attr(1), attr(1)]),
            4 => Ty::Rec(false, vec![attr(256), attr(2)]),
            _ => Ty::Atom(*self.rng.pick(&[13, 14, 255])),
        }
    }

    /// Break the order of names in some record of a value.
    pub fn spoil_value(&mut self, value: &mut Val) {
        match value {
            Val::Rec(pairs) if !pairs.is_empty() => match self.rng.percent(60) {
                true => disturb(self, pairs),
                false => {
                    let at = self.rng.below(pairs.len());
                    self.spoil_value(&mut pairs[at].1);
                }
            },
            Val::Set(values) | Val::Call(_, values) if !values.is_empty() => {
                let at = self.rng.below(values.len());
                self.spoil_value(&mut values[at]);
            }
            _ => *value = Val::Rec(vec![(2, Val::Bool(true)), (1, Val::Bool(true))]),
        }
    }

    /// One form damaged at every place in turn, as the first or the second
    /// body of one operation.
    pub fn swept(&mut self) -> Asked {
        let tree = self.tiny_schema();
        let schema = tree.form();
        let ask = self.whole_ask(&tree);
        let second = !ask.t1.is_empty() && self.rng.percent(60);
        let length = if second { ask.t1.len() } else { ask.t0.len() };
        let start = self.rng.below(length.max(1));
        let mut asks = Vec::new();
        let mut bytes = schema.len() + 4;
        for at in (start..length).take(40) {
            let mut swept: Ask = ask.clone();
            let body = if second { &mut swept.t1 } else { &mut swept.t0 };
            body[at] = match self.rng.below(4) {
                0 => body[at].wrapping_add(1),
                1 => body[at].wrapping_sub(1),
                2 => body[at] ^ 128,
                _ => self.rng.below(14) as u8,
            };
            bytes += 8 + swept.t0.len() + swept.t1.len();
            if bytes > 32_000 {
                break;
            }
            asks.push(swept);
        }
        Asked { schema, asks }
    }
}
