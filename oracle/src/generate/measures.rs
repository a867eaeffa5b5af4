//! Forms to be measured: types and values of every number of levels up to one
//! more than allowed, of about as many bytes as allowed, and damaged ones.

use super::sizes::{ask, attr};
use super::Gen;
use crate::questions::operation::*;
use crate::trees::{Ask, Sch, Ty, Val};

impl Gen {
    /// One or two types and as many values.
    pub fn measures(&mut self) -> Vec<Ask> {
        let mut asks = Vec::new();
        for _ in 0..self.rng.from(1, 2) {
            let (ty, value) = (self.measured_type(), self.measured_value());
            for (op, form) in [(MEASURE_TYPE, ty), (MEASURE_VALUE, value)] {
                let form = match self.rng.percent(7) {
                    true => self.damaged(&form),
                    false => form,
                };
                asks.push(ask(op, 0, 0, form, Vec::new()));
            }
        }
        asks
    }

    /// How many levels: about the most, or any.
    fn measured_levels(&mut self) -> usize {
        match self.rng.percent(60) {
            true => self.level_edge(),
            false => self.rng.from(1, self.limits.levels),
        }
    }

    fn measured_type(&mut self) -> Vec<u8> {
        let ty = match self.rng.below(24) {
            0..=6 => self.ty(5),
            7..=14 => {
                let leaf = self.ty(1);
                let levels = self.measured_levels();
                self.below_holders(leaf, levels)
            }
            15..=16 => {
                let sets = self.measured_levels() - 1;
                let leaf = self.ty(2);
                chain(leaf, sets)
            }
            17..=20 => self.chains(),
            _ => {
                let length = self.edge();
                self.tree_of_length(length)
            }
        };
        self.form(ty)
    }

    /// Chains of sets of any lengths as the attributes of a record or an action:
    /// types that are as long as they are deep.
    fn chains(&mut self) -> Ty {
        let most = self.limits.levels;
        let attrs = (1..=self.rng.from(2, 6)).map(|name| {
            let leaf = self.ty(1);
            let sets = self.rng.below(most.min(6));
            attr(name as u16, self.rng.percent(50), chain(leaf, sets))
        });
        let attrs = attrs.collect();
        match self.rng.percent(50) {
            true => Ty::Rec(false, attrs),
            false => Ty::Set(Box::new(Ty::Act(3, attrs))),
        }
    }

    /// Values of any levels side by side.
    fn nests(&mut self) -> Val {
        let most = self.limits.levels;
        let values = (0..self.rng.from(2, 5)).map(|_| {
            let (leaf, holders) = (self.leaf(), self.rng.below(most.min(6)));
            self.nest(leaf, holders)
        });
        let values: Vec<Val> = values.collect();
        match self.rng.below(3) {
            0 => Val::Set(values),
            1 => Val::Rec((1..).zip(values).collect()),
            _ => Val::Call(5, values),
        }
    }

    fn measured_value(&mut self) -> Vec<u8> {
        let mut value = match self.rng.below(24) {
            0..=7 => self.value(5),
            8..=15 => {
                let (leaf, holders) = (self.leaf(), self.measured_levels() - 1);
                self.nest(leaf, holders)
            }
            16..=17 => self.texted(&Sch::default()).1,
            18..=21 => self.nests(),
            _ => {
                let length = self.edge();
                self.value_of_length(length)
            }
        };
        if self.rng.percent(20) {
            self.plant_string(&mut value);
        }
        if self.rng.percent(25) {
            self.break_text(&mut value);
        }
        if self.rng.percent(3) {
            self.spoil_value(&mut value);
        }
        value.form()
    }

    /// A string of so many bytes, in some cases in a set.
    fn value_of_length(&mut self, length: usize) -> Val {
        match self.rng.percent(50) {
            true => Val::Str(self.text_of(length - 3)),
            false => Val::Set(vec![Val::Str(self.text_of(length - 8))]),
        }
    }
}

/// A type in so many sets.
pub fn chain(leaf: Ty, sets: usize) -> Ty {
    (0..sets).fold(leaf, |ty, _| Ty::Set(Box::new(ty)))
}
