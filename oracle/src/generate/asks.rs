//! Questions, one operation each.

use super::{Gen, ATTRS};
use crate::questions::operation::*;
use crate::trees::{list_form, Ask, Sch, Ty, Val};

impl Gen {
    /// One question; more often damaged where the schema is bad, so that the
    /// order of the questions shows.
    pub fn ask(&mut self, schema: &Sch, bad_schema: bool) -> Ask {
        let mut ask = self.whole_ask(schema);
        let percent = if bad_schema { 30 } else { 5 };
        if self.rng.percent(percent) {
            ask.t0 = self.damaged(&ask.t0);
        }
        if takes_second(ask.op) && self.rng.percent(percent) {
            ask.t1 = self.damaged(&ask.t1);
        }
        let takes_mode = matches!(ask.op, SUBTYPE | BOUND | FOLD);
        if takes_mode && self.rng.percent(percent / 2) {
            ask.mode = *self.rng.pick(&[3, 3, 4, 255]);
        }
        ask
    }

    /// One question with whole bodies, but for those that break a rule of the
    /// form on purpose.
    pub fn whole_ask(&mut self, schema: &Sch) -> Ask {
        let op = *self.rng.pick(&[
            SUBTYPE, SUBTYPE, BOUND, BOUND, BOUND, BOUND, BOUND, DISJOINT, LOOKUP, LOOKUP,
            MAY_HAVE, NAMES, CONSISTENT, CONSISTENT, CONVERT, CONFORMS, CONFORMS, CONFORMS,
            CONFORMS, FULL, FULL, FULL, FULL, FOLD, FOLD, FOLD, FOLD, LITERAL,
        ]);
        let mut ask = Ask {
            op,
            mode: 0,
            attr: 0,
            t0: Vec::new(),
            t1: Vec::new(),
        };
        match op {
            SUBTYPE | BOUND => {
                ask.mode = self.rng.mode();
                (ask.t0, ask.t1) = self.forms();
            }
            DISJOINT => (ask.t0, ask.t1) = self.entity_forms(),
            LOOKUP | MAY_HAVE | NAMES => self.attribute_ask(&mut ask),
            CONSISTENT => (ask.t0, ask.t1) = self.consistency_forms(),
            CONVERT => ask.t0 = self.convertible(),
            CONFORMS | FULL => (ask.t0, ask.t1) = self.conformance_forms(schema),
            FOLD => {
                ask.mode = self.rng.mode();
                ask.t0 = self.list();
            }
            _ => ask.t0 = self.literal(),
        }
        ask
    }

    /// A type's form; in some cases one that breaks a rule.
    pub fn form(&mut self, mut ty: Ty) -> Vec<u8> {
        if self.rng.percent(3) {
            self.spoil_type(&mut ty);
        }
        ty.form()
    }

    fn forms(&mut self) -> (Vec<u8>, Vec<u8>) {
        let (a, b) = self.pair();
        (self.form(a), self.form(b))
    }

    fn entity_forms(&mut self) -> (Vec<u8>, Vec<u8>) {
        if self.rng.percent(30) {
            return self.forms();
        }
        let a = self.entity_like();
        let b = self.entity_like();
        (self.form(a), self.form(b))
    }

    fn entity_like(&mut self) -> Ty {
        match self.rng.below(10) {
            0 => self.ty(2),
            1..=2 => Ty::Act(*self.rng.pick(super::ACTION_TYPES), self.attrs(1)),
            _ => Ty::Ent(self.entity_names()),
        }
    }

    fn attribute_ask(&mut self, ask: &mut Ask) {
        let ty = match self.rng.below(10) {
            0..=6 => Ty::Ent(self.entity_names()),
            7 => Ty::Rec(self.rng.percent(30), self.attrs(3)),
            8 => Ty::Act(*self.rng.pick(super::ACTION_TYPES), self.attrs(2)),
            _ => self.ty(3),
        };
        ask.t0 = self.form(ty);
        if ask.op != NAMES {
            ask.attr = *self.rng.pick(ATTRS);
        }
    }

    fn consistency_forms(&mut self) -> (Vec<u8>, Vec<u8>) {
        let (a, b) = self.pair();
        let b = match self.rng.percent(85) {
            true => plainly(&b),
            false => b,
        };
        (self.form(a), self.form(b))
    }

    fn convertible(&mut self) -> Vec<u8> {
        let ty = match self.rng.percent(10) {
            true => self.deep_type(),
            false => self.ty(4),
        };
        match self.rng.percent(40) {
            true => {
                let plain = plainly(&ty);
                let changed = self.mutated(&plain);
                self.form(changed)
            }
            false => self.form(ty),
        }
    }

    fn conformance_forms(&mut self, schema: &Sch) -> (Vec<u8>, Vec<u8>) {
        let (ty, mut value) = self.conformance(schema);
        if self.rng.percent(3) {
            self.spoil_value(&mut value);
        }
        (self.form(ty), value.form())
    }

    /// A type and a value, in some cases with a string that is not text.
    pub fn conformance(&mut self, schema: &Sch) -> (Ty, Val) {
        let (ty, mut value) = match self.rng.below(100) {
            0..=44 => self.called(schema),
            45..=89 => self.conforming(schema),
            _ => self.texted(schema),
        };
        if self.rng.percent(20) {
            self.plant_string(&mut value);
        }
        if self.rng.percent(20) {
            self.break_text(&mut value);
        }
        (ty, value)
    }

    /// A type, and a value that was made for it and then changed.
    fn conforming(&mut self, schema: &Sch) -> (Ty, Val) {
        let ty = match self.rng.below(20) {
            0 => self.deep_type(),
            1..=4 => Ty::Ext(*self.rng.pick(super::EXTENSIONS)),
            5..=9 => Ty::Rec(self.rng.percent(30), self.attrs(3)),
            _ => self.ty(4),
        };
        let (ty, mut value) = match self.rng.below(40) {
            0 => (ty, self.deep_value()),
            1 => match self.deep_call(schema) {
                Some(found) => found,
                None => (ty, self.value(3)),
            },
            _ => {
                let value = self.value_for(&ty, schema);
                (ty, value)
            }
        };
        for _ in 0..*self.rng.pick(&[0, 0, 1, 1, 2]) {
            self.mutate_value(&mut value);
        }
        (ty, value)
    }

    fn list(&mut self) -> Vec<u8> {
        let n = match self.rng.below(100) {
            0..=2 => self.rng.from(62, 66),
            3..=7 => self.rng.from(7, 20),
            _ => self.rng.below(6),
        };
        let types = match n <= 20 && self.rng.percent(30) {
            true => self.unlike_list(n.max(2)),
            false => self.like_list(n),
        };
        let forms: Vec<Vec<u8>> = types.into_iter().map(|ty| self.form(ty)).collect();
        list_form(&forms)
    }

    /// So many types changed from one.
    fn like_list(&mut self, n: usize) -> Vec<Ty> {
        let base = match n > 20 {
            true => self.ty(1),
            false => self.ty(3),
        };
        let mut types = Vec::new();
        for _ in 0..n {
            types.push(match self.rng.percent(60) {
                true => self.mutated(&base),
                false => base.clone(),
            });
        }
        types
    }

    fn literal(&mut self) -> Vec<u8> {
        let mut value = match self.rng.percent(8) {
            true => self.value(2),
            false => self.uid(),
        };
        if self.rng.percent(50) {
            self.break_text(&mut value);
        }
        value.form()
    }
}

fn takes_second(op: u8) -> bool {
    matches!(
        op,
        SUBTYPE | BOUND | DISJOINT | CONSISTENT | CONFORMS | FULL
    )
}

/// The type with every part that is not plain replaced by one that is.
pub fn plainly(ty: &Ty) -> Ty {
    match ty {
        Ty::Atom(0..=2) => Ty::Atom(3),
        Ty::Atom(9) => Ty::Ent(vec![2]),
        Ty::Set(element) => Ty::Set(Box::new(plainly(element))),
        Ty::Rec(open, attrs) => {
            let mut attrs = attrs.clone();
            attrs.iter_mut().for_each(|a| a.ty = plainly(&a.ty));
            Ty::Rec(*open, attrs)
        }
        Ty::Ent(names) => Ty::Ent(vec![names[0]]),
        Ty::Act(name, _) => Ty::Ent(vec![*name]),
        other => other.clone(),
    }
}

/// A value's form, for a uid.
pub fn uid_form(ty: u16, id: u16) -> Vec<u8> {
    Val::Uid(ty, id).form()
}
