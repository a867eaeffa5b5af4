//! Forms around every size and count.

use super::asks::uid_form;
use super::{Asked, Gen, ATTRS};
use crate::limits::Limits;
use crate::questions::operation::*;
use crate::trees::{list_form, ActionEntry, Ask, Attr, EntityEntry, FunctionEntry, Sch, Ty, Val};

pub fn ask(op: u8, mode: u8, attr: u16, t0: Vec<u8>, t1: Vec<u8>) -> Ask {
    Ask {
        op,
        mode,
        attr,
        t0,
        t1,
    }
}

/// So many even names, ascending from a place.
pub fn names(start: usize, count: usize) -> Vec<u16> {
    (start..start + count).map(|n| 2 * n as u16).collect()
}

pub fn attr(name: u16, required: bool, ty: Ty) -> Attr {
    Attr { name, required, ty }
}

impl Gen {
    /// A whole type form of exactly that length; from 5 on it is sets, records
    /// or unions.
    pub fn type_of_length(&mut self, length: usize) -> Vec<u8> {
        self.tree_of_length(length).form()
    }

    pub fn tree_of_length(&mut self, length: usize) -> Ty {
        match length {
            0 | 1 => Ty::Atom(4),
            2 => Ty::Set(Box::new(Ty::Atom(4))),
            3 => Ty::Ext(7),
            _ if length >= 14 && self.rng.percent(30) => Ty::Rec(
                self.rng.percent(30),
                vec![attr(
                    1,
                    self.rng.percent(60),
                    union_of_length(length - 9, 0),
                )],
            ),
            _ => union_of_length(length, 0),
        }
    }

    /// A length around the largest of a form.
    pub fn edge(&mut self) -> usize {
        let most = self.limits.bytes;
        match self.rng.percent(40) {
            true => self.rng.from(most, most + 1),
            false => self.rng.from(most - 3, most + 3),
        }
    }

    /// A number that is drawn for the standard form length, for this one.
    fn scaled(&self, n: usize) -> usize {
        n * self.limits.bytes / Limits::STANDARD.bytes
    }

    /// Few large questions.
    pub fn sized(&mut self) -> Asked {
        let kind = self.rng.below(8);
        self.sized_by(kind)
    }

    /// One kind of them; those from 8 on are no job's.
    pub fn sized_by(&mut self, kind: usize) -> Asked {
        let mut schema = Sch::default();
        let mut asks = Vec::new();
        match kind {
            0 => self.sized_forms(&mut asks),
            1 => self.sized_values(&mut asks),
            2 => self.sized_bounds(&mut asks),
            3 => self.sized_folds(&mut asks),
            4 | 5 => self.sized_attributes(&mut schema, &mut asks),
            6 => self.sized_literals(&mut schema, &mut asks),
            7 => self.sized_list(&mut asks),
            8 => self.sized_members(&mut asks),
            9 => self.sized_bodies(&mut schema, &mut asks),
            10 => self.sized_arguments(&mut schema, &mut asks),
            _ => self.sized_chains(&mut asks),
        }
        let schema = schema.form();
        Asked { schema, asks }
    }

    fn sized_forms(&mut self, asks: &mut Vec<Ask>) {
        let length = self.edge();
        let small = vec![4];
        let form = self.type_of_length(length);
        let mode = self.rng.mode();
        asks.push(ask(SUBTYPE, mode, 0, form.clone(), form.clone()));
        asks.push(ask(BOUND, mode, 0, vec![0], form.clone()));
        asks.push(ask(DISJOINT, 0, 0, small.clone(), form.clone()));
        asks.push(ask(CONVERT, 0, 0, form, Vec::new()));
    }

    fn sized_values(&mut self, asks: &mut Vec<Ask>) {
        let length = self.edge();
        let string = Val::Str(self.sized_text(length - 3)).form();
        asks.push(ask(CONFORMS, 0, 0, vec![5], string.clone()));
        asks.push(ask(FULL, 0, 0, vec![5], string));
        let set = Val::Set(vec![Val::Str(self.sized_text(length - 8))]).form();
        asks.push(ask(CONFORMS, 0, 0, vec![7, 5], set.clone()));
        asks.push(ask(LITERAL, 0, 0, set, Vec::new()));
    }

    /// So many bytes that are text, or are not.
    fn sized_text(&mut self, length: usize) -> Vec<u8> {
        match self.rng.percent(60) {
            true => self.text_of(length),
            false => self.broken_text_of(length),
        }
    }

    /// Two unions whose union has so many names, below so many sets.
    fn unions(&mut self) -> (Ty, Ty) {
        let most = self.limits.bytes;
        let total = self.rng.from((most - 8) / 2, (most + 2) / 2);
        let left = self.rng.from(5, most / 2 - 8);
        let overlap = self.rng.below(left.min(total - left)).min(3);
        let a = Ty::Ent(names(0, left));
        let b = Ty::Ent(names(left - overlap, total - left + overlap));
        let (mut a, mut b) = match self.rng.percent(50) {
            true => (a, b),
            false => (b, a),
        };
        for _ in 0..self.rng.below(4) {
            a = Ty::Set(Box::new(a));
            b = Ty::Set(Box::new(b));
        }
        (a, b)
    }

    /// Two records whose strict bound is longer than each; in some cases with
    /// unlike sets, so that the loose one is.
    fn crossed(&mut self) -> (Ty, Ty) {
        let unlike = self.rng.percent(40);
        let total = self.edge() - if unlike { 6 } else { 0 };
        let left = self.rng.from(600, 3500);
        let left = self.scaled(left).min(total - 19);
        let big = union_of_length(left, 0);
        let other = union_of_length(total - 14 - left, 0);
        let required = self.rng.percent(50);
        let record = |x: Ty, y: Ty, element: u8| {
            let mut attrs = vec![attr(1, required, x), attr(2, true, y)];
            if unlike {
                attrs.push(attr(3, true, Ty::Set(Box::new(Ty::Atom(element)))));
            }
            Ty::Rec(false, attrs)
        };
        (
            record(Ty::Atom(0), big.clone(), 4),
            record(other, Ty::Atom(0), 5),
        )
    }

    fn sized_bounds(&mut self, asks: &mut Vec<Ask>) {
        let (a, b) = self.unions();
        for mode in 0..3 {
            asks.push(ask(BOUND, mode, 0, a.form(), b.form()));
        }
        let (a, b) = self.crossed();
        let mode = self.rng.mode();
        asks.push(ask(BOUND, mode, 0, a.form(), b.form()));
    }

    fn sized_folds(&mut self, asks: &mut Vec<Ask>) {
        for _ in 0..2 {
            let (a, b) = self.unions();
            let mut list = vec![a.form(), b.form()];
            let other = self.ty(2).form();
            let at = self.rng.below(3);
            list.insert(at, other);
            if self.rng.percent(50) {
                list.remove(at);
            }
            let mode = self.rng.from(1, 2) as u8;
            asks.push(ask(FOLD, mode, 0, list_form(&list), Vec::new()));
        }
        let (a, b) = self.crossed();
        let list = list_form(&[a.form(), b.form()]);
        asks.push(ask(FOLD, self.rng.mode(), 0, list, Vec::new()));
    }

    /// Entity types whose shared attribute has a bound around the size.
    fn sized_attributes(&mut self, schema: &mut Sch, asks: &mut Vec<Ask>) {
        let (a, b) = self.unions();
        let third = match self.rng.below(3) {
            0 => None,
            1 => Some(b.clone()),
            _ => Some(Ty::Atom(4)),
        };
        let bodies = [Some(a), Some(b), third];
        for (at, body) in bodies.into_iter().enumerate() {
            let mut attrs = vec![attr(1, self.rng.percent(50), Ty::Atom(4))];
            if let Some(ty) = body {
                attrs.push(attr(3, self.rng.percent(50), ty));
            }
            schema.entities.push(EntityEntry {
                name: 2 * at as u16,
                enumerated: self.rng.percent(20),
                open: false,
                attrs,
            });
        }
        if self.rng.percent(30) {
            schema.entities.remove(2);
        }
        let union = |n: usize| Ty::Ent(names(0, n)).form();
        for n in 1..=3 {
            asks.push(ask(LOOKUP, 0, 3, union(n), Vec::new()));
            asks.push(ask(LOOKUP, 0, *self.rng.pick(ATTRS), union(n), Vec::new()));
            asks.push(ask(NAMES, 0, 0, union(n), Vec::new()));
            asks.push(ask(MAY_HAVE, 0, 3, union(n), Vec::new()));
        }
    }

    /// Action bodies around the largest: the literal is one byte longer.
    fn sized_literals(&mut self, schema: &mut Sch, asks: &mut Vec<Ask>) {
        for id in 0..3 {
            let most = self.limits.bytes;
            let length = self
                .rng
                .from(most - 3, most + self.rng.clone().below(20) / 19);
            schema.actions.push(ActionEntry {
                ty: 1,
                id,
                attrs: vec![attr(2, true, union_of_length(length - 9, 0))],
            });
            asks.push(ask(LITERAL, 0, 0, uid_form(1, id), Vec::new()));
        }
    }

    /// A list of many bytes.
    fn sized_list(&mut self, asks: &mut Vec<Ask>) {
        let n = self.rng.from(2, 7);
        let types: Vec<Vec<u8>> = (0..n)
            .map(|at| {
                let count = self.rng.from(20, 300);
                Ty::Ent(names(at * 280, self.scaled(count).max(1))).form()
            })
            .collect();
        let mode = self.rng.mode();
        asks.push(ask(FOLD, mode, 0, list_form(&types), Vec::new()));
    }

    /// Members of a list around the largest, in some cases many of them.
    fn sized_members(&mut self, asks: &mut Vec<Ask>) {
        let few = self.rng.percent(60);
        let most = if few { 3 } else { 12 };
        for mode in 0..3 {
            let count = self.rng.from(1, most);
            let length = self.edge();
            let mut list = vec![union_of_length(self.limits.bytes, 0).form(); count];
            list[count - 1] = self.type_of_length(length);
            asks.push(ask(FOLD, mode, 0, list_form(&list), Vec::new()));
        }
    }

    /// Bodies of a schema around the largest, of one entity type or action.
    fn sized_bodies(&mut self, schema: &mut Sch, asks: &mut Vec<Ask>) {
        let body = union_of_length(self.edge() - 9, 0);
        let attrs = vec![attr(1, self.rng.percent(50), body)];
        self.hold(schema, attrs, asks);
    }

    /// A schema with one such body, and questions that find it.
    pub fn hold(&mut self, schema: &mut Sch, attrs: Vec<Attr>, asks: &mut Vec<Ask>) {
        match self.rng.percent(50) {
            true => schema.entities.push(EntityEntry {
                name: 2,
                enumerated: self.rng.percent(20),
                open: false,
                attrs,
            }),
            false => schema.actions.push(ActionEntry {
                ty: 1,
                id: 0,
                attrs,
            }),
        }
        let entity = Ty::Ent(vec![2]).form();
        for op in [LOOKUP, MAY_HAVE, NAMES] {
            let name = if op == NAMES { 0 } else { 1 };
            asks.push(ask(op, 0, name, entity.clone(), Vec::new()));
        }
        asks.push(ask(SUBTYPE, self.rng.mode(), 0, vec![1], vec![3]));
        asks.push(ask(LITERAL, 0, 0, uid_form(1, 0), Vec::new()));
        asks.push(ask(CONFORMS, 0, 0, entity.clone(), uid_form(2, 0)));
        asks.push(ask(FULL, 0, 0, entity, uid_form(2, 0)));
    }

    /// A function whose arguments have about as many bytes as a form may have:
    /// no limit is theirs.
    fn sized_arguments(&mut self, schema: &mut Sch, asks: &mut Vec<Ask>) {
        let count = self.limits.bytes / 3 + self.rng.below(3);
        schema.functions.push(FunctionEntry {
            args: vec![(1, 0); count],
            ..counted_function(5)
        });
        for arg in [Val::Bool(true), Val::Str(Vec::new())] {
            let call = Val::Call(5, vec![arg]).form();
            asks.push(ask(CONFORMS, 0, 0, Ty::Ext(7).form(), call));
        }
        self.sized_calls(schema, asks);
    }

    /// A function of about as many arguments as a value has room for, with one
    /// less and one more.
    fn sized_calls(&mut self, schema: &mut Sch, asks: &mut Vec<Ask>) {
        let declared = (self.limits.bytes - 5) / 3 - self.rng.below(2);
        schema.functions.push(FunctionEntry {
            args: vec![(1, 0); declared],
            ..counted_function(6)
        });
        for given in declared - 1..=declared + 1 {
            let call = Val::Call(6, vec![Val::Bool(true); given]).form();
            asks.push(ask(FULL, 0, 0, Ty::Ext(7).form(), call));
        }
    }

    /// Long forms below as many sets as there are levels for, and one more.
    fn sized_chains(&mut self, asks: &mut Vec<Ask>) {
        for _ in 0..2 {
            let sets = self.limits.levels - self.rng.below(2);
            let length = self.edge().max(sets + 5);
            let odd = length - sets - (length - sets + 1) % 2;
            let mut form = vec![7; length - odd];
            form.extend(union_of_length(odd, 0).form());
            asks.push(ask(CONVERT, 0, 0, form.clone(), Vec::new()));
            asks.push(ask(BOUND, self.rng.mode(), 0, form.clone(), vec![0]));
            asks.push(ask(CONSISTENT, 0, 0, vec![6], form));
        }
    }

    /// Entries and types as many as allowed, and one more.
    pub fn counted(&mut self) -> Asked {
        let mut schema = Sch::default();
        let mut asks = Vec::new();
        match self.rng.below(4) {
            0 => {
                let n = self.rng.from(255, 257);
                schema.entities = (0..n).map(|at| self.counted_entity(at)).collect();
            }
            1 => {
                let n = self.rng.from(255, 257);
                schema.actions = (0..n).map(counted_action).collect();
            }
            2 => {
                let n = self.rng.from(63, 65);
                schema.functions = (0..n).map(counted_function).collect();
            }
            _ => {
                let n = self.rng.from(63, 65);
                let list = list_form(&vec![vec![4]; n]);
                asks.push(ask(FOLD, 0, 0, list, Vec::new()));
            }
        }
        let at = self.rng.below(260) as u16;
        asks.push(ask(LITERAL, 0, 0, uid_form(2 * at, 0), Vec::new()));
        asks.push(ask(LITERAL, 0, 0, uid_form(1, at), Vec::new()));
        asks.push(ask(LOOKUP, 0, 1, Ty::Ent(names(0, 256)).form(), Vec::new()));
        asks.push(ask(NAMES, 0, 0, Ty::Ent(names(3, 200)).form(), Vec::new()));
        let call = Val::Call(at / 4, Vec::new()).form();
        asks.push(ask(CONFORMS, 0, 0, vec![12, 7, 0], call.clone()));
        asks.push(ask(FULL, 0, 0, vec![12, 7, 0], call));
        let schema = schema.form();
        Asked { schema, asks }
    }

    /// A schema of so many entity types and actions, and so many functions.
    pub fn schema_of_counts(&mut self, entries: usize, functions: usize) -> Sch {
        Sch {
            entities: (0..entries).map(|at| self.counted_entity(at)).collect(),
            actions: (0..entries).map(counted_action).collect(),
            functions: (0..functions).map(counted_function).collect(),
        }
    }

    fn counted_entity(&mut self, at: usize) -> EntityEntry {
        EntityEntry {
            name: 2 * at as u16,
            enumerated: at % 2 == 0,
            open: false,
            attrs: match self.limits.levels {
                1 => Vec::new(),
                _ => vec![attr(1, true, Ty::Atom(4))],
            },
        }
    }

    /// A schema and a list of 32,766 to 32,770 bytes, for calls outside jobs.
    pub fn large_blocks(&mut self) -> (Vec<u8>, Vec<u8>) {
        let target = self.rng.from(32_766, 32_770);
        let schema = self.large_schema(Sch::default(), target);
        let mut types = Vec::new();
        let mut left = target - 2;
        while left > 0 {
            let length = self.chunk(left);
            types.push(union_of_length(length - 2, 0).form());
            left -= length;
        }
        (schema, list_form(&types))
    }

    /// A schema of no entity type with so many put in that it has that length.
    pub fn large_schema(&self, mut schema: Sch, length: usize) -> Vec<u8> {
        let mut left = length - schema.form().len();
        while left > 0 {
            let length = self.chunk(left);
            let body = union_of_length(length - 14, 0);
            schema.entities.push(EntityEntry {
                name: 2 * schema.entities.len() as u16,
                enumerated: false,
                open: false,
                attrs: vec![attr(1, true, body)],
            });
            left -= length;
        }
        schema.form()
    }

    /// How much of what is left one entry takes: never so much that less than
    /// 100 bytes stay.
    fn chunk(&self, left: usize) -> usize {
        let most = self.limits.bytes - 96;
        match left {
            n if n <= most => left,
            n if n <= most + 100 => left - most / 2,
            _ => most,
        }
    }
}

/// A union of exactly that length, below a set if the length is even.
pub fn union_of_length(length: usize, start: usize) -> Ty {
    match length {
        0 | 1 => Ty::Atom(4),
        2 => Ty::Set(Box::new(Ty::Atom(4))),
        3 => Ty::Ext(7),
        4 => Ty::Set(Box::new(Ty::Ext(7))),
        n if n & 1 == 1 => Ty::Ent(names(start, (n - 3) / 2)),
        n => Ty::Set(Box::new(Ty::Ent(names(start, (n - 4) / 2)))),
    }
}

pub fn counted_action(at: usize) -> ActionEntry {
    ActionEntry {
        ty: 1,
        id: at as u16,
        attrs: Vec::new(),
    }
}

pub fn counted_function(at: usize) -> FunctionEntry {
    FunctionEntry {
        name: at as u16,
        returns: Some(7),
        args: Vec::new(),
    }
}
