//! Schemas.

use super::{Gen, ACTION_TYPES, ATTRS, ENTITIES, EXTENSIONS, FUNCTIONS};
use crate::limits::Limits;
use crate::trees::{ActionEntry, Attr, EntityEntry, FunctionEntry, Sch, Ty};

impl Gen {
    /// A small whole schema whose entity types have related attributes.
    pub fn schema(&mut self) -> Sch {
        let base = match self.rng.percent(3) {
            true => self.wide_attrs(),
            false => self.attrs(3),
        };
        let mut schema = Sch::default();
        for name in ENTITIES {
            if self.rng.percent(65) {
                schema.entities.push(self.entity_entry(*name, &base));
            }
        }
        for ty in ACTION_TYPES {
            for id in [0, 1, 65535] {
                if self.rng.percent(25) {
                    schema.actions.push(self.action_entry(*ty, id));
                }
            }
        }
        for name in FUNCTIONS {
            if self.rng.percent(60) {
                schema.functions.push(self.function_entry(*name));
            }
        }
        if self.limits != Limits::STANDARD && self.rng.percent(90) {
            fit(&mut schema, self.limits);
        }
        schema
    }

    fn entity_entry(&mut self, name: u16, base: &[Attr]) -> EntityEntry {
        let mut attrs = base.to_vec();
        for _ in 0..self.rng.below(3) {
            let Ty::Rec(_, changed) = self.mutated_record(&attrs) else {
                continue;
            };
            attrs = changed;
        }
        for a in &mut attrs {
            if matches!(a.ty, Ty::Set(_)) && self.rng.percent(30) {
                a.ty = Ty::Set(Box::new(self.ty(1)));
            }
        }
        let enumerated = self.rng.percent(15);
        EntityEntry {
            name,
            enumerated,
            open: !enumerated && self.rng.percent(20),
            attrs,
        }
    }

    fn mutated_record(&mut self, attrs: &[Attr]) -> Ty {
        self.mutated(&Ty::Rec(false, attrs.to_vec()))
    }

    fn action_entry(&mut self, ty: u16, id: u16) -> ActionEntry {
        let attrs = match self.rng.percent(50) {
            true => Vec::new(),
            false => self.attrs(2),
        };
        ActionEntry { ty, id, attrs }
    }

    fn function_entry(&mut self, name: u16) -> FunctionEntry {
        let returns = match self.rng.percent(85) {
            true => Some(*self.rng.pick(EXTENSIONS)),
            false => None,
        };
        let args = (0..self.rng.below(4)).map(|_| self.argument()).collect();
        FunctionEntry {
            name,
            returns,
            args,
        }
    }

    fn argument(&mut self) -> (u8, u16) {
        match self.rng.from(1, 5) as u8 {
            kind @ 1..=3 => (kind, 0),
            _ => (4, *self.rng.pick(EXTENSIONS)),
        }
    }

    /// Break one rule of the form.
    pub fn spoil_schema(&mut self, schema: &mut Sch) {
        match self.rng.below(14) {
            0 => disturb(self, &mut schema.entities),
            1 => disturb(self, &mut schema.actions),
            2 => disturb(self, &mut schema.functions),
            3 => self.spoil_entity(schema),
            4 => {
                let entry = self.function_entry(9);
                schema.functions.insert(0, entry);
            }
            5 => {
                let entry = self.action_entry(*self.rng.clone().pick(ENTITIES), 0);
                schema.actions.insert(0, entry);
                schema.actions.sort_by_key(|a| (a.ty, a.id));
            }
            6..=7 => self.spoil_argument(schema),
            8..=11 => self.spoil_body(schema),
            _ => {
                let entry = self.entity_entry(*self.rng.clone().pick(ACTION_TYPES), &[]);
                schema.entities.push(entry);
                schema.entities.sort_by_key(|e| e.name);
            }
        }
    }

    fn spoil_entity(&mut self, schema: &mut Sch) {
        if let Some(e) = schema.entities.first_mut() {
            e.enumerated = true;
            e.open = true;
        }
    }

    fn spoil_argument(&mut self, schema: &mut Sch) {
        if schema.functions.is_empty() {
            return;
        }
        let at = self.rng.below(schema.functions.len());
        let bad = [(1, 7), (2, 1), (3, 256), (5, 0), (0, 0), (4, 0)];
        schema.functions[at].args.push(*self.rng.pick(&bad));
    }

    /// The form with one byte of an entry set to a number close to those
    /// allowed, or one body changed, its length with it.
    pub fn damaged_entry(&mut self, schema: &Sch) -> Vec<u8> {
        let mut parts = Parts::of(schema);
        if parts.entries.is_empty() {
            return self.damaged(&schema.form());
        }
        let at = self.entry_of(schema);
        if self.rng.percent(40) {
            let entry = &mut parts.entries[at];
            let (byte, values): (usize, &[u8]) = match entry.len() == 7 && self.rng.percent(40) {
                true => (2, &[0, 0, 1, 2, 3]),
                false => (self.rng.below(entry.len()), &[0, 1, 2, 2, 3, 7, 9, 10, 11]),
            };
            entry[byte] = *self.rng.pick(values);
            return parts.form();
        }
        let body = &mut parts.bodies[at];
        match self.rng.below(6) {
            0 => body.push(*self.rng.pick(&[0, 1, 4])),
            1 => {
                body.pop();
            }
            2 if body.len() > 1 => body[1] = *self.rng.pick(&[1, 1, 2]),
            3 if body.len() > 3 => {
                body.splice(0..2, [11, 3, 0]);
            }
            4 => *body = self.ty(2).form(),
            _ => {
                body.insert(0, 7);
            }
        }
        parts.resize(at);
        parts.form()
    }

    /// The place of some entry, each kind as often as the others.
    fn entry_of(&mut self, schema: &Sch) -> usize {
        let (n, m, k) = (
            schema.entities.len(),
            schema.actions.len(),
            schema.functions.len(),
        );
        match self.rng.below(3) {
            0 if n > 0 => self.rng.below(n),
            1 if m > 0 => n + self.rng.below(m),
            2 if k > 0 => n + m + self.rng.below(k),
            _ => self.rng.below(n + m + k),
        }
    }

    /// A schema of at most one entry of each kind.
    pub fn tiny_schema(&mut self) -> Sch {
        let mut schema = self.schema();
        schema.entities.truncate(self.rng.below(2));
        schema.actions.truncate(self.rng.below(2));
        schema.functions.truncate(self.rng.below(2));
        schema
    }

    /// An attribute of a body that breaks a rule, or a body of many levels.
    fn spoil_body(&mut self, schema: &mut Sch) {
        let ty = match self.rng.percent(50) {
            true => self.deep_type(),
            false => {
                let mut ty = self.ty(3);
                self.spoil_type(&mut ty);
                ty
            }
        };
        let attrs = vec![Attr {
            name: *self.rng.pick(ATTRS),
            required: true,
            ty,
        }];
        match self.rng.percent(50) {
            true => schema
                .entities
                .iter_mut()
                .for_each(|e| e.attrs = attrs.clone()),
            false => schema
                .actions
                .iter_mut()
                .for_each(|a| a.attrs = attrs.clone()),
        }
    }
}

/// Leave out attributes until each body is within the limits.
fn fit(schema: &mut Sch, limits: Limits) {
    let entities = schema.entities.iter_mut().map(|e| &mut e.attrs);
    let actions = schema.actions.iter_mut().map(|a| &mut a.attrs);
    for attrs in entities.chain(actions) {
        attrs.retain(|a| a.ty.levels() < limits.levels);
        while Ty::Rec(false, attrs.clone()).form().len() > limits.bytes {
            attrs.pop();
        }
    }
}

/// A schema's form in parts.
struct Parts {
    counts: Vec<u8>,
    entries: Vec<Vec<u8>>,
    bodies: Vec<Vec<u8>>,
}

impl Parts {
    fn of(schema: &Sch) -> Parts {
        let form = schema.form();
        let widths = std::iter::repeat_n(5, schema.entities.len())
            .chain(std::iter::repeat_n(6, schema.actions.len()))
            .chain(std::iter::repeat_n(7, schema.functions.len()));
        let (mut entries, mut bodies) = (Vec::new(), Vec::new());
        let mut at = 6;
        for width in widths {
            entries.push(form[at..at + width].to_vec());
            at += width;
        }
        for entry in &entries {
            let tail = &entry[entry.len() - 2..];
            let length = u16::from_le_bytes([tail[0], tail[1]]) as usize;
            bodies.push(form[at..at + length].to_vec());
            at += length;
        }
        Parts {
            counts: form[..6].to_vec(),
            entries,
            bodies,
        }
    }

    /// Write the length of a body into its entry.
    fn resize(&mut self, at: usize) {
        let length = (self.bodies[at].len() as u16).to_le_bytes();
        let entry = &mut self.entries[at];
        let end = entry.len();
        entry[end - 2..].copy_from_slice(&length);
    }

    fn form(&self) -> Vec<u8> {
        let mut form = self.counts.clone();
        self.entries.iter().for_each(|e| form.extend_from_slice(e));
        self.bodies.iter().for_each(|b| form.extend_from_slice(b));
        form
    }
}

/// Repeat an entry, or exchange two neighbours.
pub fn disturb<T: Clone>(gen: &mut Gen, entries: &mut Vec<T>) {
    if entries.is_empty() {
        return;
    }
    let at = gen.rng.below(entries.len());
    match gen.rng.percent(50) {
        true => entries.insert(at, entries[at].clone()),
        false if at > 0 => entries.swap(at - 1, at),
        false => (),
    }
}
