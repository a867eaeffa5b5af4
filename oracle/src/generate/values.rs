//! Values that conform to a type, and values changed from them.

use super::{Gen, ACTION_TYPES, ATTRS, ENTITIES, FUNCTIONS};
use crate::trees::{FunctionEntry, Sch, Ty, Val};

impl Gen {
    /// Any value of at most `levels` levels, and no more than the limits have.
    pub fn value(&mut self, levels: usize) -> Val {
        let levels = levels.min(self.limits.levels);
        let kinds = if levels > 1 { 8 } else { 5 };
        match self.rng.below(kinds) {
            0 => Val::Bool(self.rng.percent(50)),
            1 => self.long(),
            2 => self.string(),
            3 | 4 => self.uid(),
            5 => Val::Set(
                (0..self.rng.below(3))
                    .map(|_| self.value(levels - 1))
                    .collect(),
            ),
            6 => {
                let mut pairs = Vec::new();
                for name in ATTRS {
                    if self.rng.percent(20) {
                        pairs.push((*name, self.value(levels - 1)));
                    }
                }
                Val::Rec(pairs)
            }
            _ => Val::Call(
                *self.rng.pick(FUNCTIONS),
                (0..self.rng.below(3))
                    .map(|_| self.value(levels - 1))
                    .collect(),
            ),
        }
    }

    fn long(&mut self) -> Val {
        Val::Long(self.rng.next().to_le_bytes())
    }

    pub fn uid(&mut self) -> Val {
        let ty = match self.rng.percent(50) {
            true => *self.rng.pick(ENTITIES),
            false => *self.rng.pick(ACTION_TYPES),
        };
        Val::Uid(ty, *self.rng.pick(&[0, 1, 65535]))
    }

    /// A value that conforms where one is found.
    pub fn value_for(&mut self, ty: &Ty, schema: &Sch) -> Val {
        match ty {
            Ty::Atom(kind) => self.value_for_atom(*kind),
            Ty::Set(element) => {
                let n = *self.rng.pick(&[1, 1, 1, 0, 2]);
                Val::Set((0..n).map(|_| self.value_for(element, schema)).collect())
            }
            Ty::Rec(open, attrs) => {
                let mut pairs = Vec::new();
                for a in attrs {
                    if a.required || self.rng.percent(60) {
                        pairs.push((a.name, self.value_for(&a.ty, schema)));
                    }
                }
                if *open && self.rng.percent(30) {
                    self.extra_pair(&mut pairs);
                }
                Val::Rec(pairs)
            }
            Ty::Ent(names) => Val::Uid(*self.rng.pick(names), self.rng.below(3) as u16),
            Ty::Act(name, _) => Val::Uid(*name, self.rng.below(3) as u16),
            Ty::Ext(name) => self.call_for(*name, schema, 3),
        }
    }

    fn value_for_atom(&mut self, kind: u8) -> Val {
        match kind {
            1 => Val::Bool(true),
            2 => Val::Bool(false),
            3 => Val::Bool(self.rng.percent(50)),
            4 => self.long(),
            5 => self.string(),
            6 => Val::Set((0..self.rng.below(3)).map(|_| self.value(2)).collect()),
            9 => self.uid(),
            _ => self.value(2),
        }
    }

    fn extra_pair(&mut self, pairs: &mut Vec<(u16, Val)>) {
        let value = self.value(2);
        self.put_pair(pairs, value);
    }

    /// Put a pair in, if its name is not there.
    pub fn put_pair(&mut self, pairs: &mut Vec<(u16, Val)>, value: Val) {
        let name = *self.rng.pick(ATTRS);
        if pairs.iter().all(|p| p.0 != name) {
            pairs.push((name, value));
            pairs.sort_by_key(|p| p.0);
        }
    }

    /// A call of a function that returns the extension.
    fn call_for(&mut self, extension: u16, schema: &Sch, depth: usize) -> Val {
        let able = |f: &&FunctionEntry| f.returns == Some(extension);
        let known: Vec<&FunctionEntry> = schema.functions.iter().filter(able).collect();
        if known.is_empty() {
            return Val::Call(*self.rng.pick(FUNCTIONS), Vec::new());
        }
        let function = *self.rng.pick(&known);
        let mut args = Vec::new();
        for (kind, extension) in &function.args {
            args.push(match kind {
                4 if depth > 0 => self.call_for(*extension, schema, depth - 1),
                4 => Val::Call(function.name, Vec::new()),
                kind => self.value_for_argument(*kind),
            });
        }
        match self.rng.below(10) {
            0 => args.push(self.value(1)),
            1 => {
                args.pop();
            }
            _ => (),
        }
        Val::Call(function.name, args)
    }

    /// A value for an argument of a kind that is no extension.
    pub fn value_for_argument(&mut self, kind: u8) -> Val {
        match kind {
            1 => Val::Bool(true),
            2 => self.long(),
            _ => self.string(),
        }
    }

    /// The value with one place changed.
    pub fn mutate_value(&mut self, value: &mut Val) {
        if self.rng.percent(10) {
            *value = self.value(2);
            return;
        }
        match value {
            Val::Bool(b) => *b = !*b,
            Val::Uid(ty, _) => {
                let Val::Uid(other, _) = self.uid() else {
                    return;
                };
                *ty = other;
            }
            Val::Set(values) if !values.is_empty() => {
                let at = self.rng.below(values.len());
                self.mutate_value(&mut values[at]);
            }
            Val::Rec(pairs) => self.mutate_pairs(pairs),
            Val::Call(function, args) => match self.rng.below(6) {
                0 => *function = *self.rng.pick(FUNCTIONS),
                1 => {
                    args.pop();
                }
                2 => args.push(self.value(2)),
                _ if args.is_empty() => *function = *self.rng.pick(FUNCTIONS),
                _ => {
                    let at = self.rng.below(args.len());
                    self.mutate_value(&mut args[at]);
                }
            },
            _ => *value = self.value(1),
        }
    }

    fn mutate_pairs(&mut self, pairs: &mut Vec<(u16, Val)>) {
        if pairs.is_empty() || self.rng.percent(15) {
            self.extra_pair(pairs);
            return;
        }
        let at = self.rng.below(pairs.len());
        match self.rng.below(5) {
            0 => {
                pairs.remove(at);
            }
            _ => self.mutate_value(&mut pairs[at].1),
        }
    }

    /// A nest around a value, of three levels less than the most to two more.
    pub fn deep_value(&mut self) -> Val {
        let most = self.limits.levels;
        let value = self.leaf();
        let holders = self.rng.from(most.saturating_sub(4), most + 1);
        self.nest(value, holders)
    }

    /// A value of one level, mostly a string.
    pub fn leaf(&mut self) -> Val {
        match self.rng.percent(50) {
            true => self.string(),
            false => self.value(1),
        }
    }

    /// The value below so many holders.
    pub fn nest(&mut self, mut value: Val, holders: usize) -> Val {
        for _ in 0..holders {
            value = match self.rng.below(4) {
                0 => Val::Rec(vec![(*self.rng.pick(ATTRS), value)]),
                1 => Val::Call(*self.rng.pick(FUNCTIONS), vec![value]),
                _ => Val::Set(vec![value]),
            };
        }
        value
    }
}
