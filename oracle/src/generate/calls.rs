//! Calls with as many arguments as their functions declare, and with others:
//! where a walk reaches them, inside arguments, and where none looks.

use super::{Gen, ATTRS, EXTENSIONS, FUNCTIONS};
use crate::trees::{Attr, FunctionEntry, Sch, Ty, Val};

/// A call's function and arguments.
type CallParts<'v> = (&'v mut u16, &'v mut Vec<Val>);

/// The functions that return the extension and can be called with what they
/// declare, so many calls deep.
fn callable(schema: &Sch, extension: u16, depth: usize) -> Vec<&FunctionEntry> {
    let takes = |(kind, e): &(u8, u16)| {
        *kind != 4 || (depth > 0 && !callable(schema, *e, depth - 1).is_empty())
    };
    let functions = schema.functions.iter();
    let able = functions.filter(|f| f.returns == Some(extension) && f.args.iter().all(takes));
    able.collect()
}

impl Gen {
    /// A type that asks for calls, and a value that has them, up to two of them
    /// changed.
    pub fn called(&mut self, schema: &Sch) -> (Ty, Val) {
        let kind = self.rng.below(12);
        if kind == 0 && self.limits.levels > 2 {
            return self.miscounted_before_unknown(schema);
        }
        let deep = match kind {
            1 => self.deep_call(schema),
            _ => None,
        };
        let (ty, mut value) = deep.unwrap_or_else(|| {
            let ty = self.calling_type(schema, 3);
            let value = self.calling_value(&ty, schema, self.limits.levels);
            (ty, value)
        });
        for _ in 0..*self.rng.pick(&[0, 0, 1, 1, 1, 2, 2]) {
            self.change_call(&mut value, schema);
        }
        (ty, value)
    }

    /// Two calls in a set or a record: in the first some count is changed, the
    /// second is of a function that is not in the schema; or the other way
    /// round.
    fn miscounted_before_unknown(&mut self, schema: &Sch) -> (Ty, Val) {
        let extension = self.returned(schema);
        let mut first = self.counted_call(extension, schema, self.limits.levels.min(5) - 2);
        self.change_count(&mut first);
        let mut second = Val::Call(self.unknown_function(schema), Vec::new());
        if self.rng.percent(20) {
            (first, second) = (second, first);
        }
        let ext = Ty::Ext(extension);
        let attr = |name| Attr {
            name,
            required: true,
            ty: ext.clone(),
        };
        match self.rng.percent(50) {
            true => (Ty::Set(Box::new(ext)), Val::Set(vec![first, second])),
            false => (
                Ty::Rec(false, vec![attr(1), attr(2)]),
                Val::Rec(vec![(1, first), (2, second)]),
            ),
        }
    }

    /// An extension that some function returns, if there is one; mostly of a
    /// function that can be called.
    pub fn returned(&mut self, schema: &Sch) -> u16 {
        let returned = schema.functions.iter().filter_map(|f| f.returns);
        let returned: Vec<u16> = match self.rng.percent(80) {
            true => returned
                .filter(|e| !callable(schema, *e, 2).is_empty())
                .collect(),
            false => returned.collect(),
        };
        match returned.is_empty() || self.rng.percent(5) {
            true => *self.rng.pick(EXTENSIONS),
            false => *self.rng.pick(&returned),
        }
    }

    fn calling_type(&mut self, schema: &Sch, levels: usize) -> Ty {
        let levels = levels.min(self.limits.levels);
        let kinds = if levels > 1 { 20 } else { 8 };
        match self.rng.below(kinds) {
            0..=6 => Ty::Ext(self.returned(schema)),
            7 => Ty::Atom(*self.rng.pick(&[6, 6, 4])),
            8..=13 => Ty::Set(Box::new(self.calling_type(schema, levels - 1))),
            _ => {
                let mut attrs = Vec::new();
                for name in ATTRS.iter().take(3) {
                    if self.rng.percent(60) {
                        attrs.push(Attr {
                            name: *name,
                            required: self.rng.percent(65),
                            ty: self.calling_type(schema, levels - 1),
                        });
                    }
                }
                Ty::Rec(self.rng.percent(40), attrs)
            }
        }
    }

    /// A value of so many levels that conforms where one is found, with a call
    /// also where no type asks for one.
    fn calling_value(&mut self, ty: &Ty, schema: &Sch, levels: usize) -> Val {
        let below = levels.saturating_sub(1);
        match ty {
            Ty::Ext(extension) => self.counted_call(*extension, schema, below.min(3)),
            Ty::Set(element) => {
                let n = *self.rng.pick(&[1, 2, 2, 3, 0]);
                let member = |gen: &mut Gen| gen.calling_value(element, schema, below);
                Val::Set((0..n).map(|_| member(self)).collect())
            }
            Ty::Atom(6) if below > 0 => {
                let extension = self.returned(schema);
                let depth = (below - 1).min(2);
                Val::Set(vec![self.counted_call(extension, schema, depth)])
            }
            Ty::Rec(open, attrs) => self.calling_record(*open, attrs, schema, below),
            other => self.value_for(other, schema),
        }
    }

    fn calling_record(&mut self, open: bool, attrs: &[Attr], schema: &Sch, below: usize) -> Val {
        let mut pairs = Vec::new();
        for a in attrs {
            if a.required || self.rng.percent(70) {
                pairs.push((a.name, self.calling_value(&a.ty, schema, below)));
            }
        }
        let unlisted = *self.rng.pick(&ATTRS[3..]);
        if open && self.rng.percent(60) {
            let extension = self.returned(schema);
            let depth = below.saturating_sub(1).min(2);
            pairs.push((unlisted, self.counted_call(extension, schema, depth)));
        }
        Val::Rec(pairs)
    }

    /// A call of a function that returns the extension, with the arguments that
    /// it declares, so many calls deep at most.
    pub fn counted_call(&mut self, extension: u16, schema: &Sch, depth: usize) -> Val {
        let mut able = callable(schema, extension, depth);
        if able.is_empty() {
            return Val::Call(*self.rng.pick(FUNCTIONS), Vec::new());
        }
        let nests = |f: &&FunctionEntry| f.args.iter().any(|(kind, _)| *kind == 4);
        if able.iter().any(nests) && self.rng.percent(60) {
            able.retain(nests);
        }
        let f = *self.rng.pick(&able);
        let args = f.args.iter();
        let args = args.map(|a| self.counted_argument(*a, schema, depth));
        Val::Call(f.name, args.collect())
    }

    fn counted_argument(&mut self, declared: (u8, u16), schema: &Sch, depth: usize) -> Val {
        match declared {
            (4, extension) => self.counted_call(extension, schema, depth.saturating_sub(1)),
            (kind, _) => self.value_for_argument(kind),
        }
    }

    /// Some call of a value.
    fn some_call<'v>(&mut self, value: &'v mut Val) -> Option<CallParts<'v>> {
        match self.some_part(value, |v| matches!(v, Val::Call(..)))? {
            Val::Call(name, args) => Some((name, args)),
            _ => None,
        }
    }

    /// Change one call: mostly its count, or its function to one that is not in
    /// the schema, or an argument.
    fn change_call(&mut self, value: &mut Val, schema: &Sch) {
        match self.rng.below(10) {
            0..=6 => self.change_count(value),
            7..=8 => {
                let unknown = self.unknown_function(schema);
                if let Some((name, _)) = self.some_call(value) {
                    *name = unknown;
                }
            }
            _ => {
                let other = self.value(1);
                if let Some(arg) = self.some_call(value).and_then(|(_, args)| args.first_mut()) {
                    *arg = other;
                }
            }
        }
    }

    /// Change how many arguments one call has.
    fn change_count(&mut self, value: &mut Val) {
        let more = self.extra_argument();
        let kind = self.rng.below(60);
        let Some((_, args)) = self.some_call(value) else {
            return;
        };
        match kind {
            0 => args.extend(vec![Val::Bool(true); 256]),
            1..=20 => args.push(more),
            21..=30 => args.insert(0, more),
            31..=35 => args.clear(),
            _ if args.is_empty() => args.push(more),
            _ => {
                args.pop();
            }
        }
    }

    fn extra_argument(&mut self) -> Val {
        match self.rng.below(4) {
            0 => Val::Call(*self.rng.pick(FUNCTIONS), Vec::new()),
            1 => self.value(1),
            _ => Val::Bool(true),
        }
    }

    /// The name of no function of the schema.
    fn unknown_function(&mut self, schema: &Sch) -> u16 {
        let known = |n: &u16| schema.functions.iter().any(|f| f.name == *n);
        let names = FUNCTIONS.iter().chain(&[9]).copied();
        let unknown: Vec<u16> = names.filter(|n| !known(n)).collect();
        match unknown.is_empty() {
            true => 10,
            false => *self.rng.pick(&unknown),
        }
    }

    /// A call nested to so many levels, each a function that takes what it
    /// returns, and the type of it.
    pub fn deep_call(&mut self, schema: &Sch) -> Option<(Ty, Val)> {
        let loops = |f: &&FunctionEntry| match (f.returns, f.args.first()) {
            (Some(e), Some((4, a))) => e == *a,
            _ => false,
        };
        let found: Vec<&FunctionEntry> = schema.functions.iter().filter(loops).collect();
        let f = found.first()?;
        let extension = f.returns?;
        let mut value = self.counted_call(extension, schema, 0);
        for _ in 0..self.rng.from(1, self.limits.levels + 1) {
            let mut args = vec![value];
            for declared in &f.args[1..] {
                args.push(self.counted_argument(*declared, schema, 0));
            }
            value = Val::Call(f.name, args);
        }
        Some((Ty::Ext(extension), value))
    }
}
