//! Does a value have a type?

use super::relations::find;
use super::{Counts, Rules};
use crate::trees::{Attr, FunctionEntry, Sch, Ty, Val};

/// What the walk comes to.
#[derive(Clone, Copy, PartialEq, Eq, Debug)]
pub enum Walk {
    Yes,
    No,
    /// It reached a function that is not in the schema.
    Unknown,
}

use Walk::{No, Unknown, Yes};

pub fn walk(yes: bool) -> Walk {
    match yes {
        true => Yes,
        false => No,
    }
}

/// The first that is not a yes ends the walk.
fn all(walks: impl Iterator<Item = Walk>) -> Walk {
    for walk in walks {
        if walk != Yes {
            return walk;
        }
    }
    Yes
}

pub fn function(schema: &Sch, name: u16) -> Option<&FunctionEntry> {
    schema.functions.iter().find(|f| f.name == name)
}

impl Rules {
    pub fn conforms(self, counts: Counts, schema: &Sch, ty: &Ty, value: &Val) -> Walk {
        if let (Val::Call(name, _), true) = (value, self.fault(140)) {
            if function(schema, *name).is_none() {
                return Unknown;
            }
        }
        match (ty, value) {
            (Ty::Atom(3), Val::Bool(_)) => Yes,
            (Ty::Atom(1), Val::Bool(b)) => walk(*b || self.fault(141)),
            (Ty::Atom(2), Val::Bool(b)) => walk(!*b),
            (Ty::Atom(4), Val::Long(_)) | (Ty::Atom(5), Val::Str(_)) => Yes,
            (Ty::Atom(6), Val::Set(values)) => {
                let passed = self.passed_over(333, counts, schema, values.iter());
                walk(passed && !self.fault(142))
            }
            (Ty::Atom(9), Val::Uid(..)) => Yes,
            (Ty::Set(element), Val::Set(values)) => {
                let taken = self.or(143, values.len(), 1);
                let counts = self.or(331, counts, Counts::Any);
                let member = |v| self.conforms(counts, schema, element, v);
                all(values.iter().take(taken).map(member))
            }
            (Ty::Ent(names), Val::Uid(ty, _)) => {
                let known = !self.fault(144) || schema.entities.iter().any(|e| e.name == *ty);
                walk(names.contains(ty) && known)
            }
            (Ty::Act(name, _), Val::Uid(ty, _)) => {
                walk(ty == name && (ty % 2 == 1 || self.fault(145)))
            }
            (Ty::Rec(open, attrs), Val::Rec(pairs)) => {
                self.record_conforms(counts, schema, (*open, attrs), pairs)
            }
            (Ty::Ext(name), Val::Call(function, args)) => {
                self.call_conforms(counts, schema, *name, (*function, args))
            }
            _ => No,
        }
    }

    fn record_conforms(
        self,
        counts: Counts,
        schema: &Sch,
        (open, attrs): (bool, &[Attr]),
        pairs: &[(u16, Val)],
    ) -> Walk {
        let has = |name: u16| pairs.iter().any(|p| p.0 == name);
        let all_present = attrs
            .iter()
            .all(|a| !a.required || has(a.name) || self.fault(146))
            && !(self.fault(147) && attrs.iter().any(|a| !has(a.name)));
        if self.fault(148) && !all_present {
            return No;
        }
        let inner = self.or(332, counts, Counts::Any);
        let pair = |(name, value): &(u16, Val)| match find(attrs, *name) {
            Some(a) => self.conforms(inner, schema, &a.ty, value),
            None => {
                let passed = self.passed_over(334, counts, schema, [value].into_iter());
                walk(passed && ((open && !self.fault(149)) || self.fault(150)))
            }
        };
        let walked = match self.fault(151) {
            true => all(pairs.iter().rev().map(pair)),
            false => all(pairs.iter().map(pair)),
        };
        match walked {
            Yes => walk(all_present),
            other => other,
        }
    }

    fn call_conforms(
        self,
        counts: Counts,
        schema: &Sch,
        extension: u16,
        (name, args): (u16, &[Val]),
    ) -> Walk {
        let Some(f) = function(schema, name) else {
            let no = self.fault(152) || self.fault_in_full(329, counts);
            return if no { No } else { Unknown };
        };
        if f.returns != Some(extension) && !self.fault(153) {
            return No;
        }
        if self.fault(154) && args.len() > f.args.len() {
            return No;
        }
        if self.fault(155) && args.len() < f.args.len() {
            return No;
        }
        let inner = self.or(317, counts, Counts::Any);
        match self.arguments_fit(inner, schema, f, args) {
            No if self.fault_in_full(335, counts) => self.counted(counts, f, args),
            Yes if !self.fault(319) => self.counted(counts, f, args),
            other => other,
        }
    }

    /// Arguments pairwise, to the shorter end.
    fn arguments_fit(self, counts: Counts, schema: &Sch, f: &FunctionEntry, args: &[Val]) -> Walk {
        let pairs = f.args.iter().zip(args);
        all(pairs.map(|(expected, arg)| self.argument_fits(counts, schema, *expected, arg)))
    }

    /// The stand-in's rule for one argument.
    pub fn argument_fits(
        self,
        counts: Counts,
        schema: &Sch,
        expected: (u8, u16),
        arg: &Val,
    ) -> Walk {
        match (expected.0, arg) {
            (1, Val::Bool(_)) | (2, Val::Long(_)) | (3, Val::Str(_)) => Yes,
            (4, Val::Call(name, args)) => {
                let Some(f) = function(schema, *name) else {
                    let unknown = self.fault(156) || self.fault_in_full(330, counts);
                    return if unknown { Unknown } else { No };
                };
                if f.returns != Some(expected.1) && !self.fault(157) {
                    return No;
                }
                if self.fault(158) && args.len() != f.args.len() {
                    return No;
                }
                let inner = self.or(318, counts, Counts::Any);
                let fit = self.arguments_fit(inner, schema, f, args);
                let unseen = self.fault(159) || self.fault_in_full(336, counts);
                match if unseen { Yes } else { fit } {
                    Yes => self.counted_inside(counts, f, args),
                    other => other,
                }
            }
            _ => No,
        }
    }
}
