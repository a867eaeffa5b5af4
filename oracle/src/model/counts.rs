//! The number of a call's arguments, and operation 11.

use super::conformance::{function, walk};
use super::{Rules, Walk};
use crate::trees::{FunctionEntry, Sch, Ty, Val};
use std::cmp::Ordering;

/// How many arguments a call may have.
#[derive(Clone, Copy, Debug, PartialEq, Eq)]
pub enum Counts {
    /// Any number: operation 8.
    Any,
    /// As many as its function declares: operation 11.
    Declared,
}

impl Rules {
    /// Is this fault on, in operation 11?
    pub fn fault_in_full(self, number: u32, counts: Counts) -> bool {
        counts == Counts::Declared && self.fault(number)
    }

    /// Is the number of arguments one that the rule takes, in a call that the
    /// walk reaches or inside an argument?
    fn count_fits(self, counts: Counts, inside: bool, declared: usize, given: usize) -> bool {
        let taken = match given.cmp(&declared) {
            Ordering::Equal => true,
            Ordering::Less => {
                let few = self.fault(320) || (inside && self.fault(322));
                few || (given == 0 && self.fault(324))
            }
            Ordering::Greater => {
                let many = self.fault(321) || (inside && self.fault(323));
                many || (declared == 0 && self.fault(325))
            }
        };
        let low_byte = self.fault(326) && given % 256 == declared % 256;
        counts == Counts::Any || taken || low_byte
    }

    /// The count of a call that the walk reaches, once its arguments fit.
    pub fn counted(self, counts: Counts, f: &FunctionEntry, args: &[Val]) -> Walk {
        match self.count_fits(counts, false, f.args.len(), args.len()) {
            true => Walk::Yes,
            false => self.or(327, Walk::No, Walk::Unknown),
        }
    }

    /// The same inside an argument.
    pub fn counted_inside(self, counts: Counts, f: &FunctionEntry, args: &[Val]) -> Walk {
        match self.count_fits(counts, true, f.args.len(), args.len()) {
            true => Walk::Yes,
            false => self.or(328, Walk::No, Walk::Unknown),
        }
    }

    /// Are values passed over that the walk does not look at?
    pub fn passed_over<'v>(
        self,
        fault: u32,
        counts: Counts,
        schema: &Sch,
        mut values: impl Iterator<Item = &'v Val>,
    ) -> bool {
        !self.fault_in_full(fault, counts) || values.all(|v| all_counted(schema, v))
    }

    /// Operation 11.
    pub fn conforms_fully(self, schema: &Sch, ty: &Ty, value: &Val) -> Walk {
        let any = || self.conforms(Counts::Any, schema, ty, value);
        let met = |test: CallTest<'_>| any_reached(ty, value, test);
        match self.fault {
            311 => any(),
            313 if any() == Walk::Yes => walk(all_counted(schema, value)),
            313 => any(),
            314 if any() == Walk::Unknown => Walk::Unknown,
            315 if met(&|name, _| function(schema, name).is_none()) => Walk::Unknown,
            316 if met(&|name, args| miscounted(schema, name, args)) => Walk::No,
            _ => self.conforms(Counts::Declared, schema, ty, value),
        }
    }
}

type CallTest<'a> = &'a dyn Fn(u16, &[Val]) -> bool;

/// Has a call of a known function another count than the function declares?
fn miscounted(schema: &Sch, name: u16, args: &[Val]) -> bool {
    function(schema, name).is_some_and(|f| f.args.len() != args.len())
}

/// Is no call miscounted, anywhere in the value?
fn all_counted(schema: &Sch, value: &Val) -> bool {
    let own = match value {
        Val::Call(name, args) => !miscounted(schema, *name, args),
        _ => true,
    };
    own && value.parts().all(|v| all_counted(schema, v))
}

/// Does any call satisfy the test that a walk reaches which no answer ends?
fn any_reached(ty: &Ty, value: &Val, test: CallTest<'_>) -> bool {
    match (ty, value) {
        (Ty::Ext(_), Val::Call(name, args)) => test(*name, args),
        (Ty::Set(element), Val::Set(values)) => {
            values.iter().any(|v| any_reached(element, v, test))
        }
        (Ty::Rec(_, attrs), Val::Rec(pairs)) => attrs.iter().any(|a| {
            let pair = pairs.iter().find(|(name, _)| *name == a.name);
            pair.is_some_and(|(_, v)| any_reached(&a.ty, v, test))
        }),
        _ => false,
    }
}
