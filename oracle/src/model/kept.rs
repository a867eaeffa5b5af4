//! A schema that is checked once and kept, with the limits of its check.

use super::calls::{full_as_conforms, takes_schema};
use super::Rules;
use crate::limits::Limits;
use crate::questions::{Call, Outcome, Part};
use crate::trees::Sch;

/// What is kept: the limits, and the schema if it is whole under them.
pub struct Kept {
    limits: Limits,
    schema: Option<Sch>,
}

impl Rules {
    pub fn keep(self, limits: Limits, schema: &[u8]) -> Kept {
        let limits = self.taken(limits);
        let checked = self.or(281, limits, Limits::STANDARD);
        let schema = match self.allowed(limits) {
            true => self.whole_schema(checked, schema),
            false => None,
        };
        Kept { limits, schema }
    }

    /// The limits that are used from what is kept.
    fn kept_limits(self, kept: &Kept) -> Limits {
        let fault = match self.allowed(kept.limits) {
            true => 280,
            false => 282,
        };
        self.or(fault, kept.limits, Limits::STANDARD)
    }

    /// A call with what is kept of its schema; one that takes no schema has
    /// its own limits.
    pub fn answer_kept(self, kept: &Kept, call: &Call<'_>) -> Outcome {
        let limits = match takes_schema(call.op) {
            true => self.kept_limits(kept),
            false => self.taken(call.limits),
        };
        let op = self.or(343, call.op, full_as_conforms(call.op));
        let refused = self.mode_asked(call).err();
        let call = Call {
            limits,
            op,
            ..*call
        };
        match refused.filter(|_| self.fault(283)) {
            Some(number) => Outcome::Refused(number),
            None => self.told_kept(kept, &call),
        }
    }

    fn told_kept(self, kept: &Kept, call: &Call<'_>) -> Outcome {
        let outcome = self.unexamining(421).answer_under(call, &kept.schema);
        let outcome = self.retold(484, 1, outcome);
        let deepest = kept.schema.as_ref().and_then(|s| self.deepest_body(s));
        match deepest {
            Some(levels) => self.retold(486, levels, outcome),
            None => outcome,
        }
    }

    /// The second entry of lookup with what is kept.
    pub fn part_kept(self, kept: &Kept, call: &Call<'_>) -> Part {
        let limits = self.kept_limits(kept);
        self.part_under(&Call { limits, ..*call }, &kept.schema)
    }
}
