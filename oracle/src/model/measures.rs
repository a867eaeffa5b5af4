//! Measuring a type and a value: the questions that any call asks of it, then
//! its length and its levels.

use super::calls::ask;
use super::limits::WIDE;
use super::Rules;
use crate::limits::Limits;
use crate::questions::{operation::*, Call, Outcome};
use crate::trees::{Sch, Ty, Val};

impl Rules {
    pub fn measured(self, call: &Call<'_>, schema: &Option<Sch>) -> Result<Outcome, u8> {
        ask(2, schema.is_some() || !self.fault(523))?;
        let levels = match call.op {
            MEASURE_TYPE if self.fault(522) => self.value_measured(call)?,
            MEASURE_VALUE if self.fault(521) => self.type_measured(call)?,
            MEASURE_TYPE => self.type_measured(call)?,
            _ => self.value_measured(call)?,
        };
        let length = self.length_told(call.limits, call.t0.len());
        Ok(Outcome::Measured(length, self.told(call.limits, levels)))
    }

    fn length_told(self, limits: Limits, length: usize) -> usize {
        match self.fault {
            530 => limits.bytes,
            531 => length - 1,
            532 => length % 256,
            533 => length.min(Limits::STANDARD.bytes),
            _ => length,
        }
    }

    /// The limits that a form is measured under, but for a fault each: the
    /// standard ones, any levels, any bytes.
    fn measuring_under(self, limits: Limits, faults: [u32; 3]) -> Limits {
        let [standard, levels, bytes] = faults;
        let limits = self.or(standard, limits, Limits::STANDARD);
        Limits {
            levels: self.or(levels, limits.levels, WIDE.levels),
            bytes: self.or(bytes, limits.bytes, WIDE.bytes),
        }
    }

    fn type_measured(self, call: &Call<'_>) -> Result<usize, u8> {
        let limits = self.measuring_under(call.limits, [524, 526, 528]);
        let ty = self.given(limits, call.t0);
        let ty = ty.ok_or(self.or(506, 3, 4))?;
        let levels = self.up_to_sixteen(446, self.type_levels(&ty));
        Ok(self.or(526, levels, levels.min(call.limits.levels)))
    }

    fn value_measured(self, call: &Call<'_>) -> Result<usize, u8> {
        let limits = self.measuring_under(call.limits, [525, 527, 529]);
        let value = self.whole_value(limits, call.t0);
        let value = value.ok_or_else(|| self.unmeasurable(call))?;
        let number = self.or(517, 17, 5);
        ask(number, self.fault(508) || self.text_measured(call, &value))?;
        let levels = self.up_to_sixteen(503, self.value_levels(&value));
        Ok(self.or(527, levels, levels.min(call.limits.levels)))
    }

    /// The number of a value that is not whole.
    fn unmeasurable(self, call: &Call<'_>) -> u8 {
        let early = match self.fault {
            518 => Rules { fault: 410 }.reads_broken(call.limits, call.t0),
            519 => self.broken(WIDE, call.t0),
            520 => Rules { fault: 22 }.broken(call.limits, call.t0),
            _ => false,
        };
        match early {
            true => 17,
            false => self.or(507, 5, 3),
        }
    }

    /// A fault asks for text before the limits.
    pub fn text_measured_early(self, call: &Call<'_>) -> Result<(), u8> {
        let early = self.fault(536) && call.op == MEASURE_VALUE;
        ask(17, !early || !self.broken(call.limits.nearest(), call.t0))
    }

    /// Is every string of a value text? The faults that pass over some are those
    /// of conformance, with numbers of their own; the table's are the same.
    fn text_measured(self, call: &Call<'_>, value: &Val) -> bool {
        let fault = match self.fault {
            509 => 389,
            510 => 390,
            511 => 391,
            512 => 392,
            513 => 402,
            514 => 403,
            515 => 404,
            516 => 405,
            537 => 423,
            389..=409 | 423 => 0,
            other => other,
        };
        let untyped = Ty::Atom(6);
        Rules { fault }.is_text(call, &Sch::default(), &untyped, value)
    }

    /// Is the workspace zero after this outcome, though it is not the call's?
    pub fn clears_measuring(self, outcome: &Outcome) -> bool {
        self.fault(534) && matches!(outcome, Outcome::Measured(..))
    }
}
