//! The calls: 01's questions in 01's order.

use super::attributes::Folded;
use super::relations::find;
use super::{Counts, Mode, Rules, Walk};
use crate::limits::Limits;
use crate::questions::{operation::*, Call, Outcome, Part, Written};
use crate::trees::{Attr, Sch, Ty, Val};

/// A question: its number if the answer is no.
pub fn ask(number: u8, yes: bool) -> Result<(), u8> {
    match yes {
        true => Ok(()),
        false => Err(number),
    }
}

fn said(yes: bool) -> Result<Outcome, u8> {
    Ok(match yes {
        true => Outcome::Yes,
        false => Outcome::No,
    })
}

/// The fault by which each operation does not ask its limits.
const UNASKED: [u32; COUNT] = [301, 302, 264, 303, 304, 305, 265, 266, 306, 307, 308, 310];

/// The fault by which a call does not.
fn unasked(op: u8) -> Option<u32> {
    match op {
        MEASURE_TYPE => Some(504),
        MEASURE_VALUE => Some(505),
        _ => UNASKED.get(op as usize).copied(),
    }
}

/// Operation 8 for operation 11.
pub fn full_as_conforms(op: u8) -> u8 {
    match op {
        FULL => CONFORMS,
        other => other,
    }
}

/// Does the operation take a schema?
pub fn takes_schema(op: u8) -> bool {
    !matches!(
        op,
        DISJOINT | CONSISTENT | CONVERT | MEASURE_TYPE | MEASURE_VALUE
    )
}

impl Rules {
    pub fn answer(self, call: &Call<'_>) -> Outcome {
        let limits = self.taken(call.limits);
        let op = self.or(344, call.op, full_as_conforms(call.op));
        let call = Call {
            limits,
            op,
            ..*call
        };
        let schema = match self.limits_pass(&call) {
            true => self.whole_schema(limits, call.schema),
            false => None,
        };
        let outcome = self.unexamining(422).answer_under(&call, &schema);
        self.retold(485, 1, outcome)
    }

    fn limits_pass(self, call: &Call<'_>) -> bool {
        let unasked = unasked(call.op).is_some_and(|fault| self.fault(fault));
        self.allowed(call.limits) || unasked
    }

    /// The same, where the schema has been read.
    pub fn answer_under(self, call: &Call<'_>, schema: &Option<Sch>) -> Outcome {
        let outcome = self.limited(call).and_then(|()| match call.op {
            SUBTYPE | BOUND => self.compared(call, schema),
            DISJOINT => self.disjoined(call, schema),
            LOOKUP | MAY_HAVE | NAMES => self.attributed(call, schema),
            CONSISTENT => self.agreed(call, schema),
            CONVERT => self.converted(call, schema),
            CONFORMS | FULL => self.conformed(call, schema),
            FOLD => self.folded(call, schema),
            LITERAL => self.literal_typed(call, schema),
            MEASURE_TYPE | MEASURE_VALUE => self.measured(call, schema),
            _ => Ok(Outcome::Nothing),
        });
        outcome.unwrap_or_else(Outcome::Refused)
    }

    /// The first question of every call.
    fn limited(self, call: &Call<'_>) -> Result<(), u8> {
        if self.fault(262) {
            self.mode_asked(call)?;
        }
        if self.fault(263) && takes_schema(call.op) {
            self.mode_asked(call)?;
            let schema = self.whole_schema(call.limits.nearest(), call.schema);
            ask(2, schema.is_some())?;
        }
        self.text_asked_early(425, call.limits.nearest(), call)?;
        self.text_measured_early(call)?;
        ask(20, self.limits_pass(call))
    }

    /// The mode's question, where the operation takes one.
    pub fn mode_asked(self, call: &Call<'_>) -> Result<(), u8> {
        match call.op {
            SUBTYPE | BOUND | FOLD => self.mode(call).map(|_| ()),
            _ => Ok(()),
        }
    }

    fn mode(self, call: &Call<'_>) -> Result<Mode, u8> {
        match call.mode {
            2 if self.fault(230) => Err(1),
            2 if self.fault(231) => Ok(Mode::Permissive),
            3 if self.fault(196) => Ok(Mode::Loose),
            number => Mode::of(number).ok_or(1),
        }
    }

    /// A type that the call is handed.
    pub fn given(self, limits: Limits, form: &[u8]) -> Option<Ty> {
        self.whole_type(self.kept_standard(limits, 249, 258), form)
    }

    fn first(self, call: &Call<'_>) -> Result<Ty, u8> {
        self.given(call.limits, call.t0).ok_or(3)
    }

    fn second(self, call: &Call<'_>) -> Result<Ty, u8> {
        self.given(call.limits, call.t1).ok_or(4)
    }

    /// The mode and the schema, in that order.
    fn mode_and_schema<'s>(
        self,
        call: &Call<'_>,
        schema: &'s Option<Sch>,
    ) -> Result<(Mode, &'s Sch), u8> {
        if self.fault(180) {
            ask(2, schema.is_some())?;
        }
        let mode = self.mode(call)?;
        if self.fault(181) {
            ask(3, call.op == FOLD || self.first(call).is_ok())?;
        }
        Ok((mode, schema.as_ref().ok_or(2)?))
    }

    /// The longest bound that a step may have.
    fn step_limit(self, call: &Call<'_>) -> usize {
        let half = match self.fault(185) {
            true => call.work.div_ceil(2),
            false => self.or(187, call.work / 2, call.work),
        };
        let fault = match call.op {
            FOLD => 253,
            LOOKUP => 254,
            _ => 255,
        };
        let bytes = self.or(fault, call.limits.bytes, Limits::STANDARD.bytes);
        let limit = self.or(186, half.min(bytes), half);
        self.or(190, limit, limit.min(call.room))
    }

    fn fitting(self, call: &Call<'_>, mut form: Vec<u8>) -> Result<Vec<u8>, u8> {
        let fault = if call.op == LITERAL { 257 } else { 256 };
        let bytes = self.or(fault, call.limits.bytes, Limits::STANDARD.bytes);
        let room = self.or(188, call.room, call.room.saturating_sub(1));
        let room = self.or(189, room.min(bytes), room);
        form.truncate(self.capped(286, form.len()));
        match form.len() <= room {
            true => Ok(form),
            false => Err(self.or(198, 10, 9)),
        }
    }

    /// A type that is written, and so many levels told of it.
    fn written(self, call: &Call<'_>, ty: &Ty, levels: usize) -> Result<Written, u8> {
        let form = self.fitting(call, ty.form())?;
        let levels = self.told(call.limits, self.up_to_sixteen(445, levels));
        Ok(Written { form, levels })
    }

    fn typed(self, call: &Call<'_>, ty: &Ty, levels: usize) -> Result<Outcome, u8> {
        Ok(Outcome::Typed(self.written(call, ty, levels)?))
    }

    fn compared(self, call: &Call<'_>, schema: &Option<Sch>) -> Result<Outcome, u8> {
        let (mode, _) = self.mode_and_schema(call, schema)?;
        if self.fault(182) {
            self.second(call)?;
        }
        let (a, b) = (self.first(call)?, self.second(call)?);
        let levels = [a.levels(), b.levels()];
        match call.op {
            SUBTYPE if self.ends_early(294, levels) => said(false),
            BOUND if self.ends_early(295, levels) => Err(15),
            SUBTYPE => {
                let strict = self.fault_in_loose(238, mode);
                said(self.subtype(if strict { Mode::Strict } else { mode }, &a, &b))
            }
            _ => {
                ask(10, call.t0.len() <= call.room || !self.fault(199))?;
                let mut bound = self.bound(mode, &a, &b)?;
                let loosened = bound == Ty::Atom(6) && a != bound && b != bound;
                let first = loosened && self.fault_in_loose(247, mode);
                ask(10, call.t0.len() <= call.room || !first)?;
                let set = matches!(bound, Ty::Set(_)) && self.fault_in_loose(224, mode);
                if set && bound.form().len() > call.room {
                    bound = Ty::Atom(6);
                }
                let levels = self.bound_levels(mode, [&a, &b], &bound);
                self.typed(call, &bound, levels)
            }
        }
    }

    fn folded(self, call: &Call<'_>, schema: &Option<Sch>) -> Result<Outcome, u8> {
        let (mode, _) = self.mode_and_schema(call, schema)?;
        let types = self.whole_list(call.limits, call.t0).ok_or(3)?;
        let bound = self.fold(mode, &types, self.step_limit(call))?;
        self.typed(call, &bound, self.fold_levels(mode, &types, &bound))
    }

    fn disjoined(self, call: &Call<'_>, schema: &Option<Sch>) -> Result<Outcome, u8> {
        ask(2, schema.is_some() || !self.fault(191))?;
        let (a, b) = (self.first(call)?, self.second(call)?);
        said(self.disjoint(&a, &b))
    }

    fn attributed(self, call: &Call<'_>, schema: &Option<Sch>) -> Result<Outcome, u8> {
        let schema = schema.as_ref().ok_or(2)?;
        let ty = self.first(call)?;
        let limit = self.step_limit(call);
        match call.op {
            MAY_HAVE => said(self.may_have(schema, &ty, call.attr)),
            NAMES => {
                let names = self.names(schema, &ty, limit).ok_or(9)?;
                self.named(call, &ty, names)
            }
            _ => match self.lookup(schema, &ty, call.attr, limit) {
                Folded::Absent => Ok(Outcome::Nothing),
                Folded::TooLong => Err(9),
                Folded::Found(required, found) => {
                    let levels = self.lookup_levels(schema, &ty, call.attr, &found);
                    let written = self.written(call, &found, levels);
                    let written = written.map_err(|n| self.or(197, n, 9))?;
                    Ok(Outcome::Attribute(required, written))
                }
            },
        }
    }

    fn named(self, call: &Call<'_>, ty: &Ty, names: Vec<u16>) -> Result<Outcome, u8> {
        let mut form = names.iter().flat_map(|n| n.to_le_bytes()).collect();
        if !self.fault(195) {
            form = self.fitting(call, form)?;
        }
        Ok(match self.name_levels(ty) {
            None => Outcome::Named(form),
            Some(levels) => Outcome::Typed(Written { form, levels }),
        })
    }

    fn agreed(self, call: &Call<'_>, schema: &Option<Sch>) -> Result<Outcome, u8> {
        ask(2, schema.is_some() || !self.fault(193))?;
        if self.fault(184) {
            let second = self.second(call);
            ask(6, !second.is_ok_and(|t| !self.plain(&t)))?;
        }
        let (a, b) = (self.first(call)?, self.second(call)?);
        ask(6, self.plain(&b))?;
        let early = self.ends_early(296, [a.levels(), b.levels()]);
        said(!early && self.consistent(&a, &b))
    }

    fn converted(self, call: &Call<'_>, schema: &Option<Sch>) -> Result<Outcome, u8> {
        ask(2, schema.is_some() || !self.fault(192))?;
        let ty = self.first(call)?;
        ask(8, !self.ends_early(297, [ty.levels()]))?;
        let converted = self.convert(&ty).ok_or(8)?;
        self.typed(call, &converted, self.converted_levels(&ty, &converted))
    }

    fn conformed(self, call: &Call<'_>, schema: &Option<Sch>) -> Result<Outcome, u8> {
        let full = call.op == FULL;
        if full && self.fault(342) {
            self.first(call)?;
        }
        self.text_asked_early(414, call.limits, call)?;
        let schema = schema.as_ref().ok_or(2)?;
        if self.fault(183) || (full && self.fault(341)) {
            ask(5, self.whole_value(call.limits, call.t1).is_some())?;
        }
        self.text_asked_early(413, call.limits, call)?;
        let ty = self.first(call)?;
        let value = self.whole_value(call.limits, call.t1);
        let value = value.ok_or_else(|| self.not_whole(call))?;
        let walk = match full || self.fault(312) {
            true => self.conforms_fully(schema, &ty, &value),
            false => self.conforms(Counts::Any, schema, &ty, &value),
        };
        self.text_asked(call, schema, &ty, &value, walk)?;
        match walk {
            _ if self.ends_early(298, [value.levels()]) => said(false),
            _ if self.ends_early(299, [ty.levels()]) => said(false),
            Walk::Unknown => Err(7),
            walk => said(walk == Walk::Yes),
        }
    }

    fn literal_typed(self, call: &Call<'_>, schema: &Option<Sch>) -> Result<Outcome, u8> {
        let schema = schema.as_ref().ok_or(2)?;
        let value = self.whole_value(call.limits, call.t0).ok_or(5)?;
        let (ty, id) = match value {
            Val::Uid(ty, id) => (ty, id),
            _ if self.fault(194) => return Ok(Outcome::Nothing),
            other if self.fault(418) && !self.strings_are_text(&other) => return Err(17),
            _ => return Err(5),
        };
        match self.literal(schema, ty, id) {
            None => Ok(Outcome::Nothing),
            Some(ty) => self.typed(call, &ty, self.literal_levels(schema, &ty)),
        }
    }

    /// The second entry of lookup.
    pub fn part(self, call: &Call<'_>) -> Part {
        let limits = self.taken(call.limits);
        let schema = self.whole_schema(limits, call.schema);
        self.part_under(&Call { limits, ..*call }, &schema)
    }

    /// The same, where the schema has been read.
    pub fn part_under(self, call: &Call<'_>, schema: &Option<Sch>) -> Part {
        if !self.allowed(call.limits) && !self.fault(267) {
            return Part::Refused(20);
        }
        if schema.is_none() {
            return Part::Refused(2);
        }
        let limits = self.or(292, call.limits, Limits::STANDARD);
        let Some(ty) = self.given(limits, call.t0) else {
            return Part::Refused(3);
        };
        self.part_of(&ty, call.t0, call.attr)
    }

    fn part_of(self, ty: &Ty, form: &[u8], attr: u16) -> Part {
        let (Ty::Rec(_, attrs) | Ty::Act(_, attrs)) = ty else {
            return Part::Nothing;
        };
        let Some(found) = find(attrs, attr) else {
            return Part::Nothing;
        };
        let body = found.ty.form();
        let other = |a: &&Attr| self.or(214, a.name < attr, a.ty != found.ty);
        let before = attrs.iter().take_while(other);
        let after: usize = attrs
            .iter()
            .skip(before.count())
            .map(|a| a.ty.form().len())
            .sum();
        let first = form.windows(body.len()).position(|w| w == body);
        let start = self.or(215, Some(form.len() - after), first);
        let start = start.expect("the body is a part of the form");
        Part::Attribute(found.required, start..start + body.len())
    }

    /// Is the workspace all zero after this outcome?
    pub fn clears_work(self, outcome: &Outcome) -> bool {
        !self.fault(284) || *outcome != Outcome::Refused(20)
    }

    /// Is the result buffer left as it was by this outcome, but for an answer?
    pub fn spares_result(self, outcome: &Outcome) -> bool {
        match outcome {
            Outcome::Refused(20) => !self.fault(285),
            Outcome::Measured(..) => !self.fault(535),
            _ => true,
        }
    }
}
