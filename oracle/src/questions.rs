//! One call: 01's questions in 01's order, put to the published functions. In
//! mode 2 and in operation 11 the rule itself is the model's, and types too deep
//! for a published function are the model's too.

use crate::cedar_policy_core::ast::{EntityUID, RestrictedExpr};
use crate::cedar_policy_core::entities::SchemaType;
use crate::deep;
use crate::forms::{
    plain, read_list, read_schema, read_type, read_value, write_core, write_type, Schema,
};
use crate::full;
use crate::levels;
use crate::limits::Limits;
use crate::loose;
use crate::model::Rules;
use crate::published::typecheck_restricted_expr;
use crate::schema::ValidatorSchema;
use crate::smol_str::SmolStr;
use crate::trees::Sch;
use crate::types::{AttributeType, EntityLUB, EntityRecordKind, Type};
use crate::validation_errors::LubHelp;
use crate::ValidationMode;
use std::cell::{Cell, OnceCell};

/// The operations of a job.
pub mod operation {
    pub const SUBTYPE: u8 = 0;
    pub const BOUND: u8 = 1;
    pub const DISJOINT: u8 = 2;
    pub const LOOKUP: u8 = 3;
    pub const MAY_HAVE: u8 = 4;
    pub const NAMES: u8 = 5;
    pub const CONSISTENT: u8 = 6;
    pub const CONVERT: u8 = 7;
    pub const CONFORMS: u8 = 8;
    pub const FOLD: u8 = 9;
    pub const LITERAL: u8 = 10;
    /// Full conformance.
    pub const FULL: u8 = 11;
    pub const COUNT: usize = 12;
    /// Measuring, which is no operation of a job: a type, and a value.
    pub const MEASURE_TYPE: u8 = 254;
    pub const MEASURE_VALUE: u8 = 253;
}
use operation::*;

/// What a call is asked with.
#[derive(Clone, Copy, Debug)]
pub struct Call<'a> {
    pub limits: Limits,
    pub op: u8,
    pub mode: u8,
    pub attr: u16,
    pub schema: &'a [u8],
    /// The first type, the list, a literal's uid, or what is measured.
    pub t0: &'a [u8],
    /// The second type, or conformance's value.
    pub t1: &'a [u8],
    /// Length of the result buffer.
    pub room: usize,
    /// Length of the workspace.
    pub work: usize,
}

impl<'a> Call<'a> {
    /// At the standard limits, strict, without a buffer.
    pub fn plain(op: u8, schema: &'a [u8], t0: &'a [u8], t1: &'a [u8]) -> Call<'a> {
        Call {
            limits: Limits::STANDARD,
            op,
            mode: 0,
            attr: 0,
            schema,
            t0,
            t1,
            room: 0,
            work: 0,
        }
    }
}

/// Does the operation take a schema?
pub fn takes_schema(op: u8) -> bool {
    !matches!(
        op,
        DISJOINT | CONSISTENT | CONVERT | MEASURE_TYPE | MEASURE_VALUE
    )
}

/// What a call gives.
#[derive(Clone, Debug, PartialEq, Eq)]
pub enum Outcome {
    Refused(u8),
    Yes,
    No,
    Nothing,
    Typed(Written),
    /// A lookup's answer: required, and the type.
    Attribute(bool, Written),
    /// A name list, which tells no levels.
    Named(Vec<u8>),
    /// What was measured: its length and its levels.
    Measured(usize, usize),
}

/// A type that is written, and its levels.
#[derive(Clone, Debug, PartialEq, Eq)]
pub struct Written {
    pub form: Vec<u8>,
    pub levels: usize,
}

/// A form that is written is read under these: it may yet be too long.
const WRITTEN: Limits = Limits {
    bytes: usize::MAX,
    ..Limits::LARGEST
};

impl Written {
    fn of(ty: &Type) -> Written {
        Written {
            form: write_type(ty),
            levels: levels::of_type(ty),
        }
    }

    /// Of a form that the model wrote.
    fn of_form(form: Vec<u8>) -> Written {
        let ty = read_type(WRITTEN, &form).expect("a whole type");
        let levels = levels::of_type(&ty);
        Written { form, levels }
    }

    fn of_core(ty: &SchemaType) -> Written {
        Written {
            form: write_core(ty),
            levels: levels::of_core(ty),
        }
    }
}

impl Outcome {
    /// The bytes that are written, if any are.
    pub fn bytes(&self) -> Option<&[u8]> {
        match self {
            Outcome::Named(form) => Some(form),
            _ => self.written().map(|written| written.form.as_slice()),
        }
    }

    /// The type that is written, if one is.
    pub fn written(&self) -> Option<&Written> {
        match self {
            Outcome::Typed(written) | Outcome::Attribute(_, written) => Some(written),
            _ => None,
        }
    }
}

/// What the second entry of lookup gives: where in the caller's form the
/// attribute's body stands.
#[derive(Clone, Debug, PartialEq, Eq)]
pub enum Part {
    Refused(u8),
    Nothing,
    Attribute(bool, std::ops::Range<usize>),
}

type Refusable<T> = Result<T, u8>;

/// Answer one call from its bytes.
pub fn answer(call: &Call<'_>) -> Outcome {
    answer_with(call, &SchemaCache::of(call.limits, call.schema))
}

/// A schema under some limits, read when a call first asks for it.
pub struct SchemaCache<'a> {
    pub limits: Limits,
    pub form: &'a [u8],
    read: OnceCell<Option<Schema>>,
    tree: OnceCell<Sch>,
    /// How many calls were the model's alone: see `deep`.
    pub left_out: Cell<u64>,
}

impl<'a> SchemaCache<'a> {
    pub fn of(limits: Limits, form: &'a [u8]) -> SchemaCache<'a> {
        SchemaCache {
            limits,
            form,
            read: OnceCell::new(),
            tree: OnceCell::new(),
            left_out: Cell::new(0),
        }
    }

    pub fn whole(&self) -> Refusable<&Schema> {
        let read = || read_schema(self.limits, self.form);
        self.read.get_or_init(read).as_ref().ok_or(2)
    }

    /// What the model reads, of a schema that is whole.
    pub fn tree(&self) -> &Sch {
        let read = || Rules::SOUND.whole_schema(self.limits, self.form);
        self.tree.get_or_init(|| read().expect("a whole schema"))
    }

    /// The model's answer to a call that is too deep.
    fn left_out(&self, call: &Call<'_>) -> Outcome {
        self.left_out.set(self.left_out.get() + 1);
        let outcome = Rules::SOUND.answer(call);
        if let Some(written) = outcome.written() {
            let read = Written::of_form(written.form.clone());
            assert_eq!(*written, read, "the levels that the model tells");
        }
        outcome
    }
}

/// Answer one call whose schema may have been read before, under its limits.
pub fn answer_with(call: &Call<'_>, schema: &SchemaCache<'_>) -> Outcome {
    if !call.limits.allowed() {
        return Outcome::Refused(20);
    }
    let outcome = match call.op {
        SUBTYPE => subtype(call, schema),
        BOUND => bound(call, schema),
        DISJOINT => disjoint(call),
        LOOKUP => lookup(call, schema),
        MAY_HAVE => may_have(call, schema),
        NAMES => names(call, schema),
        CONSISTENT => consistent(call, schema),
        CONVERT => convert(call),
        CONFORMS => conforms(call, schema),
        FOLD => fold(call, schema),
        LITERAL => literal(call, schema),
        FULL => conforms_fully(call, schema),
        MEASURE_TYPE => measure_type(call),
        MEASURE_VALUE => measure_value(call),
        _ => panic!("no operation {}", call.op),
    };
    outcome.unwrap_or_else(Outcome::Refused)
}

/// Who knows the rule of a mode.
enum Judge {
    Published(ValidationMode),
    Model,
}

fn judge(call: &Call<'_>) -> Refusable<Judge> {
    match call.mode {
        0 => Ok(Judge::Published(ValidationMode::Strict)),
        1 => Ok(Judge::Published(ValidationMode::Permissive)),
        loose::LOOSE => Ok(Judge::Model),
        _ => Err(1),
    }
}

impl Judge {
    /// May the rule walk a type again?
    fn permits(&self) -> bool {
        !matches!(self, Judge::Published(ValidationMode::Strict))
    }
}

fn first(call: &Call<'_>) -> Refusable<Type> {
    read_type(call.limits, call.t0).ok_or(3)
}

fn second(call: &Call<'_>) -> Refusable<Type> {
    read_type(call.limits, call.t1).ok_or(4)
}

fn yes(answer: bool) -> Outcome {
    match answer {
        true => Outcome::Yes,
        false => Outcome::No,
    }
}

/// A reason's number.
pub fn reason(help: LubHelp) -> u8 {
    match help {
        LubHelp::AttributeQualifier => 11,
        LubHelp::RecordWidth => 12,
        LubHelp::EntityType => 13,
        LubHelp::EntityRecord => 14,
        LubHelp::None => 15,
    }
}

/// A bound, of any length.
fn written(bound: Result<Type, LubHelp>) -> Refusable<Written> {
    bound.map(|ty| Written::of(&ty)).map_err(reason)
}

/// The last question of every call that writes.
fn fits(call: &Call<'_>, form: &[u8]) -> Refusable<()> {
    if form.len() > call.room.min(call.limits.bytes) {
        return Err(10);
    }
    Ok(())
}

/// A type that fits.
fn fitting(call: &Call<'_>, written: Written) -> Refusable<Written> {
    fits(call, &written.form)?;
    Ok(written)
}

fn typed(call: &Call<'_>, written: Written) -> Refusable<Outcome> {
    Ok(Outcome::Typed(fitting(call, written)?))
}

/// The question about the size of one step.
fn step_fits(call: &Call<'_>, form: &[u8]) -> Refusable<()> {
    if form.len() > (call.work / 2).min(call.limits.bytes) {
        return Err(9);
    }
    Ok(())
}

fn subtype(call: &Call<'_>, cache: &SchemaCache<'_>) -> Refusable<Outcome> {
    let judge = judge(call)?;
    let schema = cache.whole()?;
    let (t0, t1) = (first(call)?, second(call)?);
    if judge.permits() && deep::subtype(&t0, &t1) {
        return Ok(cache.left_out(call));
    }
    Ok(yes(match judge {
        Judge::Published(mode) => Type::is_subtype(&schema.types, &t0, &t1, mode),
        Judge::Model => {
            let answer = loose::is_subtype(call.t0, call.t1);
            let permissive = ValidationMode::Permissive;
            let published = Type::is_subtype(&schema.types, &t0, &t1, permissive);
            assert_eq!(answer, published, "mode 2 is not permissive");
            answer
        }
    }))
}

fn bound(call: &Call<'_>, cache: &SchemaCache<'_>) -> Refusable<Outcome> {
    let judge = judge(call)?;
    let schema = cache.whole()?;
    let (t0, t1) = (first(call)?, second(call)?);
    if judge.permits() && deep::bound(&t0, &t1) {
        return Ok(cache.left_out(call));
    }
    let bound = match judge {
        Judge::Published(mode) => written(Type::least_upper_bound(&schema.types, &t0, &t1, mode))?,
        Judge::Model => Written::of_form(bound_loosely(schema, call.t0, call.t1)?),
    };
    typed(call, bound)
}

/// The model's bound in mode 2, which the published functions give too.
fn bound_loosely(schema: &Schema, a: &[u8], b: &[u8]) -> Refusable<Vec<u8>> {
    let bound = loose::bound(a, b);
    let published = loose::bound_by_published(schema, a, b);
    assert_eq!(bound, published, "the model's bound in mode 2");
    bound
}

fn disjoint(call: &Call<'_>) -> Refusable<Outcome> {
    let (t0, t1) = (first(call)?, second(call)?);
    Ok(yes(Type::are_types_disjoint(&t0, &t1)))
}

fn fold(call: &Call<'_>, cache: &SchemaCache<'_>) -> Refusable<Outcome> {
    let judge = judge(call)?;
    let schema = cache.whole()?;
    let types = read_list(call.limits, call.t0).ok_or(3)?;
    if judge.permits() && deep::fold(types.iter()) {
        return Ok(cache.left_out(call));
    }
    let bound = match judge {
        Judge::Published(mode) => folded(call, schema, mode, &types)?,
        Judge::Model => Written::of_form(folded_loosely(call, schema, &types)?),
    };
    typed(call, bound)
}

/// The steps of the fold one by one, then the published fold over all.
fn folded(
    call: &Call<'_>,
    schema: &Schema,
    mode: ValidationMode,
    types: &[Type],
) -> Refusable<Written> {
    let schema = &schema.types;
    let mut last = Type::Never;
    for ty in types {
        last = Type::least_upper_bound(schema, &last, ty, mode).map_err(reason)?;
        step_fits(call, &write_type(&last))?;
    }
    let all = Type::reduce_to_least_upper_bound(schema, types, mode).map_err(reason)?;
    assert_eq!(all, last, "the fold differs from its steps");
    Ok(Written::of(&all))
}

/// The steps of the fold in mode 2, then the model's fold over all.
fn folded_loosely(call: &Call<'_>, schema: &Schema, types: &[Type]) -> Refusable<Vec<u8>> {
    let mut last = write_type(&Type::Never);
    for ty in types {
        last = bound_loosely(schema, &last, &write_type(ty))?;
        step_fits(call, &last)?;
    }
    let all = loose::fold(call.t0)?;
    assert_eq!(all, last, "the fold differs from its steps");
    Ok(all)
}

/// The names of an entity type, ascending; none for other types.
fn entity_names(ty: &Type) -> Option<&EntityLUB> {
    match ty {
        Type::EntityOrRecord(EntityRecordKind::Entity(lub)) => Some(lub),
        _ => None,
    }
}

/// Are the attributes of an entity's types too deep to be folded?
fn deep_attributes(schema: &Schema, lub: &EntityLUB) -> bool {
    let entries = lub.iter().filter_map(|n| schema.types.get_entity_type(n));
    let attrs = entries.flat_map(|e| e.attributes().iter());
    deep::fold(attrs.map(|(_, attr)| &attr.attr_type))
}

/// One attribute over the types of an entity: each step's size is asked until
/// the attribute is absent or has no bound.
fn attribute_steps(call: &Call<'_>, schema: &Schema, lub: &EntityLUB, attr: &str) -> Refusable<()> {
    let mut last: Option<Type> = None;
    for name in lub.iter() {
        let entry = schema.types.get_entity_type(name);
        let Some(found) = entry.and_then(|e| e.attr(attr)) else {
            return Ok(());
        };
        let Some(before) = last else {
            last = Some(found.attr_type.clone());
            continue;
        };
        let step = Type::least_upper_bound(
            &schema.types,
            &before,
            &found.attr_type,
            ValidationMode::Permissive,
        );
        let Ok(step) = step else { return Ok(()) };
        step_fits(call, &write_type(&step))?;
        last = Some(step);
    }
    Ok(())
}

fn lookup(call: &Call<'_>, cache: &SchemaCache<'_>) -> Refusable<Outcome> {
    let schema = cache.whole()?;
    let ty = first(call)?;
    let attr = SmolStr::from_number(call.attr);
    if let Some(lub) = entity_names(&ty) {
        if deep_attributes(schema, lub) {
            return Ok(cache.left_out(call));
        }
        attribute_steps(call, schema, lub, &attr)?;
    }
    match Type::lookup_attribute_type(&schema.types, &ty, &attr) {
        None => Ok(Outcome::Nothing),
        Some(AttributeType {
            attr_type,
            is_required,
        }) => Ok(Outcome::Attribute(
            is_required,
            fitting(call, Written::of(&attr_type))?,
        )),
    }
}

fn may_have(call: &Call<'_>, cache: &SchemaCache<'_>) -> Refusable<Outcome> {
    let schema = cache.whole()?;
    let ty = first(call)?;
    let attr = SmolStr::from_number(call.attr);
    Ok(yes(Type::may_have_attr(&schema.types, &ty, &attr)))
}

fn names(call: &Call<'_>, cache: &SchemaCache<'_>) -> Refusable<Outcome> {
    let schema = cache.whole()?;
    let ty = first(call)?;
    if let Some(lub) = entity_names(&ty) {
        if deep_attributes(schema, lub) {
            return Ok(cache.left_out(call));
        }
        let entry = lub
            .iter()
            .next()
            .and_then(|n| schema.types.get_entity_type(n));
        for attr in entry.iter().flat_map(|e| e.attributes().keys()) {
            attribute_steps(call, schema, lub, attr)?;
        }
    }
    let form = name_list(&ty, &schema.types);
    fits(call, &form)?;
    Ok(Outcome::Named(form))
}

fn name_list(ty: &Type, schema: &ValidatorSchema) -> Vec<u8> {
    let names = ty.all_attributes(schema);
    names
        .iter()
        .flat_map(|n| n.number().to_le_bytes())
        .collect()
}

fn consistent(call: &Call<'_>, cache: &SchemaCache<'_>) -> Refusable<Outcome> {
    let (t0, t1) = (first(call)?, second(call)?);
    let core = plain(&t1).ok_or(6)?;
    if deep::consistency(&t0, &t1) {
        return Ok(cache.left_out(call));
    }
    Ok(yes(t0.is_consistent_with(&core)))
}

fn convert(call: &Call<'_>) -> Refusable<Outcome> {
    let core = SchemaType::try_from(first(call)?).map_err(|_| 8)?;
    typed(call, Written::of_core(&core))
}

fn conforms(call: &Call<'_>, cache: &SchemaCache<'_>) -> Refusable<Outcome> {
    let schema = cache.whole()?;
    let ty = first(call)?;
    let value = read_value(call.limits, call.t1)?;
    let answer = typecheck_restricted_expr(schema, &ty, &value);
    Ok(yes(answer.ok_or(7)?))
}

/// The model's walk of operation 11, which the published walk confirms.
fn conforms_fully(call: &Call<'_>, cache: &SchemaCache<'_>) -> Refusable<Outcome> {
    let schema = cache.whole()?;
    let ty = first(call)?;
    let value = read_value(call.limits, call.t1)?;
    let answer = full::conforms(cache.tree(), call.t0, call.t1);
    full::hold(answer, schema, &ty, &value);
    Ok(yes(answer.ok_or(7)?))
}

/// A uid has no string: all else is 5, whatever its strings.
fn uid(limits: Limits, form: &[u8]) -> Refusable<EntityUID> {
    match read_value(limits, form) {
        Ok(RestrictedExpr::Euid(uid)) => Ok(uid),
        _ => Err(5),
    }
}

fn literal(call: &Call<'_>, cache: &SchemaCache<'_>) -> Refusable<Outcome> {
    let schema = cache.whole()?;
    let uid = uid(call.limits, call.t0)?;
    match Type::euid_literal(&uid, &schema.types) {
        None => Ok(Outcome::Nothing),
        Some(ty) => typed(call, Written::of(&ty)),
    }
}

fn measure_type(call: &Call<'_>) -> Refusable<Outcome> {
    let levels = levels::of_type(&first(call)?);
    Ok(Outcome::Measured(call.t0.len(), levels))
}

fn measure_value(call: &Call<'_>) -> Refusable<Outcome> {
    let value = read_value(call.limits, call.t0)?;
    Ok(Outcome::Measured(call.t0.len(), levels::of_value(&value)))
}

/// The second entry of lookup.
pub fn lookup_part(call: &Call<'_>) -> Part {
    lookup_part_with(call, &SchemaCache::of(call.limits, call.schema))
}

/// The same, where the schema may have been read before.
pub fn lookup_part_with(call: &Call<'_>, cache: &SchemaCache<'_>) -> Part {
    if !call.limits.allowed() {
        return Part::Refused(20);
    }
    match cache.whole().and_then(|_| first(call)) {
        Ok(ty) => own_part(&ty, call.attr),
        Err(number) => Part::Refused(number),
    }
}

/// Where an attribute's body stands in the form of a type.
fn own_part(ty: &Type, attr: u16) -> Part {
    let (attrs, header) = match ty {
        Type::EntityOrRecord(EntityRecordKind::Record { attrs, .. }) => (attrs, 4),
        Type::EntityOrRecord(EntityRecordKind::ActionEntity { attrs, .. }) => (attrs, 5),
        _ => return Part::Nothing,
    };
    let name = SmolStr::from_number(attr);
    let mut at = header + 5 * attrs.iter().count();
    for (other, found) in attrs.iter() {
        let end = at + write_type(&found.attr_type).len();
        if *other == name {
            return Part::Attribute(found.is_required, at..end);
        }
        at = end;
    }
    Part::Nothing
}

/// What the published function, or the model in mode 2, gives where 01 asks
/// about sizes: no step and no answer is measured. None for other operations
/// and for forms not whole.
pub fn unmeasured(call: &Call<'_>) -> Option<Outcome> {
    let schema = &read_schema(call.limits, call.schema)?.types;
    let attr = SmolStr::from_number(call.attr);
    Some(match call.op {
        BOUND => {
            let (t0, t1) = (first(call).ok()?, second(call).ok()?);
            unmeasured_bound(match judge(call).ok()? {
                Judge::Published(mode) => written(Type::least_upper_bound(schema, &t0, &t1, mode)),
                Judge::Model => loose::bound(call.t0, call.t1).map(Written::of_form),
            })
        }
        FOLD => {
            let types = read_list(call.limits, call.t0)?;
            unmeasured_bound(match judge(call).ok()? {
                Judge::Published(mode) => {
                    written(Type::reduce_to_least_upper_bound(schema, &types, mode))
                }
                Judge::Model => loose::fold(call.t0).map(Written::of_form),
            })
        }
        LOOKUP => match Type::lookup_attribute_type(schema, &first(call).ok()?, &attr) {
            None => Outcome::Nothing,
            Some(found) => Outcome::Attribute(found.is_required, Written::of(&found.attr_type)),
        },
        NAMES => Outcome::Named(name_list(&first(call).ok()?, schema)),
        _ => return None,
    })
}

fn unmeasured_bound(bound: Refusable<Written>) -> Outcome {
    bound.map_or_else(Outcome::Refused, Outcome::Typed)
}
