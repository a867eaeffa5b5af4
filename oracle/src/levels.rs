//! Levels, on the Rust's own trees: a lone form is level 1, and each set
//! element, attribute, set member, pair's value or argument of a call stands one
//! below its holder.

use crate::cedar_policy_core::ast::RestrictedExpr;
use crate::cedar_policy_core::entities::SchemaType;
use crate::forms::{read_list, read_type, Schema};
use crate::questions::{operation::*, Call, SchemaCache};
use crate::smol_str::SmolStr;
use crate::types::{AttributeType, EntityRecordKind, Type};

/// The levels of what holds parts of so many.
fn above(parts: impl Iterator<Item = usize>) -> usize {
    1 + parts.max().unwrap_or(0)
}

pub fn of_type(ty: &Type) -> usize {
    use EntityRecordKind::{ActionEntity, Record};
    match ty {
        Type::Set {
            element_type: Some(element),
        } => 1 + of_type(element),
        Type::EntityOrRecord(Record { attrs, .. } | ActionEntity { attrs, .. }) => {
            above(attrs.iter().map(|(_, attr)| of_type(&attr.attr_type)))
        }
        _ => 1,
    }
}

/// Of the plain form that a core type is written as.
pub fn of_core(ty: &SchemaType) -> usize {
    match ty {
        SchemaType::Set { element_ty } => 1 + of_core(element_ty),
        SchemaType::Record { attrs, .. } => {
            above(attrs.values().map(|attr| of_core(attr.schema_type())))
        }
        _ => 1,
    }
}

pub fn of_value(value: &RestrictedExpr) -> usize {
    match value {
        RestrictedExpr::Set(values) | RestrictedExpr::Call(_, values) => {
            above(values.iter().map(of_value))
        }
        RestrictedExpr::Record(pairs) => above(pairs.iter().map(|(_, value)| of_value(value))),
        _ => 1,
    }
}

/// The levels of the deepest type that an answer is made from: of the two types
/// of a bound, of the list of a fold, of the bodies that a lookup joins, of what
/// is converted. None of other calls, and where a form is not whole.
pub fn deepest_made_from(call: &Call<'_>, cache: &SchemaCache<'_>) -> Option<usize> {
    let read = |form| read_type(call.limits, form);
    match call.op {
        BOUND => Some(of_type(&read(call.t0)?).max(of_type(&read(call.t1)?))),
        FOLD => {
            let types = read_list(call.limits, call.t0)?;
            Some(types.iter().map(of_type).max().unwrap_or(1))
        }
        LOOKUP => deepest_joined(cache.whole().ok()?, &read(call.t0)?, call.attr),
        CONVERT => Some(of_type(&read(call.t0)?)),
        _ => None,
    }
}

/// The levels of the deepest body of an attribute that a lookup on the type
/// joins.
fn deepest_joined(schema: &Schema, ty: &Type, attr: u16) -> Option<usize> {
    use EntityRecordKind::{ActionEntity, Entity, Record};
    let name = SmolStr::from_number(attr);
    let body = |attr: &AttributeType| of_type(&attr.attr_type);
    match ty {
        Type::EntityOrRecord(Record { attrs, .. } | ActionEntity { attrs, .. }) => {
            attrs.get_attr(&name).map(body)
        }
        Type::EntityOrRecord(Entity(lub)) => {
            let entries = lub.iter().filter_map(|n| schema.types.get_entity_type(n));
            entries.filter_map(|e| e.attr(&name)).map(body).max()
        }
        _ => None,
    }
}
