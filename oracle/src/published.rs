//! The published functions on decoded inputs, for a caller outside this crate:
//! the text keeps most of them to itself.

use crate::cedar_policy_core::ast::{EntityUID, RestrictedExpr};
use crate::cedar_policy_core::entities::SchemaType;
use crate::forms::Schema;
use crate::smol_str::SmolStr;
use crate::types::{AttributeType, Type};
use crate::validation_errors::LubHelp;
use crate::ValidationMode;

#[inline]
pub fn is_subtype(s: &Schema, a: &Type, b: &Type, mode: ValidationMode) -> bool {
    Type::is_subtype(&s.types, a, b, mode)
}

#[inline]
pub fn least_upper_bound(
    s: &Schema,
    a: &Type,
    b: &Type,
    mode: ValidationMode,
) -> Result<Type, LubHelp> {
    Type::least_upper_bound(&s.types, a, b, mode)
}

#[inline]
pub fn reduce_to_least_upper_bound(
    s: &Schema,
    list: &[Type],
    mode: ValidationMode,
) -> Result<Type, LubHelp> {
    Type::reduce_to_least_upper_bound(&s.types, list, mode)
}

#[inline]
pub fn are_types_disjoint(a: &Type, b: &Type) -> bool {
    Type::are_types_disjoint(a, b)
}

#[inline]
pub fn lookup_attribute_type(s: &Schema, t: &Type, attr: &SmolStr) -> Option<AttributeType> {
    Type::lookup_attribute_type(&s.types, t, attr)
}

#[inline]
pub fn may_have_attr(s: &Schema, t: &Type, attr: &SmolStr) -> bool {
    Type::may_have_attr(&s.types, t, attr)
}

#[inline]
pub fn all_attributes(s: &Schema, t: &Type) -> Vec<SmolStr> {
    t.all_attributes(&s.types)
}

#[inline]
pub fn is_consistent_with(t: &Type, core: &SchemaType) -> bool {
    t.is_consistent_with(core)
}

#[inline]
pub fn convert(t: Type) -> Option<SchemaType> {
    SchemaType::try_from(t).ok()
}

/// None where the text gives an error.
#[inline]
pub fn typecheck_restricted_expr(s: &Schema, t: &Type, value: &RestrictedExpr) -> Option<bool> {
    t.typecheck_restricted_expr(value.as_borrowed(), &s.extensions)
        .ok()
}

#[inline]
pub fn euid_literal(s: &Schema, uid: &EntityUID) -> Option<Type> {
    Type::euid_literal(uid, &s.types)
}
