//! Types on which a published function takes time that doubles with each
//! record around a record.
//!
//! The consistency test walks the attributes that two records share twice, and
//! the permissive subtype test walks those of an open record again where the
//! answer was no. Bounds, folds and lookups ask the latter.

use crate::types::{EntityRecordKind, OpenTag, Type};

/// So many records around each other are put to the published functions: no
/// type of the standard limits has more.
pub const NESTED: usize = 16;

/// The most records, open ones alone or all, on a way down the type. Below an
/// action attributes are compared for equality and joined strictly.
fn nested(ty: &Type, open_alone: bool) -> usize {
    match ty {
        Type::Set {
            element_type: Some(element),
        } => nested(element, open_alone),
        Type::EntityOrRecord(EntityRecordKind::Record {
            attrs,
            open_attributes,
        }) => {
            let counts = !open_alone || *open_attributes == OpenTag::OpenAttributes;
            let below = attrs.iter().map(|(_, a)| nested(&a.attr_type, open_alone));
            counts as usize + below.max().unwrap_or(0)
        }
        _ => 0,
    }
}

/// Has the consistency test of two types too many records to walk?
pub fn consistency(a: &Type, b: &Type) -> bool {
    nested(a, false).min(nested(b, false)) > NESTED
}

/// Has the permissive subtype test too many?
pub fn subtype(lower: &Type, upper: &Type) -> bool {
    nested(lower, false).min(nested(upper, true)) > NESTED
}

/// Has the permissive bound too many? It asks both ways.
pub fn bound(a: &Type, b: &Type) -> bool {
    subtype(a, b) || subtype(b, a)
}

/// Has a permissive fold too many? Its steps open records.
pub fn fold<'a>(types: impl Iterator<Item = &'a Type>) -> bool {
    types.filter(|t| nested(t, false) > NESTED).count() > 1
}
