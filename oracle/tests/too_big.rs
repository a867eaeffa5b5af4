//! The published functions take types and values that limits refuse.

use oracle::cedar_policy_core::ast::RestrictedExpr;
use oracle::forms::{read_schema, read_type, read_value, write_type};
use oracle::limits::Limits;
use oracle::published::{is_subtype, typecheck_restricted_expr};
use oracle::types::Type;
use oracle::ValidationMode;

const STANDARD: Limits = Limits::STANDARD;

/// Sixteen sets around a type: seventeen levels.
fn sixteen_sets(of: Type) -> Type {
    (0..16).fold(of, |t, _| Type::set(t))
}

#[test]
fn a_type_of_seventeen_levels() {
    let schema = read_schema(STANDARD, &[0; 6]).expect("whole");
    let deep = sixteen_sets(Type::primitive_long());
    assert!(read_type(STANDARD, &write_type(&deep)).is_none());
    assert!(is_subtype(&schema, &deep, &deep, ValidationMode::Strict));
}

#[test]
fn a_value_of_seventeen_levels() {
    let schema = read_schema(STANDARD, &[0; 6]).expect("whole");
    let mut form = vec![0];
    let mut value = RestrictedExpr::Bool(false);
    for _ in 0..16 {
        let length = form.len() as u8;
        form = [&[5, 1, 0, length, 0], form.as_slice()].concat();
        value = RestrictedExpr::Set(vec![value]);
    }
    assert_eq!(form.len(), 81);
    assert_eq!(read_value(STANDARD, &form).err(), Some(5));
    let any_set = read_type(STANDARD, &[6]).expect("whole");
    assert_eq!(
        typecheck_restricted_expr(&schema, &any_set, &value),
        Some(true)
    );
}
