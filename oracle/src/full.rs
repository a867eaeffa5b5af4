//! Operation 11, which the published functions do not have: the model answers,
//! on forms that have been found whole. The published walk gives the same
//! another way.

use crate::cedar_policy_core::ast::Name;
use crate::cedar_policy_core::ast::RestrictedExpr::{self, Call, Record, Set};
use crate::cedar_policy_core::entities::SchemaType;
use crate::cedar_policy_core::extensions::{ExtensionFunction, Extensions};
use crate::forms::Schema;
use crate::limits::Limits;
use crate::model::{Counts, Rules, Walk};
use crate::published::typecheck_restricted_expr;
use crate::questions::{self, operation};
use crate::trees::Sch;
use crate::types::Type;

/// Forms come here that were found whole under some limits.
const WIDEST: Limits = Limits::LARGEST;

/// The same call of operation 8.
pub fn as_conforms<'a>(call: &questions::Call<'a>) -> questions::Call<'a> {
    let op = operation::CONFORMS;
    questions::Call { op, ..*call }
}

/// Full conformance; none where the walk reaches an unknown function.
pub fn conforms(schema: &Sch, ty: &[u8], value: &[u8]) -> Option<bool> {
    let ty = Rules::SOUND.whole_type(WIDEST, ty);
    let value = Rules::SOUND.whole_value(WIDEST, value);
    let (ty, value) = (ty.expect("a whole type"), value.expect("a whole value"));
    match Rules::SOUND.conforms(Counts::Declared, schema, &ty, &value) {
        Walk::Unknown => None,
        walk => Some(walk == Walk::Yes),
    }
}

/// Hold an answer to the published walk: a yes is its yes and 7 its 7, so where
/// it says no the answer is no; where every count fits the answer is its own;
/// and it gives the answer another way.
pub fn hold(answer: Option<bool>, schema: &Schema, ty: &Type, value: &RestrictedExpr) {
    let published = typecheck_restricted_expr(schema, ty, value);
    if answer != Some(false) {
        assert_eq!(answer, published, "11 says yes or 7 where 8 does not");
    }
    if counts_fit(&schema.extensions, value) {
        assert_eq!(answer, published, "11 is not 8 though every count fits");
    }
    let barren = conforms_by_published(schema, ty, value);
    assert_eq!(answer, barren, "the model's walk of 11");
}

/// Full conformance as the published walk gives it, of the value with each
/// miscounted call made one of a function that returns no extension. Wherever a
/// walk reaches such a call it says no, and nothing else looks at a call.
pub fn conforms_by_published(schema: &Schema, ty: &Type, value: &RestrictedExpr) -> Option<bool> {
    let extensions = &schema.extensions;
    let unused = |n: &Name| extensions.func(n).is_err() && !any_call(value, &|m, _| m == n);
    let name = (0..=u16::MAX).map(Name).find(unused);
    let name = name.expect("a name that is not used");
    let barren = ExtensionFunction::new(Some(SchemaType::Bool), Vec::new());
    let value = without_miscounts(extensions, value, name);
    let extensions = extensions.with(name, barren);
    let answer = ty.typecheck_restricted_expr(value.as_borrowed(), &extensions);
    answer.ok()
}

/// Does every call of a known function, anywhere in the value, have as many
/// arguments as the function declares?
pub fn counts_fit(extensions: &Extensions<'_>, value: &RestrictedExpr) -> bool {
    !any_call(value, &|name, args| miscounted(extensions, name, args))
}

/// Has a call of a known function another count than the function declares?
fn miscounted(extensions: &Extensions<'_>, name: &Name, args: &[RestrictedExpr]) -> bool {
    let function = extensions.func(name);
    function.is_ok_and(|f| f.arg_types().len() != args.len())
}

type CallTest<'a> = &'a dyn Fn(&Name, &[RestrictedExpr]) -> bool;

/// Does any call in the value satisfy the test?
fn any_call(value: &RestrictedExpr, test: CallTest<'_>) -> bool {
    match value {
        Call(name, args) => test(name, args) || args.iter().any(|v| any_call(v, test)),
        Set(values) => values.iter().any(|v| any_call(v, test)),
        Record(pairs) => pairs.iter().any(|(_, v)| any_call(v, test)),
        _ => false,
    }
}

/// The value with each miscounted call made one of that function.
fn without_miscounts(
    extensions: &Extensions<'_>,
    value: &RestrictedExpr,
    barren: Name,
) -> RestrictedExpr {
    let changed = |v: &RestrictedExpr| without_miscounts(extensions, v, barren);
    match value {
        Call(name, args) if miscounted(extensions, name, args) => Call(barren, Vec::new()),
        Call(name, args) => Call(*name, args.iter().map(changed).collect()),
        Set(values) => Set(values.iter().map(changed).collect()),
        Record(pairs) => Record(pairs.iter().map(|(k, v)| (*k, changed(v))).collect()),
        other => other.clone(),
    }
}
