//! Claims about mode 2, which the model judges: its bounds and folds beside
//! the published permissive ones, order and conformance.

use super::{actions_alike, conforms, given, has_set, Given, Tallies, STANDARD};
use crate::forms::{read_type, write_type, Schema};
use crate::loose::{bound, bound_by_published, is_subtype, permissive, untyped, Formed};
use crate::model::{Mode, Rules};
use crate::trees::{Ty, Val};
use crate::types::Type;
use crate::ValidationMode::{Permissive, Strict};

fn under(schema: &Schema, a: &Type, b: &Type) -> bool {
    Type::is_subtype(&schema.types, a, b, Permissive)
}

pub(super) fn claims(tallies: &mut Tallies, schema: &Schema, types: [&Given; 3], value: &Val) {
    let [a, b, _] = types;
    let joined = bound(&a.form, &b.form);
    alone(tallies, schema, [a, b], &joined);
    beside_others(tallies, schema, [a, b], &joined);
    below_permissive(tallies, schema, [a, b], &joined);
    of_sets(tallies, [a, b], &joined);
    let ty = joined.ok().and_then(|form| read_type(STANDARD, &form));
    if let Some(joined) = &ty {
        above(tallies, schema, [a, b], joined, value);
    }
    tightness(tallies, schema, types, ty.as_ref());
    folds(tallies, schema, types);
}

/// Symmetry, subtype, the form.
fn alone(tallies: &mut Tallies, schema: &Schema, types: [&Given; 2], joined: &Formed) {
    let [a, b] = types;
    let forms: [&[u8]; 2] = [&a.form, &b.form];
    let mut claim = |name, holds| tallies.claim(name, holds, &forms);
    let same = *joined == bound(&b.form, &a.form);
    claim("loose: bound is symmetric, reasons too", same);
    let same = is_subtype(&a.form, &b.form) == under(schema, &a.ty, &b.ty);
    claim("loose: subtype is permissive subtype", same);
    let Ok(form) = joined else { return };
    let short = form.len() <= a.form.len() + b.form.len();
    claim("loose: a bound is no longer than both together", short);
    let whole = read_type(STANDARD, form).is_some() || form.len() > STANDARD.bytes;
    claim("loose: a bound is whole but for its length", whole);
}

/// Where mode 2 is as the published modes.
fn beside_others(tallies: &mut Tallies, schema: &Schema, types: [&Given; 2], joined: &Formed) {
    let [a, b] = types;
    let forms: [&[u8]; 2] = [&a.form, &b.form];
    let mut claim = |name, holds| tallies.claim(name, holds, &forms);
    let same = *joined == bound_by_published(schema, &a.form, &b.form);
    claim(
        "loose: a bound is the permissive one of types with 06 for unlike sets",
        same,
    );
    let as_permissive = *joined == permissive(schema, &a.tree, &b.tree);
    if !has_set(&a.tree) && !has_set(&b.tree) {
        claim(
            "loose: a bound is the permissive one, no set",
            as_permissive,
        );
    }
    let (x, y) = untyped(schema, &a.tree, &b.tree);
    if x == a.tree && y == b.tree {
        claim(
            "loose: a bound is the permissive one, no unlike sets",
            as_permissive,
        );
    }
    if joined.is_err() {
        claim("loose: a reason is the permissive one", as_permissive);
    }
    if let Ok(strict) = Type::least_upper_bound(&schema.types, &a.ty, &b.ty, Strict) {
        let same = *joined == Ok(write_type(&strict));
        claim("loose: a bound is the strict one, where there is one", same);
    }
}

/// Where there is a permissive bound, mode 2's is below it.
fn below_permissive(tallies: &mut Tallies, schema: &Schema, types: [&Given; 2], joined: &Formed) {
    let [a, b] = types;
    let Ok(upper) = permissive(schema, &a.tree, &b.tree) else {
        return;
    };
    let forms: [&[u8]; 2] = [&a.form, &b.form];
    let mut claim = |name, holds| tallies.claim(name, holds, &forms);
    let Ok(form) = joined else {
        return claim("loose: a bound is below the permissive one", false);
    };
    let long = form.len() >= upper.len();
    claim("loose: a bound is no shorter than the permissive one", long);
    let [lower, upper] = [form, &upper].map(|f| read_type(STANDARD, f));
    if let (Some(lower), Some(upper)) = (lower, upper) {
        let below = under(schema, &lower, &upper);
        claim("loose: a bound is below the permissive one", below);
        let same = lower == upper;
        claim(
            "loose: a bound is the permissive one, where there is one",
            same,
        );
    }
}

/// Two sets have the set of their elements' bound, or 06.
fn of_sets(tallies: &mut Tallies, types: [&Given; 2], joined: &Formed) {
    let [a, b] = types;
    let (Ty::Set(x), Ty::Set(y)) = (&a.tree, &b.tree) else {
        return;
    };
    let by_element = match bound(&x.form(), &y.form()) {
        Ok(element) => [&[7], element.as_slice()].concat(),
        Err(_) => vec![6],
    };
    let forms: [&[u8]; 2] = [&a.form, &b.form];
    let same = *joined == Ok(by_element);
    tallies.claim(
        "loose: two sets have their elements' bound or 06",
        same,
        &forms,
    );
}

/// Both types and their values are under the bound.
fn above(tallies: &mut Tallies, schema: &Schema, types: [&Given; 2], joined: &Type, value: &Val) {
    let [a, b] = types;
    let holds = under(schema, &a.ty, joined) && under(schema, &b.ty, joined);
    let name = match actions_alike(&types) {
        true => "loose: a bound is above both, actions alike",
        false => "loose: a bound is above both, actions unlike",
    };
    tallies.claim(name, holds, &[&a.form, &b.form]);
    let has = |t: &Type| conforms(schema, t, value) == Some(true);
    if has(&a.ty) || has(&b.ty) {
        let forms: [&[u8]; 3] = [&a.form, &b.form, &value.form()];
        tallies.claim("loose: a value conforms to the bound", has(joined), &forms);
    }
}

/// The third type is above both: the bound is below it.
fn tightness(tallies: &mut Tallies, schema: &Schema, types: [&Given; 3], joined: Option<&Type>) {
    let [a, b, c] = types;
    if !under(schema, &a.ty, &c.ty) || !under(schema, &b.ty, &c.ty) {
        return;
    }
    let below = joined.is_some_and(|t| under(schema, t, &c.ty));
    let forms: [&[u8]; 3] = [&a.form, &b.form, &c.form];
    let name = match actions_alike(&types) {
        true => "loose: a bound is below all above both, actions alike",
        false => "loose: a bound is below all above both, actions unlike",
    };
    tallies.claim(name, below, &forms);
}

fn fold(types: [&Given; 3]) -> Result<Ty, u8> {
    let types = types.map(|t| t.tree.clone());
    Rules::SOUND.fold(Mode::Loose, &types, usize::MAX)
}

/// Three types in every order, and beside the published permissive fold.
fn folds(tallies: &mut Tallies, schema: &Schema, types: [&Given; 3]) {
    let [a, b, c] = types;
    let forms: [&[u8]; 3] = [&a.form, &b.form, &c.form];
    let first = fold(types);
    let others = [[a, c, b], [b, a, c], [b, c, a], [c, a, b], [c, b, a]];
    let same = others.iter().all(|o| fold(*o).ok() == first.clone().ok());
    let name = match actions_alike(&types) {
        true => "loose: a fold is the same in every order, actions alike",
        false => "loose: a fold is the same in every order, actions unlike",
    };
    tallies.claim(name, same, &forms);
    let all = types.map(|t| &t.ty);
    let permissive = Type::reduce_to_least_upper_bound(&schema.types, all, Permissive);
    let Ok(upper) = permissive else { return };
    let lower = first.ok().and_then(given);
    let below = lower.is_some_and(|t| under(schema, &t.ty, &upper));
    tallies.claim("loose: a fold is below the permissive one", below, &forms);
}
