//! Claims about the published functions, about mode 2, operation 11 and text
//! beside them, about limits and about levels, tried on generated types and
//! values.

mod full;
mod levels;
mod limits;
mod loose;
mod text;

pub use full::try_full;
pub use levels::try_levels;
pub use limits::try_limits;
pub use text::try_text;

use crate::cedar_policy_core::entities::SchemaType;
use crate::cedar_policy_core::extensions::Extensions;
use crate::forms::{plain, read_schema, read_type, read_value, write_core, write_type, Schema};
use crate::generate::{Gen, ATTRS};
use crate::limits::Limits;
use crate::smol_str::SmolStr;
use crate::trees::{Attr, Sch, Ty, Val};
use crate::types::Type;
use crate::ValidationMode;
use std::collections::BTreeMap;

/// How often a claim was tried, how often it failed, and its smallest failure.
#[derive(Default)]
pub struct Tally {
    pub tried: u64,
    pub failed: u64,
    pub smallest: Option<String>,
}

#[derive(Default)]
pub struct Tallies(pub BTreeMap<&'static str, Tally>);

fn hex(bytes: &[u8]) -> String {
    bytes.iter().map(|b| format!("{b:02x}")).collect()
}

impl Tallies {
    fn claim(&mut self, name: &'static str, holds: bool, forms: &[&[u8]]) {
        let tally = self.0.entry(name).or_default();
        tally.tried += 1;
        if holds {
            return;
        }
        tally.failed += 1;
        let text: Vec<String> = forms.iter().map(|f| hex(f)).collect();
        let text = text.join(" ");
        if tally.smallest.as_ref().is_none_or(|s| s.len() > text.len()) {
            tally.smallest = Some(text);
        }
    }

    /// Panics unless there are so many claims, each tried more than so often, and
    /// just those failed that must.
    pub fn expect(&self, claims: usize, tried: u64, failing: &[&str]) {
        assert_eq!(self.0.len(), claims);
        for (name, tally) in &self.0 {
            assert!(tally.tried > tried, "{name}");
            let fails = failing.contains(name);
            assert_eq!(tally.failed > 0, fails, "{name}: {:?}", tally.smallest);
        }
    }
}

/// The claims that are not about limits are tried under these.
const STANDARD: Limits = Limits::STANDARD;

/// A tree with what the Rust makes of its form.
struct Given {
    tree: Ty,
    form: Vec<u8>,
    ty: Type,
}

fn given(tree: Ty) -> Option<Given> {
    let form = tree.form();
    let ty = read_type(STANDARD, &form)?;
    Some(Given { tree, form, ty })
}

const MODES: [ValidationMode; 2] = [ValidationMode::Strict, ValidationMode::Permissive];

/// Does any part satisfy the test?
fn any_part(ty: &Ty, test: &dyn Fn(&Ty) -> bool) -> bool {
    test(ty)
        || match ty {
            Ty::Set(element) => any_part(element, test),
            Ty::Rec(_, attrs) | Ty::Act(_, attrs) => attrs.iter().any(|a| any_part(&a.ty, test)),
            _ => false,
        }
}

fn has_set(ty: &Ty) -> bool {
    any_part(ty, &|t| matches!(t, Ty::Set(_)))
}

/// The attributes of each action, by name; false if one name has two lists.
fn one_list_a_name<'a>(ty: &'a Ty, lists: &mut BTreeMap<u16, &'a [Attr]>) -> bool {
    match ty {
        Ty::Set(element) => one_list_a_name(element, lists),
        Ty::Rec(_, attrs) => attrs.iter().all(|a| one_list_a_name(&a.ty, lists)),
        Ty::Act(name, attrs) => {
            let alike = *lists.entry(*name).or_insert(attrs) == attrs.as_slice();
            alike && attrs.iter().all(|a| one_list_a_name(&a.ty, lists))
        }
        _ => true,
    }
}

/// Are actions of one name alike in all these types?
fn actions_alike(types: &[&Given]) -> bool {
    let mut lists = BTreeMap::new();
    types.iter().all(|t| one_list_a_name(&t.tree, &mut lists))
}

/// Try all claims once but those about limits, levels, operation 11 and text.
pub fn try_claims(gen: &mut Gen, tallies: &mut Tallies) {
    let tree = gen.schema();
    let form = tree.form();
    let Some(schema) = read_schema(STANDARD, &form) else {
        return;
    };
    let (a, b) = gen.pair();
    let mut c = gen.mutated(&b);
    c = gen.mutated(&c);
    let (Some(a), Some(b), Some(c)) = (given(a), given(b), given(c)) else {
        return;
    };
    for mode in MODES {
        order(tallies, &schema, mode, [&a, &b, &c]);
        bounds(tallies, &schema, mode, &a, &b);
        tightness(tallies, &schema, mode, [&a, &b, &c]);
        folds(tallies, &schema, mode, [&a, &b, &c]);
    }
    across_modes(tallies, &schema, &a, &b);
    let value = gen.value_for(&a.tree, &tree);
    loose::claims(tallies, &schema, [&a, &b, &c], &value);
    values(tallies, &schema, [&a, &b], &value);
    conversions(tallies, &schema, [&a, &b], &value);
    attributes(gen, tallies, &schema, &tree);
}

fn order(tallies: &mut Tallies, schema: &Schema, mode: ValidationMode, types: [&Given; 3]) {
    let [a, b, c] = types;
    let under = |x: &Given, y: &Given| Type::is_subtype(&schema.types, &x.ty, &y.ty, mode);
    tallies.claim("subtype is reflexive", under(a, a), &[&a.form]);
    if under(a, b) && under(b, a) {
        tallies.claim(
            "subtype is antisymmetric",
            a.ty == b.ty,
            &[&a.form, &b.form],
        );
    }
    if under(a, b) && under(b, c) {
        let forms: [&[u8]; 3] = [&a.form, &b.form, &c.form];
        tallies.claim("subtype is transitive", under(a, c), &forms);
    }
}

fn bounds(tallies: &mut Tallies, schema: &Schema, mode: ValidationMode, a: &Given, b: &Given) {
    let forms: [&[u8]; 2] = [&a.form, &b.form];
    let join = |x: &Given, y: &Given| Type::least_upper_bound(&schema.types, &x.ty, &y.ty, mode);
    let bound = join(a, b);
    tallies.claim(
        "bound is symmetric, reasons too",
        bound == join(b, a),
        &forms,
    );
    let Ok(bound) = bound else { return };
    let form = write_type(&bound);
    let sum = a.form.len() + b.form.len();
    tallies.claim(
        "a bound is no longer than both together",
        form.len() <= sum,
        &forms,
    );
    let whole = read_type(STANDARD, &form).is_some() || form.len() > STANDARD.bytes;
    tallies.claim("a bound is whole but for its length", whole, &forms);
    let above = [a, b]
        .iter()
        .all(|x| Type::is_subtype(&schema.types, &x.ty, &bound, mode));
    match actions_alike(&[a, b]) {
        true => tallies.claim("a bound is above both, actions alike", above, &forms),
        false => tallies.claim("a bound is above both, actions unlike", above, &forms),
    }
}

/// The third type is above both: the bound is below it.
fn tightness(tallies: &mut Tallies, schema: &Schema, mode: ValidationMode, types: [&Given; 3]) {
    let [a, b, c] = types;
    let under = |x: &Type, y: &Type| Type::is_subtype(&schema.types, x, y, mode);
    if !under(&a.ty, &c.ty) || !under(&b.ty, &c.ty) {
        return;
    }
    let forms: [&[u8]; 3] = [&a.form, &b.form, &c.form];
    let bound = Type::least_upper_bound(&schema.types, &a.ty, &b.ty, mode);
    let below = bound.as_ref().is_ok_and(|x| under(x, &c.ty));
    let premises = ![a, b, c].iter().any(|t| has_set(&t.tree)) && actions_alike(&types);
    match premises {
        true => tallies.claim(
            "a bound is below all above both, no set, actions alike",
            below,
            &forms,
        ),
        false => tallies.claim("a bound is below all above both, else", below, &forms),
    }
}

/// Three types folded in every order give one type, or none in any order.
fn folds(tallies: &mut Tallies, schema: &Schema, mode: ValidationMode, types: [&Given; 3]) {
    let fold = |order: [usize; 3]| {
        let types = order.map(|at| &types[at].ty);
        Type::reduce_to_least_upper_bound(&schema.types, types, mode).ok()
    };
    let first = fold([0, 1, 2]);
    let others = [[0, 2, 1], [1, 0, 2], [1, 2, 0], [2, 0, 1], [2, 1, 0]];
    let same = others.iter().all(|order| fold(*order) == first);
    let [a, b, c] = types;
    let forms: [&[u8]; 3] = [&a.form, &b.form, &c.form];
    let premises = !types.iter().any(|t| has_set(&t.tree)) && actions_alike(&types);
    match premises {
        true => tallies.claim(
            "a fold is the same in every order, no set, actions alike",
            same,
            &forms,
        ),
        false => tallies.claim("a fold is the same in every order, else", same, &forms),
    }
}

fn across_modes(tallies: &mut Tallies, schema: &Schema, a: &Given, b: &Given) {
    let forms: [&[u8]; 2] = [&a.form, &b.form];
    let [strict, permissive] = MODES;
    let under = |m| Type::is_subtype(&schema.types, &a.ty, &b.ty, m);
    if under(strict) {
        tallies.claim(
            "strict subtype is permissive subtype",
            under(permissive),
            &forms,
        );
    }
    let join = |m| Type::least_upper_bound(&schema.types, &a.ty, &b.ty, m);
    if join(strict).is_ok() {
        let same = join(strict) == join(permissive);
        tallies.claim("a strict bound is the permissive bound", same, &forms);
    }
}

fn conforms(schema: &Schema, ty: &Type, value: &Val) -> Option<bool> {
    let value = read_value(STANDARD, &value.form()).ok()?;
    let extensions: &Extensions<'_> = &schema.extensions;
    ty.typecheck_restricted_expr(value.as_borrowed(), extensions)
        .ok()
}

fn values(tallies: &mut Tallies, schema: &Schema, types: [&Given; 2], value: &Val) {
    let [a, b] = types;
    if conforms(schema, &a.ty, value) != Some(true) {
        return;
    }
    let form = value.form();
    let forms: [&[u8]; 3] = [&a.form, &b.form, &form];
    for mode in MODES {
        if Type::is_subtype(&schema.types, &a.ty, &b.ty, mode) {
            let kept = conforms(schema, &b.ty, value) == Some(true);
            tallies.claim("a value keeps its type upwards", kept, &forms);
        }
        if let Ok(bound) = Type::least_upper_bound(&schema.types, &a.ty, &b.ty, mode) {
            let kept = conforms(schema, &bound, value) == Some(true);
            tallies.claim("a value conforms to the bound", kept, &forms);
        }
    }
    if Type::are_types_disjoint(&a.ty, &b.ty) {
        let both = conforms(schema, &b.ty, value) == Some(true);
        tallies.claim("no value has two disjoint types", !both, &forms);
    }
}

fn conversions(tallies: &mut Tallies, schema: &Schema, types: [&Given; 2], value: &Val) {
    let [a, b] = types;
    let conforming = conforms(schema, &a.ty, value) == Some(true);
    let form = value.form();
    if let Ok(core) = SchemaType::try_from(a.ty.clone()) {
        let consistent = a.ty.is_consistent_with(&core);
        tallies.claim(
            "a type is consistent with its core type",
            consistent,
            &[&a.form],
        );
        let Some(converted) = read_type(STANDARD, &write_core(&core)) else {
            return;
        };
        let again = SchemaType::try_from(converted.clone()).as_ref() == Ok(&core);
        tallies.claim("conversion twice is conversion once", again, &[&a.form]);
        if conforming {
            let kept = conforms(schema, &converted, value) == Some(true);
            tallies.claim(
                "a value conforms to the converted type",
                kept,
                &[&a.form, &form],
            );
        }
    }
    let Some(core) = plain(&b.ty) else { return };
    if conforming && conforms(schema, &b.ty, value) == Some(true) {
        let consistent = a.ty.is_consistent_with(&core);
        let forms: [&[u8]; 3] = [&a.form, &b.form, &form];
        tallies.claim(
            "types that share a value are consistent",
            consistent,
            &forms,
        );
    }
}

/// A uid of a union carries the pairs of a record that conforms to its type's
/// body.
fn attributes(gen: &mut Gen, tallies: &mut Tallies, schema: &Schema, tree: &Sch) {
    let names = gen.entity_names();
    let name = *gen.rng.pick(&names);
    let Some(entry) = tree.entities.iter().find(|e| e.name == name) else {
        return;
    };
    let record = gen.value_for(&entry.body(), tree);
    let (Some(body), Some(union)) = (given(entry.body()), given(Ty::Ent(names))) else {
        return;
    };
    if conforms(schema, &body.ty, &record) == Some(true) {
        carried(tallies, schema, tree, &union, &record, *gen.rng.pick(ATTRS));
    }
}

/// What lookup and may-have promise of one attribute of what a uid carries.
fn carried(
    tallies: &mut Tallies,
    schema: &Schema,
    tree: &Sch,
    union: &Given,
    record: &Val,
    attr: u16,
) {
    let Val::Rec(pairs) = record else { return };
    let carried = pairs.iter().find(|p| p.0 == attr);
    let name = SmolStr::from_number(attr);
    let (schema_form, form) = (tree.form(), record.form());
    let forms: [&[u8]; 3] = [&schema_form, &union.form, &form];
    if let Some(found) = Type::lookup_attribute_type(&schema.types, &union.ty, &name) {
        let holds = match carried {
            Some((_, value)) => conforms(schema, &found.attr_type, value) == Some(true),
            None => !found.is_required,
        };
        tallies.claim(
            "lookup's type and flag hold of what is carried",
            holds,
            &forms,
        );
    }
    if !Type::may_have_attr(&schema.types, &union.ty, &name) {
        tallies.claim(
            "may-have's no holds of what is carried",
            carried.is_none(),
            &forms,
        );
    }
}
