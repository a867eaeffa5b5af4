//! Claims about operation 11, which the model judges: beside operation 8 of the
//! published functions, and upwards.

use super::{given, Given, Tallies, MODES, STANDARD};
use crate::cedar_policy_core::ast::RestrictedExpr;
use crate::cedar_policy_core::entities::SchemaType;
use crate::forms::{read_schema, read_value, write_core, write_type, Schema};
use crate::full::{conforms, conforms_by_published, counts_fit};
use crate::generate::Gen;
use crate::loose;
use crate::published::typecheck_restricted_expr;
use crate::trees::{Sch, Ty, Val};
use crate::types::Type;

/// A schema and a value, in the shapes that the model and the published
/// functions take, and their forms.
struct Asked {
    tree: Sch,
    schema: Schema,
    schema_form: Vec<u8>,
    value: RestrictedExpr,
    form: Vec<u8>,
}

fn asked(tree: Sch, value: &Val) -> Option<Asked> {
    let (schema_form, form) = (tree.form(), value.form());
    Some(Asked {
        schema: read_schema(STANDARD, &schema_form)?,
        value: read_value(STANDARD, &form).ok()?,
        tree,
        schema_form,
        form,
    })
}

impl Asked {
    /// Operation 11 by the model.
    fn fully(&self, ty: &[u8]) -> Option<bool> {
        conforms(&self.tree, ty, &self.form)
    }
}

/// Try the claims about operation 11 once.
pub fn try_full(gen: &mut Gen, tallies: &mut Tallies) {
    let tree = gen.schema();
    let (ty, value) = gen.called(&tree);
    let mut other: Ty = gen.mutated(&ty);
    if gen.rng.percent(30) {
        other = gen.mutated(&other);
    }
    let (Some(a), Some(b), Some(asked)) = (given(ty), given(other), asked(tree, &value)) else {
        return;
    };
    beside_conformance(tallies, &asked, &a);
    if asked.fully(&a.form) == Some(true) {
        upwards(tallies, &asked, &a, &b);
        converted(tallies, &asked, &a);
    }
}

/// Where operation 11 is as operation 8.
fn beside_conformance(tallies: &mut Tallies, asked: &Asked, ty: &Given) {
    let Asked { schema, value, .. } = asked;
    let answer = asked.fully(&ty.form);
    let published = typecheck_restricted_expr(schema, &ty.ty, value);
    let forms: [&[u8]; 3] = [&asked.schema_form, &ty.form, &asked.form];
    let mut claim = |name, holds| tallies.claim(name, holds, &forms);
    let same = answer == published;
    if answer == Some(true) {
        claim("full: a yes is a yes of operation 8", same);
    }
    let same_or_no = same || answer == Some(false);
    claim("full: it is as operation 8, or no", same_or_no);
    if published.is_some() {
        let known = answer.is_some();
        claim("full: it is not 7 where operation 8 is not", known);
    }
    match counts_fit(&schema.extensions, value) {
        true => claim("full: it is as operation 8, every count fits", same),
        false => claim("full: it is as operation 8, some count does not fit", same),
    }
    let barren = conforms_by_published(schema, &ty.ty, value);
    claim(
        "full: it is as operation 8 of miscounted calls that return no extension",
        answer == barren,
    );
}

/// A value of the first type keeps to the types above it.
fn upwards(tallies: &mut Tallies, asked: &Asked, a: &Given, b: &Given) {
    let types = &asked.schema.types;
    let forms: [&[u8]; 4] = [&asked.schema_form, &a.form, &b.form, &asked.form];
    let mut kept = |name, upper: &[u8]| {
        let yes = asked.fully(upper) == Some(true);
        tallies.claim(name, yes, &forms);
    };
    for mode in MODES {
        if Type::is_subtype(types, &a.ty, &b.ty, mode) {
            kept("full: a value keeps its type upwards", &b.form);
        }
        if let Ok(bound) = Type::least_upper_bound(types, &a.ty, &b.ty, mode) {
            kept("full: a value conforms to the bound", &write_type(&bound));
        }
    }
    if let Ok(bound) = loose::bound(&a.form, &b.form) {
        kept("full: a value conforms to the loose bound", &bound);
    }
}

fn converted(tallies: &mut Tallies, asked: &Asked, ty: &Given) {
    if let Ok(core) = SchemaType::try_from(ty.ty.clone()) {
        let kept = asked.fully(&write_core(&core)) == Some(true);
        let forms: [&[u8]; 3] = [&asked.schema_form, &ty.form, &asked.form];
        tallies.claim("full: a value conforms to the converted type", kept, &forms);
    }
}
