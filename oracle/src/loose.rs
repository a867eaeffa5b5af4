//! Mode 2, which the published functions do not have: the model answers, on
//! forms that have been found whole. The published permissive functions give
//! the same another way.

use crate::forms::{read_type, write_type, Schema};
use crate::limits::Limits;
use crate::model::{Mode, Rules};
use crate::questions::reason;
use crate::trees::{Attr, Ty};
use crate::types::Type;
use crate::ValidationMode::Permissive;

/// The number of the mode.
pub const LOOSE: u8 = 2;

/// Forms come here that were found whole under some limits.
const WIDEST: Limits = Limits::LARGEST;

/// A bound's form, of any length, or the reason why there is none.
pub type Formed = Result<Vec<u8>, u8>;

fn tree(form: &[u8]) -> Ty {
    let ty = Rules::SOUND.whole_type(WIDEST, form);
    ty.expect("a whole type")
}

pub fn is_subtype(a: &[u8], b: &[u8]) -> bool {
    Rules::SOUND.subtype(Mode::Loose, &tree(a), &tree(b))
}

pub fn bound(a: &[u8], b: &[u8]) -> Formed {
    let bound = Rules::SOUND.bound(Mode::Loose, &tree(a), &tree(b))?;
    Ok(bound.form())
}

/// The fold, where no step is measured.
pub fn fold(list: &[u8]) -> Formed {
    let types = Rules::SOUND.whole_list(WIDEST, list);
    let types = types.expect("a whole list");
    let bound = Rules::SOUND.fold(Mode::Loose, &types, usize::MAX)?;
    Ok(bound.form())
}

/// The bound as the published permissive function gives it, of the two types
/// with unlike sets made 06.
pub fn bound_by_published(schema: &Schema, a: &[u8], b: &[u8]) -> Formed {
    let (a, b) = untyped(schema, &tree(a), &tree(b));
    permissive(schema, &a, &b)
}

/// The published permissive bound.
pub fn permissive(schema: &Schema, a: &Ty, b: &Ty) -> Formed {
    let [a, b] = [a, b].map(|t| read_type(WIDEST, &t.form()).expect("a whole type"));
    let bound = Type::least_upper_bound(&schema.types, &a, &b, Permissive);
    bound.map(|t| write_type(&t)).map_err(reason)
}

/// Both types with 06 for each pair of sets, in the same place of both, that
/// has no permissive bound; inner pairs first. Actions are left as they are.
pub fn untyped(schema: &Schema, a: &Ty, b: &Ty) -> (Ty, Ty) {
    match (a, b) {
        (Ty::Set(x), Ty::Set(y)) => {
            let (x, y) = untyped(schema, x, y);
            match permissive(schema, &x, &y) {
                Ok(_) => (Ty::Set(Box::new(x)), Ty::Set(Box::new(y))),
                Err(_) => (Ty::Atom(6), Ty::Atom(6)),
            }
        }
        (Ty::Rec(oa, x), Ty::Rec(ob, y)) => {
            let (x, y) = untyped_attrs(schema, x, y);
            (Ty::Rec(*oa, x), Ty::Rec(*ob, y))
        }
        _ => (a.clone(), b.clone()),
    }
}

fn untyped_attrs(schema: &Schema, x: &[Attr], y: &[Attr]) -> (Vec<Attr>, Vec<Attr>) {
    let (mut x, mut y) = (x.to_vec(), y.to_vec());
    for a in &mut x {
        if let Some(b) = y.iter_mut().find(|b| b.name == a.name) {
            (a.ty, b.ty) = untyped(schema, &a.ty, &b.ty);
        }
    }
    (x, y)
}
