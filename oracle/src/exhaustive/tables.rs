//! Tables of bodies that are as deep as they are long, or less: every order of
//! up to four chains of sets in a record or an action, and of up to three values
//! in what holds them.

use super::{attr, lists, set};
use crate::trees::{Ty, Val};

/// Chains of up to three sets, over a byte and over three.
fn chains() -> Vec<Ty> {
    let over = |leaf: Ty| (0..3).scan(leaf, |ty, _| Some(std::mem::replace(ty, set(ty.clone()))));
    over(Ty::Atom(4)).chain(over(Ty::Ext(7))).collect()
}

/// The same of values.
fn nests() -> Vec<Val> {
    let held = |v: &Val| Val::Set(vec![v.clone()]);
    let over = |leaf: Val| (0..3).scan(leaf, move |v, _| Some(std::mem::replace(v, held(v))));
    over(Val::Bool(true))
        .chain(over(Val::Str(Vec::new())))
        .collect()
}

/// The forms of all of them.
pub fn forms() -> Vec<Vec<u8>> {
    let mut forms = Vec::new();
    for types in lists(&chains(), 4) {
        let attrs = (1..).zip(&types).map(|(name, ty)| attr(name, true, ty));
        let attrs: Vec<_> = attrs.collect();
        forms.push(Ty::Rec(false, attrs.clone()).form());
        forms.push(set(Ty::Act(3, attrs)).form());
    }
    for values in lists(&nests(), 3) {
        let pairs = (1..).zip(values.iter().cloned()).collect();
        forms.push(Val::Rec(pairs).form());
        forms.push(Val::Call(5, values.clone()).form());
        forms.push(Val::Set(values).form());
    }
    forms
}
