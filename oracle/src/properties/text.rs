//! Claims about text: which values are 17, and that strings decide nothing
//! else.

use super::{Tallies, STANDARD};
use crate::generate::Gen;
use crate::model::Rules;
use crate::questions::{answer_with, operation::*, Call, Outcome, SchemaCache};
use crate::trees::Val;

const NOT_TEXT: Outcome = Outcome::Refused(17);

fn is_text(string: &[u8]) -> bool {
    std::str::from_utf8(string).is_ok()
}

/// Make every string empty.
fn empty(value: &mut Val) {
    match value {
        Val::Str(bytes) => bytes.clear(),
        _ => value.parts_mut().for_each(empty),
    }
}

/// What an operation gives, but for forms that are not whole.
fn asked(op: u8, cache: &SchemaCache<'_>, ty: &[u8], value: &[u8]) -> Option<Outcome> {
    let call = Call {
        limits: STANDARD,
        op,
        mode: 0,
        attr: 0,
        schema: cache.form,
        t0: ty,
        t1: value,
        room: 0,
        work: 0,
    };
    let outcome = answer_with(&call, cache);
    Some(outcome).filter(|o| !matches!(o, Outcome::Refused(2..=5)))
}

/// Try the claims about text once.
pub fn try_text(gen: &mut Gen, tallies: &mut Tallies) {
    let schema = gen.schema();
    let (ty, value) = gen.conformance(&schema);
    let other = gen.mutated(&ty).form();
    let holders = gen.rng.from(1, 3);
    let above = gen.nest(value.clone(), holders).form();
    let mut without = value.clone();
    empty(&mut without);
    let (schema, ty, form) = (schema.form(), ty.form(), value.form());
    let cache = SchemaCache::of(STANDARD, &schema);
    for op in [CONFORMS, FULL] {
        let Some(outcome) = asked(op, &cache, &ty, &form) else {
            return;
        };
        let mut claim = |name, holds| tallies.claim(name, holds, &[&schema, &ty, &form]);
        let text = value.strings().iter().all(|s| is_text(s));
        let exact = text != (outcome == NOT_TEXT);
        claim("text: 17 is where some string is not UTF-8", exact);
        let without = asked(op, &cache, &ty, &without.form()).expect("whole too");
        match text {
            true => claim("text: else it is as with empty strings", without == outcome),
            false => {
                claim("text: no 17 with empty strings", without != NOT_TEXT);
                let others = [(&other, &form), (&ty, &above), (&other, &above)];
                let others = others.map(|(ty, value)| asked(op, &cache, ty, value));
                let same = others.iter().flatten().all(|o| *o == NOT_TEXT);
                claim("text: 17 is so of other types and holders", same);
            }
        }
    }
    strings(tallies, &value);
}

/// The strings by themselves.
fn strings(tallies: &mut Tallies, value: &Val) {
    let strings = value.strings();
    for string in &strings {
        let same = Rules::SOUND.text(string) == is_text(string);
        tallies.claim(
            "text: the table takes what from_utf8 takes",
            same,
            &[string],
        );
    }
    if strings.len() > 1 && is_text(&strings.concat()) {
        let each = strings.iter().all(|s| is_text(s));
        tallies.claim(
            "text: strings that are UTF-8 joined are so each",
            each,
            &strings,
        );
    }
}
