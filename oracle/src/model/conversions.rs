//! Conversion to a core type, and the type of a literal.

use super::Rules;
use crate::trees::{Attr, Sch, Ty};

impl Rules {
    /// The plain type, or none where a part cannot be expressed.
    pub fn convert(self, ty: &Ty) -> Option<Ty> {
        match ty {
            Ty::Atom(0) => None,
            Ty::Atom(9) if self.fault(160) => Some(Ty::Atom(9)),
            Ty::Atom(9) => None,
            Ty::Atom(1 | 2) if !self.fault(161) => Some(Ty::Atom(3)),
            Ty::Atom(6) if self.fault(162) => None,
            Ty::Set(element) => Some(Ty::Set(Box::new(self.convert(element)?))),
            Ty::Rec(open, attrs) => Some(Ty::Rec(
                *open && !self.fault(163),
                self.convert_attrs(attrs)?,
            )),
            Ty::Ent(names) if names.len() > 1 && !self.fault(164) => None,
            Ty::Ent(names) => Some(Ty::Ent(names.iter().take(1).copied().collect())),
            Ty::Act(name, attrs) => {
                let kept = self.convert_attrs(attrs);
                if self.fault(165) {
                    return Some(Ty::Act(*name, kept?));
                }
                if self.fault(166) {
                    kept?;
                }
                Some(Ty::Ent(vec![*name]))
            }
            other => Some(other.clone()),
        }
    }

    fn convert_attrs(self, attrs: &[Attr]) -> Option<Vec<Attr>> {
        let mut converted = Vec::new();
        for a in attrs {
            converted.push(Attr {
                name: a.name,
                required: a.required || self.fault(167),
                ty: self.convert(&a.ty)?,
            });
        }
        Some(converted)
    }

    /// The type of a uid; none where the schema lacks it.
    pub fn literal(self, schema: &Sch, ty: u16, id: u16) -> Option<Ty> {
        if ty % 2 == 1 {
            let found = schema.actions.iter().find(|a| {
                let named = a.ty == ty || self.fault(173);
                named && (a.id == id || self.fault(168))
            })?;
            if self.fault(172) {
                return Some(Ty::Ent(vec![ty]));
            }
            let attrs = found.attrs.clone();
            return Some(Ty::Act(ty, self.or(169, attrs, Vec::new())));
        }
        let found = schema.entities.iter().find(|e| e.name == ty);
        if found.is_none() && !self.fault(170) {
            return None;
        }
        if self.fault(171) && found.is_some_and(|e| e.enumerated) {
            return None;
        }
        Some(Ty::Ent(vec![ty]))
    }
}
