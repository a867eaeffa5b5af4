//! Types, values and schemas of the three sizes.

use oracle::trees::{Attr, EntityEntry, Sch, Ty, Val};

/// Small, wide, deep.
#[derive(Clone, Copy, PartialEq, Eq)]
pub struct Size {
    pub name: &'static str,
    /// Attributes of each record.
    pub width: u16,
    /// Levels of the type.
    pub levels: usize,
}

const SMALL: Size = Size {
    name: "small",
    width: 4,
    levels: 2,
};

pub const WIDE: Size = Size {
    name: "wide",
    width: 200,
    levels: 2,
};

pub const DEEP: Size = Size {
    name: "deep",
    width: 4,
    levels: 16,
};

pub const SIZES: [Size; 3] = [SMALL, WIDE, DEEP];

/// Kinds of one byte: Long, String, and one of True and False.
pub fn atom(name: u16, side: u8) -> Ty {
    match name % 3 {
        0 => Ty::Atom(4),
        1 => Ty::Atom(5),
        _ => Ty::Atom(1 + side),
    }
}

pub fn set(element: Ty) -> Ty {
    Ty::Set(Box::new(element))
}

/// So many sets over a type.
pub fn chain(sets: usize, below: Ty) -> Ty {
    (0..sets).fold(below, |ty, _| set(ty))
}

/// Required attributes of these types.
pub fn attributes(types: impl IntoIterator<Item = Ty>) -> Vec<Attr> {
    let named = (0..).zip(types).map(|(name, ty)| Attr {
        name,
        required: true,
        ty,
    });
    named.collect()
}

/// A closed record of so many required attributes and so many levels; the last
/// attribute holds the level below. On side 0 a Boolean is True, on side 1
/// False, on side 2 Bool.
pub fn record(width: u16, levels: usize, side: u8) -> Ty {
    let mut attrs = attributes((0..width).map(|name| atom(name, side)));
    if levels > 2 {
        attrs[width as usize - 1].ty = record(width, levels - 1, side);
    }
    Ty::Rec(false, attrs)
}

/// A value of the record on side 2.
pub fn value(width: u16, levels: usize) -> Val {
    let mut pairs: Vec<(u16, Val)> = (0..width)
        .map(|name| {
            let value = match name % 3 {
                0 => Val::Long([7, 0, 0, 0, 0, 0, 0, 0]),
                1 => Val::Str(b"matt 120".to_vec()),
                _ => Val::Bool(true),
            };
            (name, value)
        })
        .collect();
    if levels > 2 {
        pairs[width as usize - 1].1 = value(width, levels - 1);
    }
    Val::Rec(pairs)
}

/// The largest width from 2 on whose form has room.
pub fn widest(bytes: usize, form: impl Fn(u16) -> Vec<u8>) -> u16 {
    let fits = |width: &u16| form(*width).len() <= bytes;
    (2..).take_while(fits).last().expect("some width fits")
}

/// Entity types of a lookup.
pub const TYPES: u16 = 16;

/// The attribute that is looked up.
pub const SOUGHT: u16 = 0;

/// The entity types 2, 4, .. 32, whose bodies have so many attributes; the one
/// that is sought is a record of four, so many levels deep.
pub fn schema(size: Size) -> Sch {
    let entry = |i: u16| {
        let side = (i % 2) as u8;
        let Ty::Rec(_, mut attrs) = record(size.width, 2, side) else {
            unreachable!()
        };
        attrs[SOUGHT as usize].ty = record(4, size.levels.min(15), side);
        EntityEntry {
            name: 2 * (i + 1),
            enumerated: false,
            open: false,
            attrs,
        }
    };
    Sch {
        entities: (0..TYPES).map(entry).collect(),
        ..Sch::default()
    }
}

/// The entity of all types of the schema.
pub fn entity() -> Ty {
    Ty::Ent((0..TYPES).map(|i| 2 * (i + 1)).collect())
}

/// The types of a fold: 64, as many attributes as a list has room for.
pub fn fold_list(size: Size) -> Vec<Ty> {
    let width = size.width.min(80);
    (0..64).map(|i| record(width, size.levels, i % 2)).collect()
}
