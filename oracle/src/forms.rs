//! 01's byte forms, read into the Rust's types and written from them.

use crate::cedar_policy_core::{
    ast::{EntityType, EntityUID, Name, RestrictedExpr},
    entities::{AttributeType as CoreAttributeType, SchemaType},
    extensions::{ExtensionFunction, Extensions},
};
use crate::limits::Limits;
use crate::nonempty::NonEmpty;
use crate::schema::{
    ValidatorActionId, ValidatorEntityType, ValidatorEntityTypeKind, ValidatorSchema,
};
use crate::smol_str::SmolStr;
use crate::types::{AttributeType, Attributes, EntityLUB, EntityRecordKind, OpenTag, Type};
use std::collections::{BTreeMap, HashSet};

/// The limits of 01 that no call changes.
pub const BLOCK_BYTES: usize = 32768;
pub const ENTITY_TYPES: usize = 256;
pub const ACTIONS: usize = 256;
pub const FUNCTIONS: usize = 64;
pub const LIST_TYPES: usize = 64;

/// What is left to read.
#[derive(Clone, Copy)]
pub struct Bytes<'a>(pub &'a [u8]);

impl<'a> Bytes<'a> {
    pub fn take(&mut self, n: usize) -> Option<&'a [u8]> {
        if self.0.len() < n {
            return None;
        }
        let (front, rest) = self.0.split_at(n);
        self.0 = rest;
        Some(front)
    }

    pub fn u8(&mut self) -> Option<u8> {
        Some(self.take(1)?[0])
    }

    pub fn u16(&mut self) -> Option<u16> {
        let b = self.take(2)?;
        Some(u16::from_le_bytes([b[0], b[1]]))
    }

    pub fn u32(&mut self) -> Option<u32> {
        let b = self.take(4)?;
        Some(u32::from_le_bytes([b[0], b[1], b[2], b[3]]))
    }

    /// A byte that must be 0 or 1.
    fn flag(&mut self) -> Option<bool> {
        match self.u8()? {
            0 => Some(false),
            1 => Some(true),
            _ => None,
        }
    }

    /// Nothing may be left over.
    pub fn done(self) -> Option<()> {
        self.0.is_empty().then_some(())
    }
}

/// Does `next` stand above the last one? It becomes the last one.
fn ascends<T: PartialOrd + Copy>(last: &mut Option<T>, next: T) -> Option<()> {
    if last.is_some_and(|l| l >= next) {
        return None;
    }
    *last = Some(next);
    Some(())
}

/// A whole type form.
pub fn read_type(limits: Limits, form: &[u8]) -> Option<Type> {
    if form.len() > limits.bytes {
        return None;
    }
    type_at(form, limits.levels)
}

fn type_at(form: &[u8], levels: usize) -> Option<Type> {
    if levels == 0 {
        return None;
    }
    let mut b = Bytes(form);
    let ty = match b.u8()? {
        0 => Type::Never,
        1 => Type::True,
        2 => Type::False,
        3 => Type::primitive_boolean(),
        4 => Type::primitive_long(),
        5 => Type::primitive_string(),
        6 => Type::any_set(),
        7 => return Some(Type::set(type_at(b.0, levels - 1)?)),
        8 => {
            let open_attributes = open_tag(b.flag()?);
            let attrs = read_attrs(b, levels)?;
            return Some(Type::EntityOrRecord(EntityRecordKind::Record {
                attrs,
                open_attributes,
            }));
        }
        9 => Type::any_entity_reference(),
        10 => return read_entity(b),
        11 => {
            let name = EntityType(b.u16()?);
            let attrs = read_attrs(b, levels)?;
            return Some(Type::EntityOrRecord(EntityRecordKind::ActionEntity {
                name,
                attrs,
            }));
        }
        12 => Type::extension(Name(b.u16()?)),
        _ => return None,
    };
    b.done()?;
    Some(ty)
}

fn open_tag(open: bool) -> OpenTag {
    match open {
        true => OpenTag::OpenAttributes,
        false => OpenTag::ClosedAttributes,
    }
}

fn read_entity(mut b: Bytes<'_>) -> Option<Type> {
    let n = b.u16()?;
    let mut last = None;
    let mut names = Vec::new();
    for _ in 0..n {
        let name = b.u16()?;
        ascends(&mut last, name)?;
        names.push(EntityType(name));
    }
    b.done()?;
    if names.is_empty() {
        return None;
    }
    let union = EntityLUB::of_names(names);
    Some(Type::EntityOrRecord(EntityRecordKind::Entity(union)))
}

/// Count, entries and bodies of a record or an action that stands at `levels`.
fn read_attrs(mut b: Bytes<'_>, levels: usize) -> Option<Attributes> {
    let n = b.u16()?;
    let mut entries = Bytes(b.take(5 * n as usize)?);
    let mut last = None;
    let mut attrs = Vec::with_capacity(n as usize);
    for _ in 0..n {
        let name = entries.u16()?;
        ascends(&mut last, name)?;
        let required = entries.flag()?;
        let length = entries.u16()?;
        let ty = type_at(b.take(length as usize)?, levels - 1)?;
        attrs.push((SmolStr::from_number(name), AttributeType::new(ty, required)));
    }
    b.done()?;
    Some(Attributes::with_attributes(attrs))
}

/// A whole value form whose strings are UTF-8; else 5, or 17 where it is whole.
pub fn read_value(limits: Limits, form: &[u8]) -> Result<RestrictedExpr, u8> {
    if form.len() > limits.bytes {
        return Err(5);
    }
    let mut text = true;
    let value = value_at(form, limits.levels, &mut text).ok_or(5)?;
    match text {
        true => Ok(value),
        false => Err(17),
    }
}

/// The Rust's string. Where the bytes are not UTF-8 it is empty, and `text` is
/// no longer true.
fn string_of(bytes: &[u8], text: &mut bool) -> String {
    let string = std::str::from_utf8(bytes);
    *text &= string.is_ok();
    string.unwrap_or_default().to_owned()
}

fn value_at(form: &[u8], levels: usize, text: &mut bool) -> Option<RestrictedExpr> {
    if levels == 0 {
        return None;
    }
    let mut b = Bytes(form);
    let value = match b.u8()? {
        0 => RestrictedExpr::Bool(false),
        1 => RestrictedExpr::Bool(true),
        2 => {
            let bytes = b.take(8)?.try_into().ok()?;
            RestrictedExpr::Long(i64::from_le_bytes(bytes))
        }
        3 => {
            let n = b.u16()? as usize;
            RestrictedExpr::String(string_of(b.take(n)?, text))
        }
        4 => RestrictedExpr::Euid(EntityUID {
            ty: EntityType(b.u16()?),
            eid: b.u16()?,
        }),
        5 => return Some(RestrictedExpr::Set(read_values(b, levels, text)?)),
        6 => return read_pairs(b, levels, text),
        7 => {
            let name = Name(b.u16()?);
            return Some(RestrictedExpr::Call(name, read_values(b, levels, text)?));
        }
        _ => return None,
    };
    b.done()?;
    Some(value)
}

/// Count, lengths and bodies of a set or a call.
fn read_values(mut b: Bytes<'_>, levels: usize, text: &mut bool) -> Option<Vec<RestrictedExpr>> {
    let n = b.u16()? as usize;
    let mut lengths = Bytes(b.take(2 * n)?);
    let mut values = Vec::with_capacity(n);
    for _ in 0..n {
        let length = lengths.u16()?;
        values.push(value_at(b.take(length as usize)?, levels - 1, text)?);
    }
    b.done()?;
    Some(values)
}

fn read_pairs(mut b: Bytes<'_>, levels: usize, text: &mut bool) -> Option<RestrictedExpr> {
    let n = b.u16()? as usize;
    let mut entries = Bytes(b.take(4 * n)?);
    let mut last = None;
    let mut pairs = Vec::with_capacity(n);
    for _ in 0..n {
        let name = entries.u16()?;
        ascends(&mut last, name)?;
        let length = entries.u16()?;
        let value = value_at(b.take(length as usize)?, levels - 1, text)?;
        pairs.push((SmolStr::from_number(name), value));
    }
    b.done()?;
    Some(RestrictedExpr::Record(pairs))
}

/// A whole list of types.
pub fn read_list(limits: Limits, form: &[u8]) -> Option<Vec<Type>> {
    if form.len() > BLOCK_BYTES {
        return None;
    }
    let mut b = Bytes(form);
    let n = b.u16()? as usize;
    if n > LIST_TYPES {
        return None;
    }
    let mut lengths = Bytes(b.take(2 * n)?);
    let mut types = Vec::with_capacity(n);
    for _ in 0..n {
        let length = lengths.u16()?;
        types.push(read_type(limits, b.take(length as usize)?)?);
    }
    b.done()?;
    Some(types)
}

/// A whole schema: what the Rust keeps in the schema, and the functions that
/// it finds among the extensions.
pub struct Schema {
    pub types: ValidatorSchema,
    pub extensions: Extensions<'static>,
}

pub fn read_schema(limits: Limits, form: &[u8]) -> Option<Schema> {
    if form.len() > BLOCK_BYTES {
        return None;
    }
    let mut b = Bytes(form);
    let (n, m, k) = (b.u16()? as usize, b.u16()? as usize, b.u16()? as usize);
    if n > ENTITY_TYPES || m > ACTIONS || k > FUNCTIONS {
        return None;
    }
    let entities = Bytes(b.take(5 * n)?);
    let actions = Bytes(b.take(6 * m)?);
    let functions = Bytes(b.take(7 * k)?);
    let entities = read_entity_entries(limits, n, entities, &mut b)?;
    let actions = read_action_entries(limits, m, actions, &mut b)?;
    let functions = read_function_entries(k, functions, &mut b)?;
    b.done()?;
    Some(Schema {
        types: ValidatorSchema::new(entities, actions),
        extensions: Extensions::of(functions),
    })
}

fn read_record(limits: Limits, form: &[u8]) -> Option<(Attributes, OpenTag)> {
    match read_type(limits, form)? {
        Type::EntityOrRecord(EntityRecordKind::Record {
            attrs,
            open_attributes,
        }) => Some((attrs, open_attributes)),
        _ => None,
    }
}

fn read_entity_entries(
    limits: Limits,
    n: usize,
    mut entries: Bytes<'_>,
    bodies: &mut Bytes<'_>,
) -> Option<Vec<ValidatorEntityType>> {
    let mut last = None;
    let mut types = Vec::with_capacity(n);
    for _ in 0..n {
        let name = entries.u16()?;
        ascends(&mut last, name)?;
        let enumerated = entries.flag()?;
        let length = entries.u16()? as usize;
        let (attributes, open) = read_record(limits, bodies.take(length)?)?;
        if EntityType(name).is_action() || (enumerated && open.is_open()) {
            return None;
        }
        types.push(entity_entry(name, enumerated, attributes, open));
    }
    Some(types)
}

/// An enumerated entry keeps the attributes that it lists.
fn entity_entry(
    name: u16,
    enumerated: bool,
    attributes: Attributes,
    open: OpenTag,
) -> ValidatorEntityType {
    let name = EntityType(name);
    if !enumerated {
        return ValidatorEntityType::new_standard(name, [], attributes, open, None, None);
    }
    ValidatorEntityType {
        name,
        descendants: HashSet::new(),
        kind: ValidatorEntityTypeKind::Enum(NonEmpty::new(SmolStr::from_number(0))),
        attributes,
        loc: None,
    }
}

fn read_action_entries(
    limits: Limits,
    n: usize,
    mut entries: Bytes<'_>,
    bodies: &mut Bytes<'_>,
) -> Option<Vec<ValidatorActionId>> {
    let mut last = None;
    let mut actions = Vec::with_capacity(n);
    for _ in 0..n {
        let (ty, eid) = (EntityType(entries.u16()?), entries.u16()?);
        ascends(&mut last, (ty.0, eid))?;
        let length = entries.u16()? as usize;
        let (attributes, open) = read_record(limits, bodies.take(length)?)?;
        if !ty.is_action() || open.is_open() {
            return None;
        }
        actions.push(ValidatorActionId::new(
            EntityUID { ty, eid },
            [],
            [],
            [],
            Type::record_with_attributes(None, OpenTag::ClosedAttributes),
            attributes,
            BTreeMap::new(),
            None,
        ));
    }
    Some(actions)
}

fn read_function_entries(
    n: usize,
    mut entries: Bytes<'_>,
    bodies: &mut Bytes<'_>,
) -> Option<BTreeMap<Name, ExtensionFunction>> {
    let mut last = None;
    let mut functions = BTreeMap::new();
    for _ in 0..n {
        let name = entries.u16()?;
        ascends(&mut last, name)?;
        let returns = entries.flag()?;
        let extension = entries.u16()?;
        if !returns && extension != 0 {
            return None;
        }
        let result = match returns {
            true => SchemaType::Extension {
                name: Name(extension),
            },
            false => SchemaType::Bool,
        };
        let length = entries.u16()? as usize;
        let args = read_arguments(bodies.take(length)?)?;
        functions.insert(Name(name), ExtensionFunction::new(Some(result), args));
    }
    Some(functions)
}

fn read_arguments(body: &[u8]) -> Option<Vec<SchemaType>> {
    let mut b = Bytes(body);
    let mut args = Vec::new();
    while !b.0.is_empty() {
        let kind = b.u8()?;
        let extension = b.u16()?;
        if kind != 4 && extension != 0 {
            return None;
        }
        args.push(match kind {
            1 => SchemaType::Bool,
            2 => SchemaType::Long,
            3 => SchemaType::String,
            4 => SchemaType::Extension {
                name: Name(extension),
            },
            _ => return None,
        });
    }
    Some(args)
}

/// The core type that a plain type stands for; none if it is not plain.
pub fn plain(ty: &Type) -> Option<SchemaType> {
    use crate::types::Primitive;
    Some(match ty {
        Type::Primitive { primitive_type } => match primitive_type {
            Primitive::Bool => SchemaType::Bool,
            Primitive::Long => SchemaType::Long,
            Primitive::String => SchemaType::String,
        },
        Type::Set { element_type: None } => SchemaType::EmptySet,
        Type::Set {
            element_type: Some(element),
        } => SchemaType::Set {
            element_ty: Box::new(plain(element)?),
        },
        Type::EntityOrRecord(EntityRecordKind::Record {
            attrs,
            open_attributes,
        }) => SchemaType::Record {
            attrs: plain_attrs(attrs)?,
            open_attrs: *open_attributes == OpenTag::OpenAttributes,
        },
        Type::EntityOrRecord(EntityRecordKind::Entity(lub)) => SchemaType::Entity {
            ty: *lub.get_single_entity()?,
        },
        Type::ExtensionType { name } => SchemaType::Extension { name: *name },
        _ => return None,
    })
}

fn plain_attrs(attrs: &Attributes) -> Option<BTreeMap<SmolStr, CoreAttributeType>> {
    let mut plains = BTreeMap::new();
    for (name, attr) in attrs.iter() {
        let ty = plain(&attr.attr_type)?;
        let ty = match attr.is_required {
            true => CoreAttributeType::required(ty),
            false => CoreAttributeType::optional(ty),
        };
        plains.insert(*name, ty);
    }
    Some(plains)
}

fn put16(out: &mut Vec<u8>, n: usize) {
    let n = u16::try_from(n).expect("a form that is written has lengths below 65,536");
    out.extend_from_slice(&n.to_le_bytes());
}

/// The form of a type.
pub fn write_type(ty: &Type) -> Vec<u8> {
    let mut out = Vec::new();
    put_type(&mut out, ty);
    out
}

fn put_type(out: &mut Vec<u8>, ty: &Type) {
    use crate::types::Primitive;
    match ty {
        Type::Never => out.push(0),
        Type::True => out.push(1),
        Type::False => out.push(2),
        Type::Primitive { primitive_type } => out.push(match primitive_type {
            Primitive::Bool => 3,
            Primitive::Long => 4,
            Primitive::String => 5,
        }),
        Type::Set { element_type: None } => out.push(6),
        Type::Set {
            element_type: Some(element),
        } => {
            out.push(7);
            put_type(out, element);
        }
        Type::EntityOrRecord(kind) => put_kind(out, kind),
        Type::ExtensionType { name } => {
            out.push(12);
            put16(out, name.0 as usize);
        }
    }
}

fn put_kind(out: &mut Vec<u8>, kind: &EntityRecordKind) {
    match kind {
        EntityRecordKind::Record {
            attrs,
            open_attributes,
        } => {
            out.extend_from_slice(&[8, open_attributes.is_open() as u8]);
            put_attrs(out, attrs);
        }
        EntityRecordKind::AnyEntity => out.push(9),
        EntityRecordKind::Entity(lub) => {
            out.push(10);
            put16(out, lub.iter().count());
            lub.iter().for_each(|name| put16(out, name.0 as usize));
        }
        EntityRecordKind::ActionEntity { name, attrs } => {
            out.push(11);
            put16(out, name.0 as usize);
            put_attrs(out, attrs);
        }
    }
}

fn put_attrs(out: &mut Vec<u8>, attrs: &Attributes) {
    let items = attrs
        .iter()
        .map(|(name, attr)| (name.number(), attr.is_required, &attr.attr_type));
    put_table(out, items, put_type);
}

/// Count, entries and bodies, the bodies written by `body`.
fn put_table<'a, T: 'a>(
    out: &mut Vec<u8>,
    items: impl Iterator<Item = (u16, bool, &'a T)>,
    body: fn(&mut Vec<u8>, &T),
) {
    let mut bodies = Vec::new();
    let mut entries = Vec::new();
    for (name, required, ty) in items {
        let start = bodies.len();
        body(&mut bodies, ty);
        put16(&mut entries, name as usize);
        entries.push(required as u8);
        put16(&mut entries, bodies.len() - start);
    }
    put16(out, entries.len() / 5);
    out.append(&mut entries);
    out.append(&mut bodies);
}

/// The plain form of a core type.
pub fn write_core(ty: &SchemaType) -> Vec<u8> {
    let mut out = Vec::new();
    put_core(&mut out, ty);
    out
}

fn put_core(out: &mut Vec<u8>, ty: &SchemaType) {
    match ty {
        SchemaType::Bool => out.push(3),
        SchemaType::Long => out.push(4),
        SchemaType::String => out.push(5),
        SchemaType::EmptySet => out.push(6),
        SchemaType::Set { element_ty } => {
            out.push(7);
            put_core(out, element_ty);
        }
        SchemaType::Record { attrs, open_attrs } => {
            out.extend_from_slice(&[8, *open_attrs as u8]);
            let items = attrs
                .iter()
                .map(|(name, attr)| (name.number(), attr.is_required(), attr.schema_type()));
            put_table(out, items, put_core);
        }
        SchemaType::Entity { ty } => {
            out.extend_from_slice(&[10, 1, 0]);
            put16(out, ty.0 as usize);
        }
        SchemaType::Extension { name } => {
            out.push(12);
            put16(out, name.0 as usize);
        }
    }
}
