//! Types, values and schemas as trees, and their forms. The model reads forms
//! into these trees; the generator builds forms from them.

#[derive(Clone, Debug, PartialEq, Eq)]
pub enum Ty {
    /// Kinds 0 to 6 and 9.
    Atom(u8),
    Set(Box<Ty>),
    Rec(bool, Vec<Attr>),
    Ent(Vec<u16>),
    Act(u16, Vec<Attr>),
    Ext(u16),
}

#[derive(Clone, Debug, PartialEq, Eq)]
pub struct Attr {
    pub name: u16,
    pub required: bool,
    pub ty: Ty,
}

#[derive(Clone, Debug, PartialEq, Eq)]
pub enum Val {
    Bool(bool),
    Long([u8; 8]),
    Str(Vec<u8>),
    Uid(u16, u16),
    Set(Vec<Val>),
    Rec(Vec<(u16, Val)>),
    Call(u16, Vec<Val>),
}

#[derive(Clone, Debug, PartialEq, Eq)]
pub struct EntityEntry {
    pub name: u16,
    pub enumerated: bool,
    pub open: bool,
    pub attrs: Vec<Attr>,
}

#[derive(Clone, Debug, PartialEq, Eq)]
pub struct ActionEntry {
    pub ty: u16,
    pub id: u16,
    pub attrs: Vec<Attr>,
}

#[derive(Clone, Debug, PartialEq, Eq)]
pub struct FunctionEntry {
    pub name: u16,
    pub returns: Option<u16>,
    pub args: Vec<(u8, u16)>,
}

#[derive(Clone, Debug, PartialEq, Eq, Default)]
pub struct Sch {
    pub entities: Vec<EntityEntry>,
    pub actions: Vec<ActionEntry>,
    pub functions: Vec<FunctionEntry>,
}

fn put16(out: &mut Vec<u8>, n: usize) {
    out.extend_from_slice(&(n as u16).to_le_bytes());
}

/// A form from what writes it.
fn made(write: impl FnOnce(&mut Vec<u8>)) -> Vec<u8> {
    let mut out = Vec::new();
    write(&mut out);
    out
}

impl Ty {
    pub fn form(&self) -> Vec<u8> {
        made(|out| self.put(out))
    }

    fn put(&self, out: &mut Vec<u8>) {
        match self {
            Ty::Atom(kind) => out.push(*kind),
            Ty::Set(element) => {
                out.push(7);
                element.put(out);
            }
            Ty::Rec(open, attrs) => {
                out.extend_from_slice(&[8, *open as u8]);
                put_attrs(out, attrs);
            }
            Ty::Ent(names) => {
                out.push(10);
                put16(out, names.len());
                names.iter().for_each(|n| put16(out, *n as usize));
            }
            Ty::Act(name, attrs) => {
                out.push(11);
                put16(out, *name as usize);
                put_attrs(out, attrs);
            }
            Ty::Ext(name) => {
                out.push(12);
                put16(out, *name as usize);
            }
        }
    }

    pub fn levels(&self) -> usize {
        match self {
            Ty::Set(element) => 1 + element.levels(),
            Ty::Rec(_, attrs) | Ty::Act(_, attrs) => {
                1 + attrs.iter().map(|a| a.ty.levels()).max().unwrap_or(0)
            }
            _ => 1,
        }
    }
}

fn put_attrs(out: &mut Vec<u8>, attrs: &[Attr]) {
    put16(out, attrs.len());
    let bodies: Vec<Vec<u8>> = attrs.iter().map(|a| a.ty.form()).collect();
    for (attr, body) in attrs.iter().zip(&bodies) {
        put16(out, attr.name as usize);
        out.push(attr.required as u8);
        put16(out, body.len());
    }
    bodies.iter().for_each(|b| out.extend_from_slice(b));
}

/// Count, lengths, bodies.
fn put_bodies(out: &mut Vec<u8>, bodies: &[Vec<u8>]) {
    put16(out, bodies.len());
    bodies.iter().for_each(|b| put16(out, b.len()));
    bodies.iter().for_each(|b| out.extend_from_slice(b));
}

/// A list of types from their forms.
pub fn list_form(types: &[Vec<u8>]) -> Vec<u8> {
    made(|out| put_bodies(out, types))
}

impl Val {
    pub fn form(&self) -> Vec<u8> {
        made(|out| self.put(out))
    }

    pub fn levels(&self) -> usize {
        1 + self.parts().map(Val::levels).max().unwrap_or(0)
    }

    /// What stands a level below, in turn.
    pub fn parts(&self) -> Box<dyn Iterator<Item = &Val> + '_> {
        match self {
            Val::Set(values) | Val::Call(_, values) => Box::new(values.iter()),
            Val::Rec(pairs) => Box::new(pairs.iter().map(|(_, v)| v)),
            _ => Box::new(std::iter::empty()),
        }
    }

    pub fn parts_mut(&mut self) -> Box<dyn Iterator<Item = &mut Val> + '_> {
        match self {
            Val::Set(values) | Val::Call(_, values) => Box::new(values.iter_mut()),
            Val::Rec(pairs) => Box::new(pairs.iter_mut().map(|(_, v)| v)),
            _ => Box::new(std::iter::empty()),
        }
    }

    /// The strings at every level, in turn.
    pub fn strings(&self) -> Vec<&[u8]> {
        match self {
            Val::Str(bytes) => vec![bytes],
            _ => self.parts().flat_map(Val::strings).collect(),
        }
    }

    fn put(&self, out: &mut Vec<u8>) {
        match self {
            Val::Bool(b) => out.push(*b as u8),
            Val::Long(bytes) => {
                out.push(2);
                out.extend_from_slice(bytes);
            }
            Val::Str(bytes) => {
                out.push(3);
                put16(out, bytes.len());
                out.extend_from_slice(bytes);
            }
            Val::Uid(ty, id) => {
                out.push(4);
                put16(out, *ty as usize);
                put16(out, *id as usize);
            }
            Val::Set(values) => {
                out.push(5);
                put_values(out, values);
            }
            Val::Rec(pairs) => put_pairs(out, pairs),
            Val::Call(function, args) => {
                out.push(7);
                put16(out, *function as usize);
                put_values(out, args);
            }
        }
    }
}

fn put_values(out: &mut Vec<u8>, values: &[Val]) {
    let bodies: Vec<Vec<u8>> = values.iter().map(Val::form).collect();
    put_bodies(out, &bodies);
}

fn put_pairs(out: &mut Vec<u8>, pairs: &[(u16, Val)]) {
    out.push(6);
    put16(out, pairs.len());
    let bodies: Vec<Vec<u8>> = pairs.iter().map(|(_, v)| v.form()).collect();
    for ((name, _), body) in pairs.iter().zip(&bodies) {
        put16(out, *name as usize);
        put16(out, body.len());
    }
    bodies.iter().for_each(|b| out.extend_from_slice(b));
}

impl Sch {
    pub fn form(&self) -> Vec<u8> {
        let mut out = Vec::new();
        let mut bodies = Vec::new();
        put16(&mut out, self.entities.len());
        put16(&mut out, self.actions.len());
        put16(&mut out, self.functions.len());
        for e in &self.entities {
            put16(&mut out, e.name as usize);
            out.push(e.enumerated as u8);
            put_body(&mut out, &mut bodies, e.body().form());
        }
        for a in &self.actions {
            put16(&mut out, a.ty as usize);
            put16(&mut out, a.id as usize);
            put_body(&mut out, &mut bodies, a.body().form());
        }
        for f in &self.functions {
            put16(&mut out, f.name as usize);
            out.push(f.returns.is_some() as u8);
            put16(&mut out, f.returns.unwrap_or(0) as usize);
            put_body(&mut out, &mut bodies, f.body());
        }
        out.append(&mut bodies);
        out
    }
}

/// A body's length among the entries, its bytes among the bodies.
fn put_body(out: &mut Vec<u8>, bodies: &mut Vec<u8>, body: Vec<u8>) {
    put16(out, body.len());
    bodies.extend_from_slice(&body);
}

impl EntityEntry {
    pub fn body(&self) -> Ty {
        Ty::Rec(self.open, self.attrs.clone())
    }
}

impl ActionEntry {
    pub fn body(&self) -> Ty {
        Ty::Rec(false, self.attrs.clone())
    }
}

impl FunctionEntry {
    fn body(&self) -> Vec<u8> {
        made(|out| {
            for (kind, extension) in &self.args {
                out.push(*kind);
                put16(out, *extension as usize);
            }
        })
    }
}

/// One question that is being built.
#[derive(Clone, Debug)]
pub struct Ask {
    pub op: u8,
    pub mode: u8,
    pub attr: u16,
    pub t0: Vec<u8>,
    pub t1: Vec<u8>,
}

/// The bytes of a job.
pub fn job_form(schema: &[u8], asks: &[Ask]) -> Vec<u8> {
    made(|out| {
        put16(out, schema.len());
        put16(out, asks.len());
        for ask in asks {
            out.extend_from_slice(&[ask.op, ask.mode]);
            put16(out, ask.attr as usize);
            put16(out, ask.t0.len());
            put16(out, ask.t1.len());
        }
        out.extend_from_slice(schema);
        for ask in asks {
            out.extend_from_slice(&ask.t0);
            out.extend_from_slice(&ask.t1);
        }
    })
}
