//! Is a form whole, and which tree is it?

use super::Rules;
use crate::limits::Limits;
use crate::trees::{ActionEntry, Attr, EntityEntry, FunctionEntry, Sch, Ty, Val};

/// A position in the bytes of one block.
pub struct Reading<'a> {
    rules: Rules,
    bytes: &'a [u8],
    at: usize,
    /// Was a string read that is not text, with the fault that asks so early?
    broken: bool,
}

impl<'a> Reading<'a> {
    pub fn new(rules: Rules, bytes: &'a [u8]) -> Reading<'a> {
        Reading {
            rules,
            bytes,
            at: 0,
            broken: false,
        }
    }

    pub fn byte(&mut self) -> Option<u8> {
        let b = self.bytes.get(self.at)?;
        self.at += 1;
        Some(*b)
    }

    pub fn u16(&mut self) -> Option<u16> {
        let low = self.byte()? as u16;
        let high = self.byte()? as u16;
        Some(low + 256 * high)
    }

    pub fn run(&mut self, n: usize) -> Option<&'a [u8]> {
        let run = self.bytes.get(self.at..self.at + n)?;
        self.at += n;
        Some(run)
    }

    fn bit(&mut self, lax: u32) -> Option<bool> {
        let b = self.byte()?;
        if b > 1 && !self.rules.fault(lax) {
            return None;
        }
        Some(b == 1)
    }

    pub fn at_end(&self) -> bool {
        self.at == self.bytes.len()
    }

    /// A type with `levels` left, this one counted.
    fn ty(&mut self, levels: usize) -> Option<Ty> {
        if levels == 0 {
            return None;
        }
        match self.byte()? {
            kind @ (0..=6 | 9) => Some(Ty::Atom(kind)),
            7 if self.at_end() && self.rules.fault(216) => Some(Ty::Set(Box::new(Ty::Atom(0)))),
            7 => {
                let below = self.rules.or(14, levels - 1, levels);
                Some(Ty::Set(Box::new(self.element(below)?)))
            }
            8 => self.record(levels - 1),
            10 => Some(Ty::Ent(self.names()?)),
            11 => {
                let name = self.u16()?;
                let below = self.rules.or(13, levels - 1, levels);
                Some(Ty::Act(name, self.attrs(below)?))
            }
            12 => Some(Ty::Ext(self.u16()?)),
            _ => None,
        }
    }

    /// What stands below a set.
    fn element(&mut self, levels: usize) -> Option<Ty> {
        match self.bytes.get(self.at) {
            Some(7) | None => self.ty(levels),
            Some(8) if self.rules.fault(217) && levels > 0 => {
                self.at += 1;
                self.record(levels)
            }
            _ => self.ty(self.rules.or(218, levels, levels + 1)),
        }
    }

    /// A record behind its first byte; each body has `levels` left.
    fn record(&mut self, levels: usize) -> Option<Ty> {
        let open = self.bit(5)?;
        Some(Ty::Rec(open, self.attrs(levels)?))
    }

    fn names(&mut self) -> Option<Vec<u16>> {
        let n = self.u16()?;
        if n == 0 && !self.rules.fault(10) {
            return None;
        }
        let names = (0..n).map(|_| self.u16()).collect::<Option<Vec<u16>>>()?;
        ascending(&names, self.rules.fault(11)).then_some(names)
    }

    /// Count, entries, bodies; each body has `levels` left.
    fn attrs(&mut self, levels: usize) -> Option<Vec<Attr>> {
        let n = self.u16()? as usize;
        let mut heads = Vec::new();
        for _ in 0..n {
            heads.push((self.u16()?, self.bit(6)?, self.u16()? as usize));
        }
        let names: Vec<u16> = heads.iter().map(|h| h.0).collect();
        if !ascending(&names, self.rules.fault(7)) && !self.rules.fault(8) {
            return None;
        }
        let mut attrs = Vec::new();
        for (name, required, length) in heads {
            let start = self.at;
            let ty = self.ty(levels)?;
            if self.rules.fault(219) && matches!(ty, Ty::Set(_)) && self.at - start > length {
                self.at = start + length;
            }
            if self.at - start != length && !self.rules.fault(9) {
                return None;
            }
            attrs.push(Attr { name, required, ty });
        }
        Some(attrs)
    }

    fn val(&mut self, levels: usize) -> Option<Val> {
        if levels == 0 {
            return None;
        }
        match self.byte()? {
            b @ (0 | 1) => Some(Val::Bool(b == 1)),
            2 => Some(Val::Long(self.run(8)?.try_into().ok()?)),
            3 => {
                let n = self.u16()? as usize;
                let bytes = self.run(n)?.to_vec();
                if self.rules.fault(47) && n > 255 {
                    return None;
                }
                self.broken |= self.rules.fault(410) && !self.rules.text(&bytes);
                Some(Val::Str(bytes))
            }
            4 => Some(Val::Uid(self.u16()?, self.u16()?)),
            5 => Some(Val::Set(self.vals(levels - 1)?)),
            6 => Some(Val::Rec(self.pairs(levels - 1)?)),
            7 => {
                let function = self.u16()?;
                let below = self.rules.or(19, levels - 1, levels);
                Some(Val::Call(function, self.vals(below)?))
            }
            _ => None,
        }
    }

    /// A body of the stated length.
    fn body(&mut self, levels: usize, length: usize) -> Option<Val> {
        let start = self.at;
        let value = self.val(levels)?;
        (self.at - start == length || self.rules.fault(21)).then_some(value)
    }

    fn vals(&mut self, levels: usize) -> Option<Vec<Val>> {
        let n = self.u16()? as usize;
        let lengths = (0..n).map(|_| self.u16()).collect::<Option<Vec<u16>>>()?;
        lengths
            .iter()
            .map(|length| self.body(levels, *length as usize))
            .collect()
    }

    fn pairs(&mut self, levels: usize) -> Option<Vec<(u16, Val)>> {
        let n = self.u16()? as usize;
        let mut heads = Vec::new();
        for _ in 0..n {
            heads.push((self.u16()?, self.u16()? as usize));
        }
        let names: Vec<u16> = heads.iter().map(|h| h.0).collect();
        if !ascending(&names, self.rules.fault(17)) && !self.rules.fault(18) {
            return None;
        }
        let mut pairs = Vec::new();
        for (name, length) in heads {
            pairs.push((name, self.body(levels, length)?));
        }
        Some(pairs)
    }
}

/// Does each stand above the one before? `lax` lets equals stand.
fn ascending<T: PartialOrd>(all: &[T], lax: bool) -> bool {
    all.windows(2).all(|w| w[0] < w[1] || (lax && w[0] == w[1]))
}

impl Rules {
    pub fn whole_type(self, limits: Limits, form: &[u8]) -> Option<Ty> {
        let mut r = Reading::new(self, form);
        let bytes = self.or(2, limits.bytes, limits.bytes.saturating_sub(1));
        let levels = self.or(4, limits.levels, limits.levels.saturating_sub(1));
        if form.len() > self.or(1, bytes, limits.bytes + 1) {
            return None;
        }
        let ty = r.ty(self.or(3, levels, limits.levels + 1))?;
        (r.at_end() || self.fault(12)).then_some(ty)
    }

    pub fn whole_value(self, limits: Limits, form: &[u8]) -> Option<Val> {
        let limits = self.kept_standard(limits, 250, 259);
        let mut r = Reading::new(self, form);
        if form.len() > self.or(15, limits.bytes, limits.bytes + 1) {
            return None;
        }
        let value = r.val(self.or(16, limits.levels, limits.levels + 1))?;
        (r.at_end() || self.fault(22)).then_some(value)
    }

    /// Is a string that is not text read before the form is found not whole?
    pub fn reads_broken(self, limits: Limits, form: &[u8]) -> bool {
        let mut r = Reading::new(self, form);
        r.val(limits.levels);
        r.broken
    }

    /// The largest of a block, which no limit changes.
    fn block(self, limits: Limits, fault: u32) -> usize {
        self.or(fault, 32768, limits.bytes.saturating_mul(8))
    }

    pub fn whole_list(self, limits: Limits, form: &[u8]) -> Option<Vec<Ty>> {
        let mut r = Reading::new(self, form);
        let n = r.u16()? as usize;
        let most = self.or(291, 64, limits.levels.saturating_mul(4));
        let largest = self.block(limits, 289);
        if n > self.or(34, most, 65) || form.len() > self.or(35, largest, 32769) {
            return None;
        }
        let lengths = (0..n).map(|_| r.u16()).collect::<Option<Vec<u16>>>()?;
        let limits = self.kept_standard(limits, 251, 260);
        let mut types = Vec::new();
        for length in lengths {
            types.push(self.whole_type(limits, r.run(length as usize)?)?);
        }
        (r.at_end() || self.fault(36)).then_some(types)
    }

    pub fn whole_schema(self, limits: Limits, form: &[u8]) -> Option<Sch> {
        let mut r = Reading::new(self, form);
        let (n, m, k) = (r.u16()? as usize, r.u16()? as usize, r.u16()? as usize);
        let most = self.or(290, 256, limits.levels.saturating_mul(16));
        let functions = self.or(291, 64, limits.levels.saturating_mul(4));
        let counted = n <= self.or(23, most, 257)
            && m <= self.or(24, most, 257)
            && k <= self.or(25, functions, 65);
        if !counted || form.len() > self.or(26, self.block(limits, 288), 32769) {
            return None;
        }
        let entries = r.run(5 * n + 6 * m + 7 * k)?;
        let mut e = Reading::new(self, entries);
        let limits = self.kept_standard(limits, 252, 261);
        let schema = Sch {
            entities: self.entity_entries(limits, n, &mut e, &mut r)?,
            actions: self.action_entries(limits, m, &mut e, &mut r)?,
            functions: self.function_entries(limits, k, &mut e, &mut r)?,
        };
        (r.at_end() || self.fault(27)).then_some(schema)
    }

    fn record(self, limits: Limits, form: &[u8]) -> Option<(bool, Vec<Attr>)> {
        let ty = self.whole_type(limits, form)?;
        if self.fault(46) && ty.levels() >= limits.levels {
            return None;
        }
        match ty {
            Ty::Rec(open, attrs) => Some((open, attrs)),
            Ty::Act(_, attrs) if self.fault(45) => Some((false, attrs)),
            _ => None,
        }
    }

    fn entity_entries(
        self,
        limits: Limits,
        n: usize,
        e: &mut Reading<'_>,
        bodies: &mut Reading<'_>,
    ) -> Option<Vec<EntityEntry>> {
        let mut entries = Vec::new();
        for _ in 0..n {
            let (name, enumerated) = (e.u16()?, e.bit(28)?);
            let length = e.u16()? as usize;
            let (open, attrs) = self.record(limits, bodies.run(length)?)?;
            let named = name % 2 == 0 || self.fault(29);
            if !named || (enumerated && open && !self.fault(30)) {
                return None;
            }
            entries.push(EntityEntry {
                name,
                enumerated,
                open,
                attrs,
            });
        }
        let names: Vec<u16> = entries.iter().map(|e| e.name).collect();
        ascending(&names, self.fault(31)).then_some(entries)
    }

    fn action_entries(
        self,
        limits: Limits,
        n: usize,
        e: &mut Reading<'_>,
        bodies: &mut Reading<'_>,
    ) -> Option<Vec<ActionEntry>> {
        let mut entries = Vec::new();
        for _ in 0..n {
            let (ty, id) = (e.u16()?, e.u16()?);
            let length = e.u16()? as usize;
            let (open, attrs) = self.record(limits, bodies.run(length)?)?;
            if (ty % 2 == 0 && !self.fault(32)) || (open && !self.fault(33)) {
                return None;
            }
            entries.push(ActionEntry { ty, id, attrs });
        }
        let key = |a: &ActionEntry| self.or(37, (a.ty, a.id), (a.ty, 0));
        let keys: Vec<(u16, u16)> = entries.iter().map(key).collect();
        let equal_ids = self.fault(37) || self.fault(38);
        ascending(&keys, equal_ids).then_some(entries)
    }

    fn function_entries(
        self,
        limits: Limits,
        n: usize,
        e: &mut Reading<'_>,
        bodies: &mut Reading<'_>,
    ) -> Option<Vec<FunctionEntry>> {
        let mut entries = Vec::new();
        for _ in 0..n {
            let (name, returns, extension) = (e.u16()?, e.bit(39)?, e.u16()?);
            let length = e.u16()? as usize;
            let args = self.arguments(bodies.run(length)?)?;
            if self.fault(309) && length > limits.bytes {
                return None;
            }
            if !returns && extension != 0 && !self.fault(40) {
                return None;
            }
            entries.push(FunctionEntry {
                name,
                returns: returns.then_some(extension),
                args,
            });
        }
        let names: Vec<u16> = entries.iter().map(|e| e.name).collect();
        ascending(&names, self.fault(41)).then_some(entries)
    }

    fn arguments(self, body: &[u8]) -> Option<Vec<(u8, u16)>> {
        let mut r = Reading::new(self, body);
        let mut args = Vec::new();
        while !r.at_end() {
            if self.fault(44) && body.len() - r.at < 3 {
                break;
            }
            let (kind, extension) = (r.byte()?, r.u16()?);
            let known = (1..=self.or(42, 4, 5)).contains(&kind);
            let named = kind == 4 || extension == 0 || self.fault(43);
            if !known || !named {
                return None;
            }
            args.push((kind, extension));
        }
        Some(args)
    }
}
