//! Questions under limits that are drawn, on, around and outside their ranges.

use super::asks::{plainly, uid_form};
use super::measures::chain;
use super::sizes::{ask, attr, counted_action, counted_function};
use super::{Asked, Gen};
use crate::limits::Limits;
use crate::questions::operation::*;
use crate::trees::{list_form, Ask, EntityEntry, Sch, Ty, Val};

/// Limits, and a schema and questions around them.
pub struct Drawn {
    pub limits: Limits,
    pub asked: Asked,
}

/// Both ends of the ranges, what the programs use, and their neighbours.
const LEVELS: &[usize] = &[1, 1, 2, 2, 3, 15, 16, 17, 17, 31, 32, 32];
const BYTES: &[usize] = &[64, 64, 65, 4095, 4096, 4097, 8191, 8192, 8192];

/// Outside the ranges: neighbours, and numbers that are allowed once their
/// high bits are lost.
const NO_LEVELS: &[usize] = &[0, 33, 255, 256 + 16, 65_536 + 16, u32::MAX as usize];
const NO_BYTES: &[usize] = &[
    0,
    1,
    63,
    8193,
    65_535,
    65_536 + 64,
    65_536 + 4096,
    u32::MAX as usize,
];

/// The same beyond 32 bits, which only the library can be asked with.
const WIDE: usize = 1 << 32;

impl Gen {
    fn drawn_levels(&mut self) -> usize {
        match self.rng.percent(60) {
            true => *self.rng.pick(LEVELS),
            false => self.rng.from(1, 32),
        }
    }

    fn drawn_bytes(&mut self) -> usize {
        match self.rng.below(10) {
            0..=4 => *self.rng.pick(BYTES),
            5..=7 => self.rng.from(64, 400),
            _ => self.rng.from(64, 8192),
        }
    }

    fn drawn_limits(&mut self) -> Limits {
        let mut limits = Limits {
            levels: self.drawn_levels(),
            bytes: self.drawn_bytes(),
        };
        match self.rng.below(100) {
            0..=6 => return Limits::STANDARD,
            7..=10 => limits.levels = *self.rng.pick(NO_LEVELS),
            11..=14 => limits.bytes = *self.rng.pick(NO_BYTES),
            15 => {
                limits.levels = *self.rng.pick(NO_LEVELS);
                limits.bytes = *self.rng.pick(NO_BYTES);
            }
            16 => match self.rng.percent(50) {
                true => limits.levels += WIDE,
                false => limits.bytes += WIDE,
            },
            17..=24 => limits.levels = Limits::STANDARD.levels,
            25..=44 => limits.bytes = Limits::STANDARD.bytes,
            _ => (),
        }
        limits
    }

    /// The next questions.
    pub fn drawn(&mut self) -> Drawn {
        let limits = self.drawn_limits();
        self.limits = limits.nearest();
        let asked = match self.rng.below(210) {
            0 => self.counted(),
            1..=2 => self.counted_by_levels(),
            3..=42 => {
                let kind = self.rng.below(12);
                self.sized_by(kind)
            }
            43..=62 => self.leveled(),
            63..=64 => self.nested_records(),
            65..=70 => self.swept(),
            71 if self.limits.bytes >= 700 => self.large(),
            200.. if self.limits.levels > 1 => self.joined(),
            _ => self.small(),
        };
        self.limits = Limits::STANDARD;
        Drawn { limits, asked }
    }

    /// A number of levels: the most, one more, or close to it.
    pub fn level_edge(&mut self) -> usize {
        let most = self.limits.levels;
        match self.rng.percent(80) {
            true => self.rng.from(most, most + 1),
            false => self.rng.from(most.saturating_sub(2).max(1), most + 2),
        }
    }

    /// Types, values, members and bodies of about the most levels.
    fn leveled(&mut self) -> Asked {
        let levels = self.level_edge();
        let leaf = self.ty(1);
        let form = self.below_holders(leaf, levels).form();
        let (leaf, holders) = (self.leaf(), self.level_edge() - 1);
        let mut value = self.nest(leaf, holders);
        if self.rng.percent(40) {
            self.break_text(&mut value);
        }
        let value = value.form();
        let list = list_form(&[vec![0], form.clone()]);
        let (mode, none) = (self.rng.mode(), Vec::new);
        let mut asks = vec![
            ask(SUBTYPE, mode, 0, form.clone(), form.clone()),
            ask(BOUND, mode, 0, vec![0], form.clone()),
            ask(DISJOINT, 0, 0, form.clone(), vec![4]),
            ask(CONSISTENT, 0, 0, vec![6], form.clone()),
            ask(CONVERT, 0, 0, form, none()),
            ask(CONFORMS, 0, 0, vec![6], value.clone()),
            ask(FULL, 0, 0, vec![6], value.clone()),
            ask(LITERAL, 0, 0, value, none()),
            ask(FOLD, mode, 0, list, none()),
        ];
        let mut schema = Sch::default();
        if levels > 1 {
            let leaf = self.ty(1);
            let ty = self.below_holders(leaf, levels - 1);
            let attrs = vec![attr(1, self.rng.percent(50), ty)];
            self.hold(&mut schema, attrs, &mut asks);
        }
        let schema = schema.form();
        Asked { schema, asks }
    }

    /// Entity types whose one attribute has a type of any levels, changed in some
    /// place: joined it often has fewer. And sets of about the most levels, to be
    /// converted.
    fn joined(&mut self) -> Asked {
        let leaf = plainly(&self.ty(1));
        let sets = chain(leaf.clone(), self.level_edge() - 1);
        let levels = self.rng.from(1, self.limits.levels - 1);
        let first = self.below_holders(leaf, levels);
        let types = [first.clone(), self.mutated(&first), self.mutated(&first)];
        let mut schema = Sch::default();
        for (at, ty) in types.iter().enumerate() {
            schema.entities.push(EntityEntry {
                name: 2 * at as u16,
                enumerated: self.rng.percent(20),
                open: false,
                attrs: vec![attr(1, self.rng.percent(50), ty.clone())],
            });
        }
        let (mode, none) = (self.rng.mode(), Vec::new);
        let forms = types.map(|ty| ty.form());
        let mut asks = vec![
            ask(BOUND, mode, 0, forms[0].clone(), forms[1].clone()),
            ask(FOLD, mode, 0, list_form(&forms), none()),
            ask(CONVERT, 0, 0, forms[0].clone(), none()),
            ask(CONVERT, 0, 0, sets.form(), none()),
        ];
        for union in [vec![0], vec![0, 2], vec![2, 4], vec![0, 2, 4]] {
            asks.push(ask(LOOKUP, 0, 1, Ty::Ent(union).form(), none()));
        }
        let schema = schema.form();
        Asked { schema, asks }
    }

    /// Two types of records alone, alike up to the innermost.
    fn nested_records(&mut self) -> Asked {
        let open = self.rng.percent(60);
        let held = |ty: Ty| Ty::Rec(open, vec![attr(1, true, ty)]);
        let (mut a, mut b) = (self.ty(1), self.ty(1));
        for _ in 1..self.level_edge() {
            (a, b) = (held(a), held(b));
        }
        let (a, b) = (a.form(), b.form());
        let mode = self.rng.mode();
        let asks = vec![
            ask(SUBTYPE, mode, 0, a.clone(), b.clone()),
            ask(BOUND, mode, 0, a.clone(), b.clone()),
            ask(CONSISTENT, 0, 0, b.clone(), b.clone()),
            ask(FOLD, mode, 0, list_form(&[a, b]), Vec::new()),
        ];
        on_nothing(asks)
    }

    /// So many entries and types as a count that grew with the levels would
    /// have, and one more.
    fn counted_by_levels(&mut self) -> Asked {
        let mut asked = self.counted();
        let more = self.rng.below(2);
        let entries = (16 * self.limits.levels + more).min(256);
        let few = (4 * self.limits.levels + more).min(64);
        asked.schema = self.schema_of_counts(entries, few).form();
        let list = list_form(&vec![vec![4]; few]);
        let mode = self.rng.mode();
        asked.asks.push(ask(FOLD, mode, 0, list, Vec::new()));
        asked
    }

    /// A block around the largest, which no job holds; the entries of a schema
    /// behind its entity types are found too.
    fn large(&mut self) -> Asked {
        if self.rng.percent(50) {
            let (_, list) = self.large_blocks();
            let mode = self.rng.mode();
            return on_nothing(vec![ask(FOLD, mode, 0, list, Vec::new())]);
        }
        let last = Sch {
            actions: vec![counted_action(0)],
            functions: vec![counted_function(5)],
            ..Sch::default()
        };
        let length = self.rng.from(32_766, 32_770);
        let entity = Ty::Ent(vec![2]).form();
        let call = Val::Call(5, Vec::new()).form();
        let asks = vec![
            ask(MAY_HAVE, 0, 1, entity.clone(), Vec::new()),
            ask(LOOKUP, 0, 1, entity, Vec::new()),
            ask(LITERAL, 0, 0, uid_form(1, 0), Vec::new()),
            ask(CONFORMS, 0, 0, Ty::Ext(7).form(), call.clone()),
            ask(FULL, 0, 0, Ty::Ext(7).form(), call),
        ];
        Asked {
            schema: self.large_schema(last, length),
            asks,
        }
    }
}

/// Questions on the empty schema.
fn on_nothing(asks: Vec<Ask>) -> Asked {
    let schema = Sch::default().form();
    Asked { schema, asks }
}
