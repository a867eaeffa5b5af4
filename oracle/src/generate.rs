//! Jobs from a seed: related types, types around every limit, conforming and
//! damaged values, text and damaged text, damaged bytes. Questions under other limits than a job's are
//! drawn from the same generators.

mod asks;
mod calls;
mod damage;
mod drawn;
mod measures;
mod schemas;
mod sizes;
mod texts;
mod types;
mod unlike;
mod values;

use crate::limits::Limits;
use crate::trees::{job_form, Ask};

pub use drawn::Drawn;
pub use sizes::{names, union_of_length};
pub use texts::{BROKEN, EDGES};

/// Numbers from a seed.
#[derive(Clone)]
pub struct Rng(u64);

impl Rng {
    pub fn new(seed: u64) -> Rng {
        Rng(seed ^ 0x6a09_e667_f3bc_c908)
    }

    fn next(&mut self) -> u64 {
        self.0 = self.0.wrapping_add(0x9e37_79b9_7f4a_7c15);
        let mut z = self.0;
        z = (z ^ (z >> 30)).wrapping_mul(0xbf58_476d_1ce4_e5b9);
        z = (z ^ (z >> 27)).wrapping_mul(0x94d0_49bb_1331_11eb);
        z ^ (z >> 31)
    }

    /// A number below `n`.
    pub fn below(&mut self, n: usize) -> usize {
        (((self.next() >> 32) * n as u64) >> 32) as usize
    }

    /// A number from `low` to `high`, both counted.
    pub fn from(&mut self, low: usize, high: usize) -> usize {
        low + self.below(high - low + 1)
    }

    /// Yes in so many of a hundred cases.
    pub fn percent(&mut self, n: usize) -> bool {
        self.below(100) < n
    }

    pub fn pick<'a, T>(&mut self, from: &'a [T]) -> &'a T {
        &from[self.below(from.len())]
    }

    /// A mode, mode 2 as often as the others together.
    pub fn mode(&mut self) -> u8 {
        *self.pick(&[0, 1, 2, 2])
    }
}

/// The names that forms are built from: few, so that names are shared.
pub const ATTRS: &[u16] = &[0, 1, 2, 3, 4, 255, 256, 65535];
pub const ENTITIES: &[u16] = &[0, 2, 4, 6, 8, 256, 65534];
pub const ACTION_TYPES: &[u16] = &[1, 3, 5, 257, 65535];
pub const EXTENSIONS: &[u16] = &[0, 7, 8, 300];
pub const FUNCTIONS: &[u16] = &[0, 5, 6, 7, 600, 65535];

/// A schema and questions on it.
pub struct Asked {
    pub schema: Vec<u8>,
    pub asks: Vec<Ask>,
}

impl Asked {
    fn job(&self) -> Vec<u8> {
        job_form(&self.schema, &self.asks)
    }
}

/// What a generator draws from.
pub struct Gen {
    pub rng: Rng,
    /// Sizes and levels are drawn around these.
    limits: Limits,
}

impl Gen {
    pub fn new(seed: u64) -> Gen {
        Gen {
            rng: Rng::new(seed),
            limits: Limits::STANDARD,
        }
    }

    /// A generator of its own, around these limits: what it draws leaves the
    /// next draws of this one as they are.
    pub fn beside(&self, limits: Limits) -> Gen {
        Gen {
            rng: Rng::new(self.rng.0),
            limits: limits.nearest(),
        }
    }

    /// The next job.
    pub fn job(&mut self) -> Vec<u8> {
        match self.rng.below(1000) {
            0..=6 => self.counted().job(),
            7..=26 => self.sized().job(),
            27..=56 => self.swept().job(),
            57..=96 => {
                let job = self.small().job();
                self.damaged(&job)
            }
            97..=98 => self.job_around_its_size(),
            99 => self.job_of_many(),
            100..=114 => self.job_with_untaken_field(),
            _ => self.small().job(),
        }
    }

    /// Small questions on one schema.
    fn small(&mut self) -> Asked {
        let (tree, schema) = self.job_schema();
        let bad_schema = schema != tree.form();
        let count = *self.rng.pick(&[0, 1, 2, 5, 10, 15, 20, 25, 30]);
        let mut asks = Vec::new();
        let mut bytes = 4 + schema.len();
        for _ in 0..count {
            let ask = self.ask(&tree, bad_schema);
            bytes += 8 + ask.t0.len() + ask.t1.len();
            if bytes > 32_000 {
                break;
            }
            asks.push(ask);
        }
        Asked { schema, asks }
    }

    /// A schema, in some cases with its bytes damaged.
    fn job_schema(&mut self) -> (crate::trees::Sch, Vec<u8>) {
        let tree = match self.rng.below(100) {
            0..=4 => Default::default(),
            5..=20 => self.tiny_schema(),
            _ => self.schema(),
        };
        let form = match self.rng.below(100) {
            0..=1 => self.damaged(&tree.form()),
            2..=5 => self.damaged_entry(&tree),
            6..=10 => {
                let mut spoiled = tree.clone();
                self.spoil_schema(&mut spoiled);
                spoiled.form()
            }
            _ => tree.form(),
        };
        (tree, form)
    }

    /// A field that the operation does not take is other than 0.
    fn job_with_untaken_field(&mut self) -> Vec<u8> {
        let (tree, schema) = self.job_schema();
        let mut asks: Vec<Ask> = (0..self.rng.from(1, 4))
            .map(|_| self.ask(&tree, false))
            .collect();
        let at = self.rng.below(asks.len());
        let ask = &mut asks[at];
        match self.rng.below(4) {
            0 => ask.mode = *self.rng.pick(&[1, 1, 2]),
            1 => ask.attr = *self.rng.pick(&[1, 256]),
            2 if ask.t1.is_empty() => ask.t1 = vec![4],
            _ => {
                *ask = Ask {
                    op: *self.rng.pick(&[12, 12, 13, 255]),
                    mode: 0,
                    attr: 0,
                    t0: ask.t0.clone(),
                    t1: Vec::new(),
                }
            }
        }
        job_form(&schema, &asks)
    }

    /// Many tiny questions, so that their count passes one byte.
    fn job_of_many(&mut self) -> Vec<u8> {
        let count = *self.rng.pick(&[255, 256, 257, 999, 1000, 1001, 3000]);
        let asked = [(0, 0), (0, 2), (1, 1), (1, 2), (2, 0), (2, 0)];
        let kind = |gen: &mut Gen| vec![gen.rng.below(11) as u8];
        let tiny = |gen: &mut Gen| {
            let (op, mode) = *gen.rng.pick(&asked);
            Ask {
                op,
                mode,
                attr: 0,
                t0: kind(gen),
                t1: kind(gen),
            }
        };
        let asks: Vec<Ask> = (0..count).map(|_| tiny(self)).collect();
        job_form(&[0; 6], &asks)
    }

    /// A whole job of 32,766 to 32,770 bytes.
    fn job_around_its_size(&mut self) -> Vec<u8> {
        let target = self.rng.from(32_766, 32_770);
        let schema = vec![0; 6];
        let mut asks = Vec::new();
        let mut left = target - 4 - schema.len();
        while left > 0 {
            let length = left.clamp(9, 4000) - 8;
            let length = match left - 8 - length {
                1..=8 => length - 8,
                _ => length,
            };
            let t0 = self.type_of_length(length);
            left -= 8 + t0.len();
            asks.push(Ask {
                op: 7,
                mode: 0,
                attr: 0,
                t0,
                t1: Vec::new(),
            });
        }
        job_form(&schema, &asks)
    }
}
