//! A fixed list of jobs: small ones, that reach every cell of the coverage
//! table and tell each fault of the model from the rule where lines can.

use crate::coverage::Coverage;
use crate::generate::Gen;
use crate::jobs::{lines, read_job};
use crate::model::faults::{beside_jobs, FAULTS};
use crate::model::{self, Rules};
use crate::noted::{self, NOTED};

/// A job with the oracle's lines.
pub struct Recorded {
    pub job: Vec<u8>,
    pub lines: Vec<u8>,
    pub questions: usize,
}

fn recorded(job: Vec<u8>) -> Recorded {
    let lines = lines(&job);
    let questions = read_job(&job).map_or(0, |j| j.questions.len());
    Recorded {
        job,
        lines,
        questions,
    }
}

impl Recorded {
    fn bytes(&self) -> usize {
        self.job.len() + self.lines.len()
    }

    fn catches(&self, fault: u32) -> bool {
        model::lines(Rules { fault }, &self.job) != self.lines
    }
}

/// Jobs of the pool that are picked, by place.
struct Picked {
    pool: Vec<Recorded>,
    taken: Vec<bool>,
    questions: usize,
}

impl Picked {
    fn take(&mut self, at: usize) {
        if !self.taken[at] {
            self.taken[at] = true;
            self.questions += self.pool[at].questions;
        }
    }

    fn catches(&self, fault: u32) -> bool {
        let taken = self.pool.iter().zip(&self.taken).filter(|(_, t)| **t);
        taken.into_iter().any(|(r, _)| r.catches(fault))
    }

    /// The smallest of the first few jobs that catch the fault.
    fn catcher(&self, fault: u32) -> Option<usize> {
        let all = 0..self.pool.len();
        let first = all.filter(|at| self.pool[*at].catches(fault)).take(6);
        first.min_by_key(|at| self.pool[*at].bytes())
    }

    fn coverage(&self) -> Coverage {
        let mut coverage = Coverage::default();
        for (r, taken) in self.pool.iter().zip(&self.taken) {
            if *taken {
                coverage.count_job(&r.job);
            }
        }
        coverage
    }
}

/// Pick about so many questions from a pool of so many jobs. Also the faults
/// that no job of the pool catches.
pub fn sample(seed: u64, pool: usize, questions: usize) -> (Vec<Recorded>, Vec<u32>) {
    let mut gen = Gen::new(seed);
    let mut jobs: Vec<Vec<u8>> = NOTED.iter().map(|(job, _)| noted::bytes(job)).collect();
    jobs.extend((0..pool).map(|_| gen.job()));
    let pool: Vec<Recorded> = jobs.into_iter().map(recorded).collect();
    let mut picked = Picked {
        taken: vec![false; pool.len()],
        pool,
        questions: 0,
    };
    (0..NOTED.len()).for_each(|at| picked.take(at));
    let mut uncaught = Vec::new();
    for (fault, _) in FAULTS.iter().filter(|(fault, _)| !beside_jobs(*fault)) {
        match picked.catcher(*fault) {
            _ if picked.catches(*fault) => (),
            Some(at) => picked.take(at),
            None => uncaught.push(*fault),
        }
    }
    reach_cells(&mut picked);
    fill(&mut picked, questions);
    let all = picked.pool.into_iter().zip(picked.taken);
    (all.filter(|(_, t)| *t).map(|(r, _)| r).collect(), uncaught)
}

/// Take the smallest job for each cell that is not reached.
fn reach_cells(picked: &mut Picked) {
    let mut missing = picked.coverage().missing();
    while !missing.is_empty() {
        let helps = |r: &Recorded| {
            let mut one = Coverage::default();
            one.count_job(&r.job);
            one.missing().iter().all(|m| *m != missing[0])
        };
        let able = (0..picked.pool.len()).filter(|at| helps(&picked.pool[*at]));
        let Some(at) = able.min_by_key(|at| picked.pool[*at].bytes()) else {
            return;
        };
        picked.take(at);
        missing = picked.coverage().missing();
    }
}

/// Small jobs in the order of the pool until there are enough questions.
fn fill(picked: &mut Picked, questions: usize) {
    for at in 0..picked.pool.len() {
        if picked.questions >= questions {
            return;
        }
        let small = picked.pool[at].job.len() <= 2000;
        if small && picked.pool[at].questions >= 5 {
            picked.take(at);
        }
    }
}
