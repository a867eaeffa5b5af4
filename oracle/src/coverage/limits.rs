//! What questions under drawn limits came to.

use super::edges::Edges;
use super::levels::Levels;
use super::Coverage;
use crate::deep::NESTED;
use crate::limits::Limits;
use crate::questions::SchemaCache;
use crate::rounds::Round;

/// Questions under other limits than the standard ones and under these, forms
/// of exactly their limits, answers by their levels, and how many questions the
/// model judged alone.
pub struct Limited {
    others: Coverage,
    standard: Coverage,
    edges: Edges,
    levels: Levels,
    left_out: u64,
}

impl Default for Limited {
    fn default() -> Limited {
        Limited {
            others: Coverage::under_limits(),
            standard: Coverage::under_limits(),
            edges: Edges::default(),
            levels: Levels::default(),
            left_out: 0,
        }
    }
}

impl Limited {
    pub fn count(&mut self, round: &Round) {
        let others = round.limits != Limits::STANDARD;
        let schema = SchemaCache::of(round.limits, &round.schema);
        let coverage = match others {
            true => &mut self.others,
            false => &mut self.standard,
        };
        for answered in &round.answered {
            self.left_out += answered.left_out as u64;
            let call = round.call(answered);
            coverage.count_with(&call, &schema, &answered.outcome);
            self.levels.count(&call, &schema, &answered.outcome);
            if others && round.limits.allowed() {
                self.edges.count(&call, &answered.outcome);
            }
        }
        if others && round.limits.allowed() {
            self.edges.count_schema(round.limits, &round.schema);
        }
    }

    /// Questions under other limits.
    pub fn others(&self) -> u64 {
        self.others.questions()
    }

    /// The possible cells, and the sizes, that were not met.
    pub fn missing(&self) -> Vec<String> {
        let mut missing = self.others.missing();
        missing.extend(self.edges.missing());
        missing.extend(self.levels.missing());
        missing
    }

    pub fn unexpected(&self) -> Vec<String> {
        self.others.unexpected()
    }

    pub fn table(&self) -> String {
        let sum = |count: fn(&Coverage) -> u64| count(&self.others) + count(&self.standard);
        format!(
            "under other limits than the standard ones\n{}forms of exactly their limit, and of one more\n{}\
             answers by their levels\n{}\
             {} questions, {} of them under other limits, {} of these refused with 20; of all {} measure, {} in mode 2, \
             {} of operation 11, {} of these not as operation 8, {} refused with 17; \
             {} judged by the model alone, with more than {NESTED} records around each other\n",
            self.others.lines(),
            self.edges.table(),
            self.levels.table(),
            sum(Coverage::questions),
            self.others(),
            self.others.refused(20),
            sum(Coverage::measures),
            sum(Coverage::loose),
            sum(Coverage::full),
            sum(Coverage::not_full),
            sum(Coverage::broken),
            self.left_out,
        )
    }
}
