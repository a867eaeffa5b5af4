//! How often each operation gave each outcome.

mod edges;
mod levels;
mod limits;
mod texts;

pub use limits::Limited;

use crate::forms::Bytes;
use crate::full::as_conforms;
use crate::jobs::read_job;
use crate::limits::Limits;
use crate::loose::LOOSE;
use crate::model::Rules;
use crate::questions::{answer_with, operation, Call, Outcome, SchemaCache};
use texts::Texts;

const COLUMNS: [&str; WIDTH] = [
    "yes", "no", "none", "bytes", "r:", "o:", "1", "2", "3", "4", "5", "6", "7", "8", "9", "10",
    "11", "12", "13", "14", "15", "17", "measured", UNALLOWED,
];
const WIDTH: usize = 24;

/// Limits outside their ranges, which no job and no program has.
const UNALLOWED: &str = "20";

/// The operations, measuring, and then what is counted beside them. Of operation
/// 11: those with another outcome by operation 8, by that outcome; of these,
/// those where a count inside an argument makes it another. Of mode 2: the
/// operations that take a mode; those with another outcome in mode 1, by that
/// outcome, or by 9 and 10 where these are mode 2's; bounds and folds of sets
/// alone that come to their rule.
const ROWS: [&str; OTHERWISE + 5] = [
    "subtype",
    "bound",
    "disjoint",
    "lookup",
    "may-have",
    "names",
    "consistent",
    "convert",
    "conforms",
    "fold",
    "literal",
    "full",
    "measure type",
    "measure value",
    "conforms, not 11",
    ".. by arguments",
    "subtype 2",
    "bound 2",
    "fold 2",
    "subtype 1, not 2",
    "bound 1, not 2",
    "fold 1, not 2",
    "bound 2, sets",
    "fold 2, sets",
];

/// Where the rows beside the operations start: of measuring, which no job does,
/// of operation 11, and of mode 2.
const MEASURES: usize = operation::COUNT;
const NOT_FULL: usize = MEASURES + 2;
const IN_LOOSE: usize = NOT_FULL + 2;
const OTHERWISE: usize = IN_LOOSE + 3;
const OF_SETS: usize = OTHERWISE + 3;

/// The outcomes that each row can have in a job.
const POSSIBLE: [&[&str]; ROWS.len()] = [
    &["yes", "no", "1", "2", "3", "4"],
    &[
        "bytes", "1", "2", "3", "4", "10", "11", "12", "13", "14", "15",
    ],
    &["yes", "no", "3", "4"],
    &["none", "r:", "o:", "2", "3", "9"],
    &["yes", "no", "2", "3"],
    &["bytes", "2", "3", "9"],
    &["yes", "no", "3", "4", "6"],
    &["bytes", "3", "8"],
    &["yes", "no", "2", "3", "5", "7", "17"],
    &["bytes", "1", "2", "3", "9", "11", "12", "13", "14", "15"],
    &["none", "bytes", "2", "5", "10"],
    &["yes", "no", "2", "3", "5", "7", "17"],
    &["measured", "3"],
    &["measured", "5", "17"],
    &["yes", "7"],
    &["yes", "7"],
    &["yes", "no", "2", "3", "4"],
    &["bytes", "2", "3", "4", "10", "11", "12", "13", "14", "15"],
    &["bytes", "2", "3", "9", "11", "12", "13", "14", "15"],
    &[],
    &["bytes", "10", "11", "12", "13", "14", "15"],
    &["bytes", "9", "11", "12", "13", "14", "15"],
    &["bytes", "10"],
    &["bytes", "9"],
];

/// With rooms of any size, these refuse their answer too.
const WITH_ROOMS: [usize; 7] = [
    operation::LOOKUP as usize,
    operation::NAMES as usize,
    operation::CONVERT as usize,
    operation::FOLD as usize,
    IN_LOOSE + 2,
    OTHERWISE + 2,
    OF_SETS + 1,
];

/// What is counted.
#[derive(Clone, Copy, Default, PartialEq, Eq)]
enum Asked {
    #[default]
    InJobs,
    WithRooms,
    /// With rooms, and under other limits than the standard ones.
    UnderLimits,
}

#[derive(Clone, Default)]
pub struct Coverage {
    cells: [[u64; WIDTH]; ROWS.len()],
    pub jobs: u64,
    pub bad_jobs: u64,
    pub empty_name_lists: u64,
    texts: Texts,
    asked: Asked,
}

fn column(outcome: &Outcome) -> usize {
    match outcome {
        Outcome::Yes => 0,
        Outcome::No => 1,
        Outcome::Nothing => 2,
        Outcome::Typed(_) | Outcome::Named(_) => 3,
        Outcome::Attribute(true, _) => 4,
        Outcome::Attribute(false, _) => 5,
        Outcome::Refused(20) => WIDTH - 1,
        Outcome::Measured(..) => WIDTH - 2,
        Outcome::Refused(17) => WIDTH - 3,
        Outcome::Refused(n) => 5 + *n as usize,
    }
}

/// The row of an operation, or of measuring.
fn row(op: u8) -> usize {
    match op {
        operation::MEASURE_TYPE => MEASURES,
        operation::MEASURE_VALUE => MEASURES + 1,
        op => op as usize,
    }
}

/// The fault by which calls inside arguments are not counted.
const OUTER_ALONE: u32 = 317;

/// Is a bound of two sets asked for, or a fold of sets alone?
fn of_sets(call: &Call<'_>) -> bool {
    let set = |form: &&[u8]| form.first() == Some(&7);
    match call.op {
        operation::BOUND => set(&call.t0) && set(&call.t1),
        operation::FOLD => members(call.t0).is_some_and(|m| !m.is_empty() && m.iter().all(set)),
        _ => false,
    }
}

/// The members of a list; none if its bytes are too few.
fn members(list: &[u8]) -> Option<Vec<&[u8]>> {
    let mut b = Bytes(list);
    let n = b.u16()? as usize;
    let mut lengths = Bytes(b.take(2 * n)?);
    (0..n).map(|_| b.take(lengths.u16()? as usize)).collect()
}

impl Coverage {
    /// A table for calls with rooms of any size.
    pub fn with_rooms() -> Coverage {
        Coverage {
            asked: Asked::WithRooms,
            ..Coverage::default()
        }
    }

    /// A table for calls under other limits. It does not compare mode 2 with
    /// mode 1.
    fn under_limits() -> Coverage {
        Coverage {
            asked: Asked::UnderLimits,
            ..Coverage::default()
        }
    }

    /// The rows that are counted.
    fn rows(&self) -> impl Iterator<Item = usize> {
        let asked = self.asked;
        (0..ROWS.len()).filter(move |row| match asked {
            Asked::InJobs => !(MEASURES..NOT_FULL).contains(row),
            Asked::WithRooms => true,
            Asked::UnderLimits => *row < OTHERWISE,
        })
    }

    /// The columns that are shown.
    fn columns(&self) -> std::ops::Range<usize> {
        match self.asked {
            Asked::InJobs => 0..WIDTH - 2,
            Asked::WithRooms => 0..WIDTH - 1,
            Asked::UnderLimits => 0..WIDTH,
        }
    }

    /// How many columns of strings are counted: by operations 8 and 11, and by
    /// measuring.
    fn text_columns(&self) -> usize {
        match self.asked {
            Asked::InJobs => 2,
            Asked::WithRooms => 0,
            Asked::UnderLimits => 3,
        }
    }

    /// Count the outcomes of one job.
    pub fn count_job(&mut self, input: &[u8]) {
        let outcomes = read_job(input).map(|job| job.outcomes());
        self.count_outcomes(input, outcomes.as_deref());
    }

    /// Count what a job came to; none for a bad job.
    pub fn count_outcomes(&mut self, input: &[u8], outcomes: Option<&[Outcome]>) {
        self.jobs += 1;
        let (Some(job), Some(outcomes)) = (read_job(input), outcomes) else {
            self.bad_jobs += 1;
            return;
        };
        let schema = SchemaCache::of(Limits::STANDARD, job.schema);
        for (question, outcome) in job.questions.iter().zip(outcomes) {
            self.count_with(&question.call(job.schema), &schema, outcome);
        }
    }

    /// Count the outcome of one call.
    pub fn count(&mut self, call: &Call<'_>, outcome: &Outcome) {
        let schema = SchemaCache::of(call.limits, call.schema);
        self.count_with(call, &schema, outcome);
    }

    fn count_with(&mut self, call: &Call<'_>, schema: &SchemaCache<'_>, outcome: &Outcome) {
        self.cells[row(call.op)][column(outcome)] += 1;
        if let Some(bytes) = outcome.bytes() {
            self.empty_name_lists += bytes.is_empty() as u64;
            assert!(bytes.len() <= call.limits.bytes, "an answer over its limit");
        }
        if let Some(written) = outcome.written() {
            let within = (1..=call.limits.levels).contains(&written.levels);
            assert!(within, "levels over their limit");
        }
        if call.op == operation::FULL {
            self.count_full(call, schema, outcome);
        }
        if self.text_columns() > 0 {
            self.texts.count(call, schema, outcome);
        }
        let modes = [operation::SUBTYPE, operation::BOUND, operation::FOLD];
        if let Some(at) = modes.iter().position(|op| *op == call.op) {
            if call.mode == LOOSE {
                self.count_loose(at, call, schema, outcome);
            }
        }
    }

    /// Count what operation 11 came to beside operation 8.
    fn count_full(&mut self, call: &Call<'_>, schema: &SchemaCache<'_>, outcome: &Outcome) {
        let by_conforms = answer_with(&as_conforms(call), schema);
        if by_conforms == *outcome {
            return;
        }
        self.cells[NOT_FULL][column(&by_conforms)] += 1;
        let outer_alone = Rules { fault: OUTER_ALONE }.answer(call);
        if outer_alone != *outcome {
            self.cells[NOT_FULL + 1][column(&by_conforms)] += 1;
        }
    }

    /// Count what mode 2 came to beside its operation.
    fn count_loose(
        &mut self,
        at: usize,
        call: &Call<'_>,
        schema: &SchemaCache<'_>,
        outcome: &Outcome,
    ) {
        self.cells[IN_LOOSE + at][column(outcome)] += 1;
        if self.asked == Asked::UnderLimits {
            return;
        }
        let permissive = answer_with(&Call { mode: 1, ..*call }, schema);
        if permissive != *outcome {
            let by = match outcome {
                Outcome::Refused(9 | 10) => outcome,
                _ => &permissive,
            };
            self.cells[OTHERWISE + at][column(by)] += 1;
        }
        let ruled = !matches!(outcome, Outcome::Refused(2..=4));
        if ruled && of_sets(call) {
            self.cells[OF_SETS + at - 1][column(outcome)] += 1;
        }
    }

    pub fn questions(&self) -> u64 {
        self.cells[..NOT_FULL].iter().flatten().sum()
    }

    /// How many of the questions measure.
    pub fn measures(&self) -> u64 {
        self.cells[MEASURES..NOT_FULL].iter().flatten().sum()
    }

    /// How many of the questions are of operation 11.
    pub fn full(&self) -> u64 {
        self.cells[operation::FULL as usize].iter().sum()
    }

    /// How many of these have another outcome by operation 8.
    pub fn not_full(&self) -> u64 {
        self.cells[NOT_FULL].iter().sum()
    }

    /// How many of the questions are refused with 17.
    pub fn broken(&self) -> u64 {
        self.refused(17)
    }

    /// How many are refused with a number.
    fn refused(&self, number: u8) -> u64 {
        let at = column(&Outcome::Refused(number));
        let rows = self.cells[..NOT_FULL].iter();
        rows.map(|row| row[at]).sum()
    }

    /// How many of the questions are in mode 2.
    pub fn loose(&self) -> u64 {
        self.cells[IN_LOOSE..OTHERWISE].iter().flatten().sum()
    }

    fn possible(&self, row: usize, column: &str) -> bool {
        match column {
            UNALLOWED => self.asked == Asked::UnderLimits && !(NOT_FULL..IN_LOOSE).contains(&row),
            "10" if self.asked != Asked::InJobs && WITH_ROOMS.contains(&row) => true,
            _ => POSSIBLE[row].contains(&column),
        }
    }

    /// The cells that a test picks, by name.
    fn picked(&self, test: &dyn Fn(bool, u64) -> bool) -> Vec<String> {
        let mut picked = Vec::new();
        for row in self.rows() {
            for (at, name) in COLUMNS.iter().enumerate() {
                if test(self.possible(row, name), self.cells[row][at]) {
                    picked.push(format!("{}: {name}", ROWS[row]));
                }
            }
        }
        picked
    }

    /// The possible cells that were not reached.
    pub fn missing(&self) -> Vec<String> {
        let mut missing = self.picked(&|possible, count| possible && count == 0);
        if self.bad_jobs == 0 && self.asked == Asked::InJobs {
            missing.push("job 16".into());
        }
        missing.extend(self.texts.missing(self.text_columns()));
        missing
    }

    /// The cells that were reached though they are not possible.
    pub fn unexpected(&self) -> Vec<String> {
        self.picked(&|possible, count| !possible && count > 0)
    }

    /// The rows, one a line, `.` where an outcome is not possible; and those of
    /// strings.
    fn lines(&self) -> String {
        let mut out = format!("{:<16}", "");
        let columns = &COLUMNS[self.columns()];
        let put = |out: &mut String, text: &str| out.push_str(&format!("{text:>8}"));
        columns.iter().for_each(|name| put(&mut out, name));
        out.push('\n');
        for row in self.rows() {
            out.push_str(&format!("{:<16}", ROWS[row]));
            for (at, name) in columns.iter().enumerate() {
                match self.possible(row, name) || self.cells[row][at] > 0 {
                    true => put(&mut out, &self.cells[row][at].to_string()),
                    false => put(&mut out, "."),
                }
            }
            out.push('\n');
        }
        let strings = self.text_columns();
        if strings > 0 {
            out += "strings\n";
            out += &self.texts.table(strings);
        }
        out
    }

    /// The table.
    pub fn table(&self) -> String {
        self.lines()
            + &format!(
            "{} jobs, {} of them refused as a whole (16), {} questions, {} of them in mode 2, {} of operation 11, \
             {} of these not as operation 8, {} refused with 17, {} empty answers\n",
            self.jobs,
            self.bad_jobs,
            self.questions(),
            self.loose(),
            self.full(),
            self.not_full(),
            self.broken(),
            self.empty_name_lists
        )
    }
}
