//! Why a call has no answer.

use std::fmt;

/// The question that refused, by its number. `Limits` is asked before any other,
/// `Text` right after `Value`.
#[derive(Clone, Copy, Debug, PartialEq, Eq, Hash, PartialOrd, Ord)]
pub enum Refusal {
    Mode = 1,
    Schema = 2,
    First = 3,
    Second = 4,
    Value = 5,
    Plain = 6,
    Function = 7,
    Conversion = 8,
    Workspace = 9,
    Result = 10,
    AttributeQualifier = 11,
    RecordWidth = 12,
    EntityType = 13,
    EntityRecord = 14,
    NoBound = 15,
    Text = 17,
    Limits = 20,
}

use Refusal::*;

/// Each refusal and what it says.
const ALL: [(Refusal, &str); 17] = [
    (Mode, "the mode is none of strict, permissive and loose"),
    (Schema, "the schema is not whole"),
    (First, "the first type, or the list, is not whole"),
    (Second, "the second type is not whole"),
    (Value, "the value is not whole, or a literal is no uid"),
    (Plain, "the second type is not plain"),
    (Function, "an unknown extension function was reached"),
    (Conversion, "the type has no core type"),
    (
        Workspace,
        "a step's bound is longer than half of the workspace or than a form may be",
    ),
    (
        Result,
        "the answer is longer than the result buffer or than a form may be",
    ),
    (
        AttributeQualifier,
        "an attribute is required on one side only",
    ),
    (RecordWidth, "an attribute is on one side only"),
    (EntityType, "the entity types differ"),
    (EntityRecord, "an entity has no bound with a record"),
    (NoBound, "the types have no bound"),
    (Text, "a string of the value is not UTF-8"),
    (Limits, "a limit is outside its range"),
];

impl Refusal {
    /// The number that the library and a job's line give.
    pub fn number(self) -> u8 {
        self as u8
    }

    /// The refusal of a number: 1 to 15, 17 or 20.
    pub fn from_number(number: u8) -> Option<Refusal> {
        let mut all = ALL.iter().map(|(refusal, _)| *refusal);
        all.find(|refusal| refusal.number() == number)
    }
}

impl fmt::Display for Refusal {
    fn fmt(&self, f: &mut fmt::Formatter<'_>) -> fmt::Result {
        let (_, said) = ALL
            .iter()
            .find(|(refusal, _)| refusal == self)
            .expect("all are there");
        write!(f, "{said} ({})", self.number())
    }
}

impl std::error::Error for Refusal {}
