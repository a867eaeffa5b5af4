//! Strings: which characters stand in those of a yes, or of a value that is
//! measured; what is damaged in those of a 17, where these stand, and what the
//! outcome would be without them.

use crate::generate::EDGES;
use crate::limits::Limits;
use crate::model::places::{self, Found, Place};
use crate::model::{Counts, Rules};
use crate::questions::{operation::*, Call, Outcome, SchemaCache};
use crate::trees::{Sch, Ty, Val};
use std::collections::BTreeMap;

/// The faults by which strings are not examined, and by which they are as soon
/// as they are read.
const UNEXAMINED: u32 = 20;
const AS_READ: u32 = 410;

const COLUMNS: [&str; WIDTH] = ["conforms", "full", "measured"];
const WIDTH: usize = 3;

/// The column of measuring, which no job does.
const MEASURES: usize = WIDTH - 1;

/// Characters of strings in a value that gets a yes or is measured, as in
/// `EDGES`, and a character that is not ASCII behind a block.
const IN_YES: [&str; EDGES.len()] = [
    "yes, U+0000",
    "yes, U+007F",
    "yes, U+0080",
    "yes, U+07FF",
    "yes, U+0800",
    "yes, U+D7FF",
    "yes, U+E000",
    "yes, U+FEFF",
    "yes, U+FFFF",
    "yes, U+10000",
    "yes, U+10FFFF",
];
const BEHIND_8: [&str; 2] = ["yes, behind 8", "17, behind 8"];
const BEHIND_64: [&str; 2] = ["yes, behind 64", "17, behind 64"];

/// What is damaged.
const TAIL: &str = "17, tail alone";
const TWO: &str = "17, C0 or C1";
const THREE: &str = "17, E0 80 to 9F";
const SURROGATE: &str = "17, ED A0 to BF";
const FOUR: &str = "17, F0 80 to 8F";
const ABOVE: &str = "17, F4 90 to BF";
const FIRST: &str = "17, F5 to FF";
const CUT_BY_END: &str = "17, cut by end";
const CUT_BY_BYTE: &str = "17, cut by byte";
const DAMAGES: [&str; 9] = [
    TAIL,
    TWO,
    THREE,
    SURROGATE,
    FOUR,
    ABOVE,
    FIRST,
    CUT_BY_END,
    CUT_BY_BYTE,
];

/// A character cut in two between strings that stand side by side.
const ACROSS: &str = "17, across two";

type Test = fn(&Found<'_, '_>) -> bool;

/// Where every string stands that is damaged.
const PLACES: [(&str, Test); 12] = [
    ("17, itself", |f| f.at.level == 1),
    ("17, in set", |f| f.at.in_set),
    ("17, in record", |f| f.at.in_record),
    ("17, in call", |f| f.at.in_call),
    ("17, as asked", |f| f.at.string_asked() && !f.ended),
    ("17, not as asked", |f| f.at.kind_differs() && !f.ended),
    ("17, untyped", |f| f.at.place == Place::Untyped),
    ("17, unlisted", |f| f.at.place == Place::Unlisted),
    ("17, undeclared", |f| f.at.place == Place::Undeclared),
    ("17, of unknown", |f| f.at.place == Place::OfUnknown),
    ("17, of another", |f| f.at.place == Place::OfAnother),
    ("17, behind no", |f| f.ended && f.at.place == Place::Walked),
];
const LAST_LEVEL: &str = "17, last level";

/// How many of the places a value has that no type is asked of.
const UNTYPED: usize = 4;

/// What the outcome would be, and what refuses such a value before.
const ELSE_YES: &str = "17, else yes";
const ELSE_NO: &str = "17, else no";
const ELSE_7: &str = "17, else 7";
const BEFORE: [(u8, &str); 3] = [(2, "2, else 17"), (3, "3, else 17"), (5, "5, else 17")];

fn rows() -> Vec<&'static str> {
    let places = PLACES.iter().map(|(row, _)| *row);
    let before = BEFORE.iter().map(|(_, row)| *row);
    let mut rows = IN_YES.to_vec();
    rows.extend(BEHIND_8.iter().chain(&BEHIND_64).chain(&DAMAGES));
    rows.push(ACROSS);
    rows.extend(places.chain([LAST_LEVEL, ELSE_YES, ELSE_NO, ELSE_7]));
    rows.extend(before);
    rows
}

/// Can measuring meet a row? It asks for no schema and no type.
fn measurable(row: &str) -> bool {
    let typed = PLACES[UNTYPED..].iter().map(|(row, _)| *row);
    let before = BEFORE[..2].iter().map(|(_, row)| *row);
    let mut others = typed.chain(before).chain([ELSE_YES, ELSE_NO, ELSE_7]);
    others.all(|other| other != row)
}

/// How often each row was met, by operation 8, by 11, and by measuring.
#[derive(Clone, Default)]
pub struct Texts(BTreeMap<&'static str, [u64; WIDTH]>);

/// The damage at the first place where a string is not UTF-8.
fn damage(string: &[u8]) -> Option<&'static str> {
    let error = std::str::from_utf8(string).err()?;
    let rest = &string[error.valid_up_to()..];
    Some(match (rest[0], rest.get(1)) {
        (0x80..=0xbf, _) => TAIL,
        (0xc0 | 0xc1, _) => TWO,
        (0xf5..=0xff, _) => FIRST,
        (0xe0, Some(0x80..=0x9f)) => THREE,
        (0xed, Some(0xa0..=0xbf)) => SURROGATE,
        (0xf0, Some(0x80..=0x8f)) => FOUR,
        (0xf4, Some(0x90..=0xbf)) => ABOVE,
        _ if error.error_len().is_none() => CUT_BY_END,
        _ => CUT_BY_BYTE,
    })
}

/// How many bytes of ASCII a string starts with, if there are others.
fn ascii_before(string: &[u8]) -> Option<usize> {
    string.iter().position(|b| !b.is_ascii())
}

/// The form of a call's value.
fn form<'a>(call: &Call<'a>) -> &'a [u8] {
    match call.op {
        MEASURE_VALUE => call.t0,
        _ => call.t1,
    }
}

/// The value of a call, if it is whole.
fn value(call: &Call<'_>) -> Option<Val> {
    Rules::SOUND.whole_value(call.limits, form(call))
}

/// The rows of strings that stand behind blocks of ASCII.
fn behind_blocks(strings: &[&[u8]], broken: bool) -> Vec<&'static str> {
    let before = strings.iter().filter_map(|s| ascii_before(s)).max();
    let mut rows = Vec::new();
    for (width, names) in [(8, BEHIND_8), (64, BEHIND_64)] {
        if before.is_some_and(|n| n >= width) {
            rows.push(names[broken as usize]);
        }
    }
    rows
}

/// The rows of a yes.
fn rows_of_text(value: &Val) -> Vec<&'static str> {
    let strings = value.strings();
    let mut rows = behind_blocks(&strings, false);
    for (row, edge) in IN_YES.into_iter().zip(EDGES) {
        let has = |s: &&[u8]| std::str::from_utf8(s).is_ok_and(|s| s.contains(edge));
        if strings.iter().any(has) {
            rows.push(row);
        }
    }
    rows
}

/// The rows of a 17 of a conformance.
fn rows_of_broken(call: &Call<'_>, cache: &SchemaCache<'_>, value: &Val) -> Vec<&'static str> {
    let counts = match call.op {
        FULL => Counts::Declared,
        _ => Counts::Any,
    };
    let ty = Rules::SOUND.whole_type(call.limits, call.t0);
    let ty = ty.expect("a whole type");
    let found = places::strings(counts, cache.tree(), &ty, value);
    let mut rows = rows_of_places(call.limits, value, &found, &PLACES);
    rows.push(match (Rules { fault: UNEXAMINED }).answer(call) {
        Outcome::Yes => ELSE_YES,
        Outcome::No => ELSE_NO,
        _ => ELSE_7,
    });
    rows
}

/// The rows of a 17 of a value that is measured.
fn rows_of_unmeasured(limits: Limits, value: &Val) -> Vec<&'static str> {
    let (untyped, empty) = (Ty::Atom(6), Sch::default());
    let found = places::strings(Counts::Any, &empty, &untyped, value);
    rows_of_places(limits, value, &found, &PLACES[..UNTYPED])
}

/// The rows of what is damaged, and of the places where all that is stands.
fn rows_of_places(
    limits: Limits,
    value: &Val,
    found: &[Found<'_, '_>],
    places: &[(&'static str, Test)],
) -> Vec<&'static str> {
    let broken = found.iter().filter(|f| damage(f.bytes).is_some());
    let broken: Vec<&Found<'_, '_>> = broken.collect();
    let strings: Vec<&[u8]> = broken.iter().map(|f| f.bytes).collect();
    let mut rows = behind_blocks(&strings, true);
    rows.extend(strings.iter().filter_map(|s| damage(s)));
    rows.sort();
    rows.dedup();
    let all = |test: Test| broken.iter().all(|f| test(f));
    rows.extend(places.iter().filter(|(_, t)| all(*t)).map(|(row, _)| *row));
    if broken.iter().all(|f| f.at.level == limits.levels) {
        rows.push(LAST_LEVEL);
    }
    if std::str::from_utf8(&value.strings().concat()).is_ok() {
        rows.push(ACROSS);
    }
    rows
}

/// Is the value whole, with a string that is not UTF-8; or, not whole, is such
/// a string read before that shows?
fn would_be_17(call: &Call<'_>) -> bool {
    match value(call) {
        Some(value) => value.strings().iter().any(|s| damage(s).is_some()),
        None => Rules { fault: AS_READ }.reads_broken(call.limits, form(call)),
    }
}

impl Texts {
    /// Count the strings of a call and what it came to.
    pub fn count(&mut self, call: &Call<'_>, cache: &SchemaCache<'_>, outcome: &Outcome) {
        let column = match call.op {
            CONFORMS => 0,
            FULL => 1,
            MEASURE_VALUE => MEASURES,
            _ => return,
        };
        let rows = match (outcome, value(call)) {
            (Outcome::Yes | Outcome::Measured(..), Some(value)) => rows_of_text(&value),
            (Outcome::Refused(17), Some(value)) if column == MEASURES => {
                rows_of_unmeasured(call.limits, &value)
            }
            (Outcome::Refused(17), Some(value)) => rows_of_broken(call, cache, &value),
            (Outcome::Refused(n), _) => {
                let before = BEFORE.iter().find(|(number, _)| number == n);
                let row = before.filter(|_| would_be_17(call));
                row.map(|(_, row)| *row).into_iter().collect()
            }
            _ => Vec::new(),
        };
        for row in rows {
            self.0.entry(row).or_default()[column] += 1;
        }
    }

    fn met(&self, row: &str) -> [u64; WIDTH] {
        self.0.get(row).copied().unwrap_or_default()
    }

    /// The possible cells of the first so many columns that were not met.
    pub fn missing(&self, columns: usize) -> Vec<String> {
        let mut missing = Vec::new();
        for row in rows() {
            for (at, count) in self.met(row).iter().take(columns).enumerate() {
                if *count == 0 && (at != MEASURES || measurable(row)) {
                    missing.push(format!("{}: {row}", COLUMNS[at]));
                }
            }
        }
        missing
    }

    /// The first so many columns.
    pub fn table(&self, columns: usize) -> String {
        let mut out = format!("{:<16}", "");
        let names = COLUMNS.iter().take(columns);
        names.for_each(|c| out += &format!("{c:>12}"));
        out.push('\n');
        for row in rows() {
            out += &format!("{row:<16}");
            for (at, count) in self.met(row).iter().take(columns).enumerate() {
                match at != MEASURES || measurable(row) {
                    true => out += &format!("{count:>12}"),
                    false => out += &format!("{:>12}", "."),
                }
            }
            out.push('\n');
        }
        out
    }
}
