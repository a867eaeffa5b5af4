//! Mode 2: its examples, its claims on every small pair and on generated types,
//! and the number from which modes are refused.

use oracle::exhaustive;
use oracle::forms::read_schema;
use oracle::generate::Gen;
use oracle::jobs::lines;
use oracle::limits::Limits;
use oracle::loose;
use oracle::properties::{try_claims, Tallies};
use oracle::questions::{answer, operation::*, Call, Outcome, Written};
use oracle::trees::{job_form, Ask};

const EMPTY: &[u8] = &[0; 6];

fn hex(text: &str) -> Vec<u8> {
    let byte = |h: &str| u8::from_str_radix(h, 16).unwrap();
    text.split_whitespace().map(byte).collect()
}

fn call<'a>(op: u8, schema: &'a [u8], t0: &'a [u8], t1: &'a [u8]) -> Call<'a> {
    Call {
        limits: Limits::STANDARD,
        op,
        mode: 2,
        attr: 0,
        schema,
        t0,
        t1,
        room: 4096,
        work: 8192,
    }
}

fn bound(a: &str, b: &str) -> Outcome {
    answer(&call(BOUND, EMPTY, &hex(a), &hex(b)))
}

fn typed(form: &str, levels: usize) -> Outcome {
    let form = hex(form);
    Outcome::Typed(Written { form, levels })
}

#[test]
fn unlike_sets_are_untyped() {
    assert_eq!(bound("07 04", "07 05"), typed("06", 1));
    assert_eq!(bound("07 07 04", "07 07 05"), typed("07 06", 2));
    assert_eq!(bound("07 07 04", "07 04"), typed("06", 1));
    assert_eq!(bound("07 01", "07 02"), typed("07 03", 2));
    assert_eq!(bound("07 04", "04"), Outcome::Refused(15));
    let (a, b) = (
        "08 00 01 00 01 00 01 02 00 07 04",
        "08 00 01 00 01 00 01 02 00 07 05",
    );
    assert_eq!(bound(a, b), typed("08 00 01 00 01 00 01 01 00 06", 2));
}

#[test]
fn actions_of_one_name_join_strictly() {
    let long = "0b 03 00 01 00 01 00 01 02 00 07 04";
    let string = "0b 03 00 01 00 01 00 01 02 00 07 05";
    assert_eq!(bound(long, string), Outcome::Refused(15));
    let set = |t: &str| format!("07 {t}");
    assert_eq!(bound(&set(long), &set(string)), typed("06", 1));
    let held = |t: &str| format!("08 00 01 00 01 00 01 0c 00 {t}");
    assert_eq!(bound(&held(long), &held(string)), typed("08 01 00 00", 1));
    let entity = |n: u8| format!("0b 03 00 01 00 01 00 01 05 00 0a 01 00 {n:02x} 00");
    assert_eq!(bound(&entity(2), &entity(4)), Outcome::Refused(13));
}

#[test]
fn a_fold_in_every_order() {
    for list in ["07 04 07 05 06", "06 07 04 07 05"] {
        let lengths = match list.starts_with("06") {
            true => "01 00 02 00 02 00",
            false => "02 00 02 00 01 00",
        };
        let list = hex(&format!("03 00 {lengths} {list}"));
        assert_eq!(answer(&call(FOLD, EMPTY, &list, &[])), typed("06", 1));
    }
}

/// Types 2 and 4 with {1: set of Long} and {1: set of String}: lookup and
/// names take no mode and stay permissive.
#[test]
fn lookup_stays_permissive() {
    let bodies = "08 00 01 00 01 00 01 02 00 07 04 08 00 01 00 01 00 01 02 00 07 05";
    let schema = hex(&format!(
        "02 00 00 00 00 00 02 00 00 0b 00 04 00 00 0b 00 {bodies}"
    ));
    let union = hex("0a 02 00 02 00 04 00");
    let lookup = Call {
        attr: 1,
        ..call(LOOKUP, &schema, &union, &[])
    };
    assert_eq!(answer(&lookup), Outcome::Nothing);
    let names = answer(&call(NAMES, &schema, &union, &[]));
    assert_eq!(names, Outcome::Named(Vec::new()));
}

/// Sets of so many names from a place.
fn names(start: u16, count: u16) -> Vec<u8> {
    let mut form = vec![7, 10];
    form.extend(count.to_le_bytes());
    (start..start + count).for_each(|n| form.extend((2 * n).to_le_bytes()));
    form
}

#[test]
fn an_element_that_is_too_long_has_a_bound() {
    let (a, b) = (names(0, 1024), names(1024, 1023));
    assert_eq!(answer(&call(BOUND, EMPTY, &a, &b)), Outcome::Refused(10));
    let mut list = vec![2, 0];
    for t in [&a, &b] {
        list.extend((t.len() as u16).to_le_bytes());
    }
    let list = [list, a, b].concat();
    assert_eq!(answer(&call(FOLD, EMPTY, &list, &[])), Outcome::Refused(9));
}

#[test]
fn mode_3_is_refused_and_the_job_is_whole() {
    let ask = |mode| Ask {
        op: BOUND,
        mode,
        attr: 0,
        t0: vec![7, 4],
        t1: vec![7, 5],
    };
    let job = job_form(EMPTY, &[ask(2), ask(3), ask(255)]);
    assert_eq!(lines(&job), b"0 0 06\n1 1 -\n2 1 -\n");
}

/// The model beside the published function on every small pair.
#[test]
fn small_bounds_are_the_published_ones_where_unlike_sets_are_untyped() {
    let schema = read_schema(Limits::STANDARD, EMPTY).expect("whole");
    let types = exhaustive::paired();
    for a in types.iter().map(|t| t.form()) {
        for b in types.iter().map(|t| t.form()) {
            let bound = loose::bound(&a, &b);
            let published = loose::bound_by_published(&schema, &a, &b);
            assert_eq!(bound, published, "{a:02x?} {b:02x?}");
        }
    }
}

/// The claims that fail, and must.
const FAILING: [&str; 4] = [
    "loose: a bound is above both, actions unlike",
    "loose: a bound is below all above both, actions unlike",
    "loose: a bound is the permissive one, where there is one",
    "loose: a fold is the same in every order, actions unlike",
];

#[test]
fn claims_hold() {
    let (mut gen, mut tallies) = (Gen::new(4), Tallies::default());
    (0..20_000).for_each(|_| try_claims(&mut gen, &mut tallies));
    for (name, tally) in &tallies.0 {
        if name.starts_with("loose: ") {
            assert!(tally.tried > 100, "{name}");
            let fails = FAILING.contains(name);
            assert_eq!(tally.failed > 0, fails, "{name}: {:?}", tally.smallest);
        }
    }
}
