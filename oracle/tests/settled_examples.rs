//! The settled examples of 01, put to the published functions.

use oracle::jobs::lines;
use oracle::limits::Limits;
use oracle::questions::{answer, operation::*, Call, Outcome, Written};

const EMPTY: &[u8] = &[0, 0, 0, 0, 0, 0];
const R_LONG: &str = "08 00 01 00 01 00 01 01 00 04";
const R_STRING: &str = "08 00 01 00 01 00 01 01 00 05";

fn hex(text: &str) -> Vec<u8> {
    let byte = |h: &str| u8::from_str_radix(h, 16).unwrap();
    text.split_whitespace().map(byte).collect()
}

fn ask(op: u8, mode: u8, attr: u16, schema: &[u8], t0: &str, t1: &str) -> Outcome {
    ask_in(op, mode, attr, schema, &hex(t0), &hex(t1), 4096)
}

fn ask_in(
    op: u8,
    mode: u8,
    attr: u16,
    schema: &[u8],
    t0: &[u8],
    t1: &[u8],
    room: usize,
) -> Outcome {
    answer(&Call {
        limits: Limits::STANDARD,
        op,
        mode,
        attr,
        schema,
        t0,
        t1,
        room,
        work: 8192,
    })
}

fn two(op: u8, mode: u8, t0: &str, t1: &str) -> Outcome {
    ask(op, mode, 0, EMPTY, t0, t1)
}

fn typed(form: &str, levels: usize) -> Outcome {
    let form = hex(form);
    Outcome::Typed(Written { form, levels })
}

#[test]
fn records_without_a_shared_type() {
    assert_eq!(two(BOUND, 1, R_LONG, R_STRING), typed("08 01 00 00", 1));
    assert_eq!(two(BOUND, 0, R_LONG, R_STRING), Outcome::Refused(15));
}

#[test]
fn sets_of_unlike_elements() {
    for mode in [0, 1] {
        assert_eq!(two(BOUND, mode, "07 04", "07 05"), Outcome::Refused(15));
        assert_eq!(two(SUBTYPE, mode, "07 04", "06"), Outcome::Yes);
        assert_eq!(two(SUBTYPE, mode, "07 05", "06"), Outcome::Yes);
    }
}

#[test]
fn fold_of_nothing_and_true_with_false() {
    assert_eq!(two(FOLD, 0, "00 00", ""), typed("00", 1));
    assert_eq!(two(BOUND, 0, "01", "02"), typed("03", 1));
}

#[test]
fn entities() {
    let (a, b) = ("0a 01 00 02 00", "0a 01 00 04 00");
    assert_eq!(two(BOUND, 1, a, b), typed("0a 02 00 02 00 04 00", 1));
    assert_eq!(two(BOUND, 0, a, b), Outcome::Refused(13));
    assert_eq!(two(DISJOINT, 0, a, b), Outcome::Yes);
}

#[test]
fn width() {
    let closed = "08 00 02 00 01 00 01 01 00 02 00 01 01 00 04 04";
    let open = "08 01 01 00 01 00 01 01 00 04";
    assert_eq!(two(SUBTYPE, 1, closed, open), Outcome::Yes);
    assert_eq!(two(SUBTYPE, 0, closed, open), Outcome::No);
    assert_eq!(two(SUBTYPE, 0, closed, R_LONG), Outcome::No);
    assert_eq!(two(SUBTYPE, 1, closed, R_LONG), Outcome::No);
}

#[test]
fn required_with_optional() {
    let optional = "08 00 01 00 01 00 00 01 00 04";
    assert_eq!(two(BOUND, 0, R_LONG, optional), Outcome::Refused(11));
    assert_eq!(two(BOUND, 1, R_LONG, optional), typed(optional, 2));
}

#[test]
fn actions_and_records() {
    let (a, b) = ("0b 03 00 00 00", "0b 03 00 01 00 01 00 01 01 00 04");
    for mode in [0, 1] {
        assert_eq!(two(BOUND, mode, a, b), Outcome::Refused(12));
        let entity = two(BOUND, mode, R_LONG, "0a 01 00 02 00");
        assert_eq!(entity, Outcome::Refused(14));
    }
}

#[test]
fn missing_entity_type() {
    let ty = "0a 01 00 02 00";
    assert_eq!(ask(LOOKUP, 0, 1, EMPTY, ty, ""), Outcome::Nothing);
    assert_eq!(ask(MAY_HAVE, 0, 1, EMPTY, ty, ""), Outcome::Yes);
}

#[test]
fn an_argument_too_many() {
    let schema = hex("00 00 00 00 01 00 05 00 01 07 00 03 00 02 00 00");
    let call = "07 05 00 02 00 09 00 01 00 02 00 00 00 00 00 00 00 00 01";
    assert_eq!(ask(CONFORMS, 0, 0, &schema, "0c 07 00", call), Outcome::Yes);
}

#[test]
fn levels() {
    let mut form = vec![7; 15];
    form.push(4);
    let ask = |form: &[u8]| ask_in(SUBTYPE, 0, 0, EMPTY, form, form, 0);
    assert_eq!(ask(&form), Outcome::Yes);
    form.insert(0, 7);
    assert_eq!(ask(&form), Outcome::Refused(3));
}

#[test]
fn room_of_the_exact_size() {
    let form = hex(R_LONG);
    let ask = |room| ask_in(BOUND, 0, 0, EMPTY, &form, &form, room);
    assert_eq!(ask(10), typed(R_LONG, 2));
    assert_eq!(ask(9), Outcome::Refused(10));
}

#[test]
fn the_job() {
    let mut job = hex("06 00 03 00");
    job.extend(hex("00 01 00 00 01 00 01 00"));
    job.extend(hex("01 01 00 00 0a 00 0a 00"));
    job.extend(hex("01 00 00 00 0a 00 0a 00"));
    job.extend(EMPTY);
    job.extend(hex("01 03"));
    for _ in 0..2 {
        job.extend(hex(R_LONG));
        job.extend(hex(R_STRING));
    }
    assert_eq!(lines(&job), b"0 0 yes\n1 0 08010000\n2 15 -\n");
    job.push(0);
    assert_eq!(lines(&job), b"- 16 -\n");
}
