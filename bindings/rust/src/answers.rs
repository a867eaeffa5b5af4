//! The library's number as Rust values.

use crate::refusal::Refusal;

/// What a call answered, the bytes in the result buffer: lengths, then levels.
enum Answer {
    Yes,
    No,
    Nothing,
    Wrote(usize, usize),
    Attribute(bool, usize, usize),
    Part(bool, usize, usize),
    Measured(usize, usize),
}

/// The kind in the low byte; then a refusal's number, or a length and levels, or
/// where a part starts and ends.
fn answer(number: u64) -> Result<Answer, Refusal> {
    let (value, above) = ((number >> 8 & 0xffff) as usize, (number >> 24) as usize);
    match number & 0xff {
        0 => Err(Refusal::from_number(value as u8).expect("a refusal of the library")),
        1 => Ok(Answer::Yes),
        2 => Ok(Answer::No),
        3 => Ok(Answer::Nothing),
        4 => Ok(Answer::Wrote(value, above)),
        kind @ (5 | 6) => Ok(Answer::Attribute(kind == 6, value, above)),
        kind @ (7 | 8) => Ok(Answer::Part(kind == 8, value, above)),
        9 => Ok(Answer::Measured(value, above)),
        kind => unreachable!("no answer is of kind {kind}"),
    }
}

/// How long a form is and how many levels it has.
///
/// A lone form is level 1, and each set element, attribute, set member, pair's
/// value or call argument is one level below its holder.
///
/// ```
/// use tirncheav::{measure_type, Limits, Measured};
/// // A set of Long.
/// let told = measure_type(Limits::default(), &[7, 4]);
/// assert_eq!(told, Ok(Measured { length: 2, levels: 2 }));
/// ```
#[derive(Clone, Copy, Debug, PartialEq, Eq)]
pub struct Measured {
    /// How many bytes it has.
    pub length: usize,
    /// How many levels it has.
    pub levels: usize,
}

/// A type that a call wrote.
///
/// ```
/// use tirncheav::{convert, measure_type, Limits, Measured, Written};
/// let mut out = [0; 2];
/// // A set of True becomes a set of Bool.
/// let Written { form, levels } = convert(Limits::default(), &[7, 1], &mut out).unwrap();
/// assert_eq!((form, levels), (&[7, 3][..], 2));
/// // What is told of it is what measuring it tells.
/// let told = measure_type(Limits::default(), form);
/// assert_eq!(told, Ok(Measured { length: form.len(), levels }));
/// ```
#[derive(Clone, Copy, Debug, PartialEq, Eq)]
pub struct Written<'a> {
    /// Its form, in the result buffer.
    pub form: &'a [u8],
    /// How many levels the form has.
    pub levels: usize,
}

/// An attribute whose type a call wrote.
///
/// ```
/// use tirncheav::{Attribute, Schema};
/// let schema = Schema::check(&[0; 6]).unwrap();
/// // {1: a set of Long}, required.
/// let t = [8, 0, 1, 0, 1, 0, 1, 2, 0, 7, 4];
/// let mut out = [0; 2];
/// let found = schema.lookup_attribute_type(1, &t, &mut out, &mut []);
/// let set = Attribute { required: true, form: &[7, 4], levels: 2 };
/// assert_eq!(found, Ok(Some(set)));
/// ```
#[derive(Clone, Copy, Debug, PartialEq, Eq)]
pub struct Attribute<'a> {
    /// Whether each value of the type has it.
    pub required: bool,
    /// The form of its type, in the result buffer.
    pub form: &'a [u8],
    /// How many levels the form has.
    pub levels: usize,
}

/// An attribute whose type is a part of the form that was asked. How many levels
/// the part has is not told.
///
/// ```
/// use tirncheav::{measure_type, Limits, Measured, Part, Schema};
/// let schema = Schema::check(&[0; 6]).unwrap();
/// // {1: a set of Long}, required.
/// let t = [8, 0, 1, 0, 1, 0, 1, 2, 0, 7, 4];
/// let part = schema.own_attribute_type(1, &t).unwrap().unwrap();
/// assert_eq!(part, Part { required: true, form: &t[9..] });
/// // A part is a form: it can be measured.
/// let told = measure_type(Limits::default(), part.form);
/// assert_eq!(told, Ok(Measured { length: 2, levels: 2 }));
/// ```
#[derive(Clone, Copy, Debug, PartialEq, Eq)]
pub struct Part<'a> {
    /// Whether each value of the type has it.
    pub required: bool,
    /// The form of its type, in the form that was asked.
    pub form: &'a [u8],
}

pub(crate) fn yes_or_no(number: u64) -> Result<bool, Refusal> {
    match answer(number)? {
        Answer::Yes => Ok(true),
        Answer::No => Ok(false),
        _ => unreachable!("the call answers yes or no"),
    }
}

pub(crate) fn measured(number: u64) -> Result<Measured, Refusal> {
    match answer(number)? {
        Answer::Measured(length, levels) => Ok(Measured { length, levels }),
        _ => unreachable!("the call measures"),
    }
}

pub(crate) fn written(number: u64, out: &[u8]) -> Result<Written<'_>, Refusal> {
    let written = written_or_none(number, out)?;
    Ok(written.expect("the call writes a type"))
}

pub(crate) fn written_or_none(number: u64, out: &[u8]) -> Result<Option<Written<'_>>, Refusal> {
    match answer(number)? {
        Answer::Wrote(n, levels) => Ok(Some(Written {
            form: &out[..n],
            levels,
        })),
        Answer::Nothing => Ok(None),
        _ => unreachable!("the call writes a type or finds nothing"),
    }
}

pub(crate) fn names(number: u64, out: &[u8]) -> Result<&[u8], Refusal> {
    match answer(number)? {
        Answer::Wrote(n, 0) => Ok(&out[..n]),
        _ => unreachable!("the call writes names, which have no levels"),
    }
}

pub(crate) fn attribute(number: u64, out: &[u8]) -> Result<Option<Attribute<'_>>, Refusal> {
    match answer(number)? {
        Answer::Attribute(required, n, levels) => Ok(Some(Attribute {
            required,
            form: &out[..n],
            levels,
        })),
        Answer::Nothing => Ok(None),
        _ => unreachable!("the call finds an attribute or nothing"),
    }
}

pub(crate) fn part(number: u64, t: &[u8]) -> Result<Option<Part<'_>>, Refusal> {
    match answer(number)? {
        Answer::Part(required, start, end) => Ok(Some(Part {
            required,
            form: &t[start..end],
        })),
        Answer::Nothing => Ok(None),
        _ => unreachable!("the call finds a part or nothing"),
    }
}
